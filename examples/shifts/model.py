# Who of four people works on which day of a week, so that each day is covered, nobody works over five days, and wishes are kept?
import cvxpy as cp
import numpy as np

need = np.array([2, 2, 2, 3, 3, 3, 2])  # people on each day, Monday first
wish = np.array([       # a row for each person: 3 where a day is wanted least, 0 where it is wanted
    [0, 0, 1, 1, 2, 3, 3],
    [2, 1, 0, 0, 0, 1, 3],
    [3, 3, 1, 0, 0, 0, 0],
    [0, 1, 2, 3, 1, 0, 1],
])
most = cp.Parameter(nonneg=True, value=5)

works = cp.Variable((4, 7), boolean=True)

rules = [cp.sum(works, axis=0) == need, cp.sum(works, axis=1) <= most]
for day in range(6):
    rules += [works[0, day] + works[1, day] >= 1]  # one of the two who have the keys, up to Saturday
for person in range(4):
    for day in range(4):
        rules += [cp.sum(works[person, day:day + 4]) <= 3]  # three days in a row, and not four

prob = cp.Problem(cp.Minimize(cp.sum(cp.multiply(wish, works))), rules)
