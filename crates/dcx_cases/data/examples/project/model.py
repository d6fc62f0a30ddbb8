# When the tasks of a project start, and which of them are made shorter for money, so that all is done within a number of days.
import cvxpy as cp
import numpy as np

#                      ground walls roof wiring windows paint
usual      = np.array([  6,    8,    5,   4,     3,      4])
shortest   = np.array([  4,    5,    3,   2,     2,      2])
day_costs  = np.array([ 50,   30,   80,  60,    20,     25])
before = [[0, 1], [1, 2], [1, 3], [1, 4], [2, 5], [3, 5], [4, 5]]

days = cp.Parameter(nonneg=True)
start = cp.Variable(6, nonneg=True)
duration = cp.Variable(6)

rules = [shortest <= duration, duration <= usual]
rules += [start[pair[0]] + duration[pair[0]] <= start[pair[1]] for pair in before]
rules += [cp.max(start + duration) <= days]

prob = cp.Problem(cp.Minimize(day_costs @ (usual - duration) + cp.sum(start)/100), rules)
