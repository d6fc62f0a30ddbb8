"""A round trip of seven towns: subtours are cut off as they appear."""
import cvxpy as cp
import numpy as np

towns = np.array([[0, 0], [2, 1], [1, 3], [7, 1], [8, 3], [6, 4], [4, 8]])
n = len(towns)
lengths = np.abs(towns[:, None, :] - towns[None, :, :]).sum(axis=2)

go = cp.Variable((n, n), boolean=True)
rules = [cp.sum(go, axis=0) == 1, cp.sum(go, axis=1) == 1, cp.diag(go) == 0]
objective = cp.Minimize(cp.sum(cp.multiply(lengths, go)))


def tours(choice):
    left, found = set(range(n)), []
    while left:
        town = min(left)
        tour = []
        while town in left:
            left.remove(town)
            tour.append(town)
            town = int(np.argmax(choice[town]))
        found.append(tour)
    return found


rounds = 0
while True:
    problem = cp.Problem(objective, rules)
    problem.solve()
    rounds += 1
    found = tours(go.value)
    print(f"round {rounds}: length {problem.value}, {found}")
    if len(found) == 1:
        break
    for tour in found:
        inside = np.ix_(tour, tour)
        rules.append(cp.sum(go[inside]) <= len(tour) - 1)

ANSWER = {"length": problem.value}
