"""Which warehouses to open, and who is served from where."""
import itertools

import cvxpy as cp
import numpy as np

warehouses = {"Graz": 130, "Linz": 160, "Wels": 110, "Enns": 95}
customers = ["c1", "c2", "c3", "c4", "c5", "c6"]
distance = dict(zip(
    itertools.product(warehouses, customers),
    [12, 40, 33, 25, 60, 18,
     35, 14, 22, 48, 31, 27,
     28, 21, 11, 39, 44, 36,
     50, 26, 30, 15, 23, 41]))

opened = {w: cp.Variable(boolean=True) for w in warehouses}
served = {w: cp.Variable(len(customers), nonneg=True) for w in warehouses}

constraints = [sum(served[w] for w in warehouses) == 1]
for w in warehouses:
    constraints.append(served[w] <= opened[w])
    constraints.append(cp.sum(served[w]) <= 4)

fixed = sum(cost * opened[w] for w, cost in warehouses.items())
travel = sum(np.array([3 * distance[w, c] for c in customers]) @ served[w] for w in warehouses)
problem = cp.Problem(cp.Minimize(fixed + travel), constraints)
problem.solve(solver=cp.HIGHS)

chosen = [w for w in warehouses if opened[w].value > 0.5]
print("open", ", ".join(chosen), "at", problem.value)
for index, customer in enumerate(customers):
    share = {w: round(float(served[w].value[index]), 3) for w in chosen}
    print(customer, share)

ANSWER = {"cost": problem.value, "fixed": float(fixed.value), "count": float(len(chosen))}
