"""Projects from a CSV text: which to fund, with two budgets and exclusions."""
import csv
import io

import cvxpy as cp
import numpy as np

TABLE = """project,gain,cost,people,group
roof,46,30,2,a
windows,31,18,1,a
heating,60,41,3,b
solar,75,52,2,b
bikes,22,9,1,c
garden,17,7,2,c
painting,12,8,1,a
lift,88,63,4,d
"""

rows = list(csv.DictReader(io.StringIO(TABLE)))
gain = np.array([float(row["gain"]) for row in rows])
cost = np.array([int(row["cost"]) for row in rows])
people = np.array([int(row["people"]) for row in rows])
groups = np.array([row["group"] for row in rows])

take = cp.Variable(len(rows), boolean=True)
budget = [cost @ take <= 120, people @ take <= 8]
for group in sorted(set(groups)):
    members = groups == group
    if members.sum() > 1 and group != "c":
        budget.append(cp.sum(take[members]) <= 1)

prob = cp.Problem(cp.Maximize(gain @ take), budget)
prob.solve()
names = [row["project"] for row, x in zip(rows, take.value) if x > 0.5]
print(names, "gain", prob.value, "of", int(cost @ take.value), "spent")

ANSWER = {"gain": prob.value, "spent": float(cost @ take.value), "number": float(len(names))}
