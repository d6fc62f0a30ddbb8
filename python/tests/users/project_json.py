"""A project in a JSON text: tasks, what must be done before, and what it costs to hurry."""
import json

import cvxpy as cp

PROJECT = json.loads("""
{"tasks": [
   {"id": "dig",    "days": 7, "crash": 4, "rate": 40, "after": []},
   {"id": "pour",   "days": 4, "crash": 3, "rate": 60, "after": ["dig"]},
   {"id": "order",  "days": 12, "crash": 9, "rate": 25, "after": []},
   {"id": "frame",  "days": 9, "crash": 5, "rate": 35, "after": ["pour", "order"]},
   {"id": "wire",   "days": 5, "crash": 4, "rate": 55, "after": ["frame"]},
   {"id": "pipes",  "days": 6, "crash": 3, "rate": 30, "after": ["frame"]},
   {"id": "finish", "days": 3, "crash": 2, "rate": 90, "after": ["wire", "pipes"]}],
 "penalty": 75, "due": 24}
""")

begin, days = {}, {}
constraints, cost = [], 0
for task in PROJECT["tasks"]:
    key = task["id"]
    begin[key] = cp.Variable(nonneg=True, name="begin_" + key)
    days[key] = cp.Variable(name="days_" + key)
    constraints += [days[key] >= task["crash"], days[key] <= task["days"]]
    cost += task["rate"] * (task["days"] - days[key])
    for before in task["after"]:
        constraints.append(begin[key] >= begin[before] + days[before])

end = cp.max(cp.hstack([begin[key] + days[key] for key in begin]))
late = cp.pos(end - PROJECT["due"])
problem = cp.Problem(cp.Minimize(cost + PROJECT["penalty"] * late), constraints)
problem.solve()

plan = {key: {"begin": round(float(begin[key].value), 2), "days": round(float(days[key].value), 2)} for key in begin}
print(json.dumps(plan, indent=1))
ANSWER = {"cost": problem.value, "end": float(end.value), "late": float(late.value)}
