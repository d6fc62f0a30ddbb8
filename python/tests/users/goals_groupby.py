"""Teachers and classes as tables: goals by group, with deviations weighed by their priority."""
from collections import defaultdict

import cvxpy as cp

TEACHERS = [
    {"name": "Abe", "subject": "maths", "hours": 20},
    {"name": "Bea", "subject": "maths", "hours": 16},
    {"name": "Cem", "subject": "music", "hours": 12},
    {"name": "Dua", "subject": "sport", "hours": 18},
    {"name": "Eli", "subject": "music", "hours": 10},
]
CLASSES = [
    {"class": "5a", "subject": "maths", "want": 15, "priority": 3},
    {"class": "5b", "subject": "maths", "want": 14, "priority": 3},
    {"class": "6a", "subject": "maths", "want": 13, "priority": 2},
    {"class": "5a", "subject": "music", "want": 9, "priority": 1},
    {"class": "5b", "subject": "music", "want": 10, "priority": 2},
    {"class": "6a", "subject": "sport", "want": 15, "priority": 1},
]

hours = {}
by_teacher, by_goal = defaultdict(list), defaultdict(list)
for i, teacher in enumerate(TEACHERS):
    for j, goal in enumerate(CLASSES):
        if teacher["subject"] != goal["subject"]:
            continue
        hours[i, j] = cp.Variable(nonneg=True)
        by_teacher[i].append(hours[i, j])
        by_goal[j].append(hours[i, j])

constraints = [sum(terms) <= TEACHERS[i]["hours"] for i, terms in by_teacher.items()]
penalty = 0
shortfall = {}
for j, goal in enumerate(CLASSES):
    given = cp.sum(cp.hstack(by_goal[j]))
    shortfall[j] = cp.pos(goal["want"] - given)
    penalty += goal["priority"] * shortfall[j] + 0.1 * cp.pos(given - goal["want"])

work = [sum(terms) / TEACHERS[i]["hours"] for i, terms in by_teacher.items()]
unfair = cp.max(cp.hstack(work)) - cp.min(cp.hstack(work))
prob = cp.Problem(cp.Minimize(penalty + 5 * unfair), constraints)
prob.solve()
for j, goal in enumerate(CLASSES):
    print(f"{goal['class']} {goal['subject']:<6} lacks {shortfall[j].value:.2f}")
ANSWER = {"value": prob.value, "lacking": float(sum(s.value for s in shortfall.values()))}
