"""Shifts that can't be filled: find out, and then hire as few as it takes."""
import cvxpy as cp
import numpy as np

need = np.array([17, 13, 15, 19, 14, 16, 11])
works = np.array([[1 if (day - start) % 7 < 5 else 0 for start in range(7)] for day in range(7)])
staff = 20

begin = cp.Variable(7, integer=True)
constraints = [begin >= 0, works @ begin >= need]
prob = cp.Problem(cp.Minimize(0), constraints + [cp.sum(begin) <= staff])
prob.solve()

hired = 0
if prob.status in [cp.INFEASIBLE, cp.INFEASIBLE_INACCURATE]:
    print("not with", staff, "people")
    extra = cp.Variable(nonneg=True)
    prob = cp.Problem(cp.Minimize(extra), constraints + [cp.sum(begin) <= staff + extra])
    prob.solve()
    hired = extra.value.item()
elif prob.status == cp.OPTIMAL:
    print("enough people")

print("hire", hired, "to have", works @ begin.value)
ANSWER = {"hired": float(hired), "covered": float(np.all(works @ begin.value >= need - 1e-9))}
