"""A matrix game from both sides: both values are the same, and one side's plan is the other's multiplier."""
import cvxpy as cp
import numpy as np

rock_paper_scissors = np.array([[0, -1, 1], [1, 0, -1], [-1, 1, 0]])
A = np.kron(np.eye(2), rock_paper_scissors) + np.outer(np.arange(6), np.ones(6)) * 0.25 - np.triu(np.ones((6, 6)), 3)

p = cp.Variable(6, nonneg=True)
row = cp.Problem(cp.Maximize(cp.min(A.T @ p)), [cp.sum(p) == 1])
row.solve()

q = cp.Variable(6)
v = cp.Variable()
beats = A @ q <= v
column = cp.Problem(cp.Minimize(v), [beats, q >= 0, sum(q) == 1])
column.solve()

print("row side", row.value, np.round(p.value, 3))
print("column side", column.value, np.round(q.value, 3))
ANSWER = {"row": row.value, "column": column.value, "sure win": float((A.T @ p.value).min()),
          "weight of the rows": float(beats.dual_value.sum())}
