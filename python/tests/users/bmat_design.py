"""A block system solved with the least greatest entry: bmat, vstack and hstack."""
import cvxpy as cp
import numpy as np

A = np.array([[2, 1, 0], [1, 3, 1]])
B = np.array([[1, -1], [0, 2]])
X = cp.Variable((3, 2))
Y = cp.Variable((2, 2))

system = cp.bmat([[A @ X, B], [Y, np.eye(2) * 0.5]])
assert system.shape == (4, 4)
target = np.block([[np.array([[4, 1], [2, 5]]), B], [np.array([[1, 2], [0, 1]]), 0.5 * np.eye(2)]])

stacked = cp.vstack([X, Y])
side = cp.hstack([X.T, Y.T])
assert stacked.shape == (5, 2) and side.shape == (2, 5)
constraints = [system == target, cp.norm1(side) <= 9]
prob = cp.Problem(cp.Minimize(cp.max(cp.abs(stacked)) + 0.1 * cp.norm1(X)), constraints)
prob.solve()

print(X.value)
print("greatest", np.abs(X.value).max(), "residual", np.abs(A @ X.value - target[:2, :2]).max())
ANSWER = {"value": prob.value, "residual": float(np.abs(A @ X.value - target[:2, :2]).max()), "Y": float(Y.value[0, 1])}
