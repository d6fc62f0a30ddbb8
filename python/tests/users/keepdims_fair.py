"""A table with fixed margins that is as even as it can be: axis, keepdims and broadcasting."""
import cvxpy as cp
import numpy as np

rows = np.array([30, 24, 18])
columns = np.array([20, 22, 16, 14])
T = cp.Variable((3, 4), nonneg=True)

row_means = cp.mean(T, axis=1, keepdims=True)
column_means = cp.sum(T, axis=0, keepdims=True) / 3
assert row_means.shape == (3, 1) and column_means.shape == (1, 4)
spread = cp.max(T, axis=1) - cp.min(T, axis=1)
uneven = cp.sum(cp.abs(T - row_means @ np.ones((1, 4))))
tall = cp.max(cp.abs(T - np.ones((3, 1)) @ column_means), axis=0, keepdims=True)

constraints = [
    cp.sum(T, axis=1) == rows,
    cp.sum(T, axis=0, keepdims=True) == columns[np.newaxis, :],
    T[0, 0] <= 3,
    T[1, [1, 2]] <= 5,
]
prob = cp.Problem(cp.Minimize(cp.sum(spread) + 0.5 * uneven + 0.25 * cp.sum(tall)), constraints)
prob.solve()
print(np.round(T.value, 3), prob.value)
ANSWER = {"value": prob.value, "spread": float(np.sum(T.value)), "first": float(T.value[0, 0])}
