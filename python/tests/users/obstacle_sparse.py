"""A membrane over an obstacle: a five-point Laplacian from SciPy's sparse matrices."""
import cvxpy as cp
import numpy as np
from scipy import sparse

n = 5
line = sparse.diags([-np.ones(n - 1), 2 * np.ones(n), -np.ones(n - 1)], [-1, 0, 1])
L = sparse.kron(sparse.eye(n), line) + sparse.kron(line, sparse.eye(n))
xx, yy = np.meshgrid(np.arange(1, n + 1), np.arange(1, n + 1))
obstacle = np.where((np.abs(xx - 3) <= 1) & (np.abs(yy - 3) <= 1), 1.0, 0.0)
obstacle[2, 2] = 2

u = cp.Variable(n * n)
problem = cp.Problem(cp.Minimize(cp.sum(u)), [L @ u >= 0, u >= obstacle.ravel()])
problem.solve()

U = u.value.reshape(n, n)
contact = np.isclose(U, obstacle)
print(U.round(3))
print("touches at", contact.sum(), "points")
ANSWER = {"volume": problem.value, "corner": float(U[0, 0]), "edge": float(U[0, 2]), "contact": float(contact.sum())}
