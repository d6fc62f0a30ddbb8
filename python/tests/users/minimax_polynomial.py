"""A polynomial near |t| with the least greatest error, on a grid."""
import cvxpy as cp
import numpy as np

grid = np.linspace(-1, 1, 21).round(2)
degree = 4
V = np.vander(grid, degree + 1, increasing=True)
wanted = np.abs(grid)

c = cp.Variable(degree + 1)
error = V @ c - wanted
prob = cp.Problem(cp.Minimize(cp.norm_inf(error)))
prob.solve()

worst = np.flatnonzero(np.isclose(np.abs(error.value), prob.value))
print("coefficients", c.value, "error", prob.value, "at", grid[worst])
ANSWER = {"error": prob.value, "square": float(c.value[2]), "constant": float(c.value[0]),
          "alternates": float(len(worst))}
