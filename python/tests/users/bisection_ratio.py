"""The best ratio of output to worst load, by bisection over feasibility problems."""
import cvxpy as cp
import numpy as np

output = np.array([4, 7, 5])
load = np.array([[1, 3, 2], [2, 2, 1], [3, 1, 2]])

x = cp.Variable(3, nonneg=True)
ratio = cp.Parameter(nonneg=True)
rules = [output @ x >= ratio * cp.max(load @ x + 1), cp.sum(x) == 10, x <= 6]
feasible = cp.Problem(cp.Minimize(0), rules)

low, high, tries = 0.0, 8.0, 0
while high - low > 1e-8:
    ratio.value = (low + high) / 2
    feasible.solve()
    tries += 1
    if feasible.status == "optimal":
        low = ratio.value
        best = x.value
    else:
        assert feasible.status == "infeasible"
        high = ratio.value

print(f"ratio {low:.6f} after {tries} tries with {best}")
ANSWER = {"ratio": low, "tries": float(tries)}
