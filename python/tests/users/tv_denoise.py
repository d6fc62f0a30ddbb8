"""A step signal out of noise: total variation against distance."""
import cvxpy as cp
import numpy as np

rng = np.random.RandomState(3)
n = 30
clean = np.concatenate([np.ones(10), 3 * np.ones(8), np.zeros(n - 18)])
noisy = np.around(clean + 0.4 * rng.randn(n), 1)

x = cp.Variable(n)
lam = cp.Parameter(nonneg=True)
prob = cp.Problem(cp.Minimize(cp.norm1(x - noisy) + lam * cp.tv(x)))

results = {}
for value in (0.5, 1.5, 4.0):
    lam.value = value
    prob.solve()
    jumps = int((np.abs(np.diff(x.value)) > 1e-6).sum())
    results[value] = prob.value
    print(f"lambda {value:3.1f}: objective {prob.value:6.2f}, {jumps} jumps")

ANSWER = {f"objective {value}": objective for value, objective in results.items()}
