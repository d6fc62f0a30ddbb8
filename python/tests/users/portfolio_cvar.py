"""The frontier between mean return and the mean loss in the worst tenth of scenarios."""
import numpy as np
import cvxpy as cp

np.random.seed(7)
n, scenarios = 5, 20
mu = np.array([0.04, 0.06, 0.08, 0.10, 0.02])
returns = np.round(mu + np.random.randn(scenarios, n) * np.array([0.05, 0.08, 0.12, 0.2, 0.01]), 2)
beta = 0.9
k = int(round((1 - beta) * scenarios))

w = cp.Variable(n)
gamma = cp.Parameter(nonneg=True)
gain = cp.sum(returns @ w) / scenarios
cvar = cp.sum_largest(-returns @ w, k) / k
prob = cp.Problem(cp.Maximize(gain - gamma * cvar), [cp.sum(w) == 1, w >= 0, w <= 0.5])

frontier = []
for g in [0.05, 0.2, 0.5, 1, 2]:
    gamma.value = g
    prob.solve()
    losses = np.sort(-returns @ w.value)[::-1]
    assert abs(losses[:k].mean() - cvar.value) < 1e-9
    frontier.append((g, gain.value, cvar.value))
    print("gamma %5.2f  gain %.4f  cvar %.4f  weights %s" % (g, gain.value, cvar.value, np.round(w.value, 3)))

ANSWER = {f"objective at {g}": float(a - g * b) for g, a, b in frontier}
