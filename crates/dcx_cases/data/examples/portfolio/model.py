# Shares with a good mean return and little loss in the two worst of six scenarios, near to what is held.
import cvxpy as cp
import numpy as np

scenarios = np.array([
    [0.04, 0.02, 0.01, -0.03, 0.00],
    [-0.02, 0.03, 0.01, 0.05, 0.00],
    [0.06, -0.04, 0.02, 0.01, 0.00],
    [-0.05, 0.01, -0.01, 0.02, 0.00],
    [0.03, 0.00, 0.02, -0.06, 0.00],
    [0.01, 0.02, 0.00, 0.04, 0.00],
])
held = np.array([0.3, 0.2, 0.2, 0.2, 0.1])

shares = cp.Variable(5, nonneg=True)
aversion = cp.Parameter(nonneg=True, value=1/2)
turnover = cp.norm1(shares - held)

risk = cp.sum_largest(-scenarios @ shares, 2) / 2
gain = cp.mean(scenarios @ shares)

prob = cp.Problem(cp.Maximize(gain - aversion*risk), [cp.sum(shares) == 1, turnover <= 0.3, cp.max(shares) <= 0.4])
prob.solve()
