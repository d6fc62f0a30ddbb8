# The same with a turnover of at least 1/10: the points that keep it are no convex set.
import cvxpy as cp
import numpy as np

held = np.array([0.3, 0.2, 0.2, 0.2, 0.1])
shares = cp.Variable(5, nonneg=True)

prob = cp.Problem(cp.Maximize(cp.min(shares)), [
    cp.sum(shares) == 1,
    cp.norm1(shares - held) >= 0.1,
])
prob.solve()
