# Who does which of 25 tasks.
import cvxpy as cp

share = cp.Variable((25, 25), nonneg=True)
prob = cp.Problem(cp.Minimize(cp.sum(share)), [share <= 1, cp.sum(share, axis=0) == 1])
