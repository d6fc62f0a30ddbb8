import cvxpy as cp

height = cp.Parameter()
water = cp.Variable(nonneg=True)
prob = cp.Problem(cp.Minimize(1e20*water), [water == 1e20*height])
