import cvxpy as cp

x = cp.Variable(nonneg=True)
y = cp.Variable(nonneg=True)
prob = cp.Problem(cp.Minimize(x), [1.0000000000000000000000001*x + y == 1, x + 3.0000000000000000000000001*y == 1])
