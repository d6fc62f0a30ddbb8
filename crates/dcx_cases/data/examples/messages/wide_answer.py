import cvxpy as cp

x = cp.Variable()
prob = cp.Problem(cp.Minimize(1e20*x), [x/1e20 >= 0])
