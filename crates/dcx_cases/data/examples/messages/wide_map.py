import cvxpy as cp

scale = cp.Parameter(value=1e30)
x = cp.Variable()
prob = cp.Problem(cp.Minimize(x), [1e10*scale*x >= 1])
