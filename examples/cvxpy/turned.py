import cvxpy as cp
x = cp.Variable()
prob = cp.Problem(cp.Minimize(2*x), [3 == x])
