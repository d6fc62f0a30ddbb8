import cvxpy as cp

mass = cp.Variable()
prob = cp.Problem(cp.Minimize(mass), [1e30*(1e30*mass) >= 1])
