# At most 1, and at least a little more than 1.
import cvxpy as cp

x = cp.Variable()
prob = cp.Problem(cp.Minimize(x), [x <= 1, x >= 1 + 1e-12])
