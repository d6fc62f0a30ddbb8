# How many crates and pallets to order? Nothing says that what is ordered has to be paid.
import cvxpy as cp

crates = cp.Variable(integer=True, nonneg=True)
pallets = cp.Variable(integer=True, nonneg=True)
prob = cp.Problem(cp.Maximize(4*crates + 30*pallets), [6*pallets <= crates + 10])
