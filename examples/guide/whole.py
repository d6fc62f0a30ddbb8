# The workshop in a week of 62 hours, in whole tables and chairs. A helper would work ten hours more, for 15.
import cvxpy as cp

tables = cp.Variable(integer=True, nonneg=True)
chairs = cp.Variable(integer=True, nonneg=True)
helper = cp.Variable(boolean=True)

boards = 4*tables + chairs
hours = 3*tables + 2*chairs

prob = cp.Problem(cp.Maximize(90*tables + 25*chairs - 15*helper), [boards <= 40, hours <= 62 + 10*helper])
prob.solve()
