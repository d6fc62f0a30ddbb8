# How many of each of three machines to buy.
import cvxpy as cp

count = cp.Variable(3, integer=True, nonneg=True)
prob = cp.Problem(cp.Maximize(cp.sum(count)), [count @ [5, 7, 9] <= 40])
