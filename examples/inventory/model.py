# How much to make each week, so that little is stored and little is late: what is made so far, less what was wanted so far, is the stock.
import cvxpy as cp
import numpy as np

demand = cp.Parameter(8, nonneg=True)
made = cp.Variable(8, nonneg=True)

stock = 10 + cp.cumsum(made) - cp.cumsum(demand)
storing = cp.sum(cp.pos(stock))
late = cp.sum(cp.neg(stock))
changes = cp.norm1(cp.diff(made))

prob = cp.Problem(cp.Minimize(2*storing + 9*late + 3*changes), [made <= 40, stock[7] >= 5])
