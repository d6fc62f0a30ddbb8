# Two goods: what to make of each where a machine runs eight hours.
import cvxpy as cp

prices = cp.Parameter(2, nonneg=True, value=[3, 2])
speed = cp.Parameter()
made = cp.Variable(2, nonneg=True)

prob = cp.Problem(cp.Maximize(prices @ made), [cp.sum(made)/speed <= 8, made[0] <= 3])
