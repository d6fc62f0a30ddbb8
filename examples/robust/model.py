# Which loads should a lorry take, so that it isn't too heavy though some of them weigh more than is said?
import cvxpy as cp
import numpy as np

worth = np.array([60, 45, 38, 30, 22])
weight = np.array([12, 10, 8, 7, 5])   # tonnes of each load, as is said
more = np.array([3, 1, 2, 1, 1])       # tonnes that it may weigh besides
limit = 30

part = cp.Variable(5, nonneg=True)     # of each load

# However two of the loads are chosen that weigh as much as they may, the lorry isn't too heavy.
heaviest = weight @ part + cp.sum_largest(cp.multiply(more, part), 2)

prob = cp.Problem(cp.Maximize(worth @ part), [part <= 1, heaviest <= limit])
prob.solve()
