# How to split money over three funds, by what they gave in four years, in percent.
import cvxpy as cp
import numpy as np

returns = np.array([
    [ 8,  2, 1],
    [-6,  3, 1],
    [12,  4, 1],
    [-2, -1, 1],
])
distaste = cp.Parameter(nonneg=True)
part = cp.Variable(3, nonneg=True)

year = returns @ part
loss = cp.mean(cp.neg(year))
prob = cp.Problem(cp.Maximize(cp.mean(year) - distaste*loss), [cp.sum(part) == 1, part <= 0.7])
