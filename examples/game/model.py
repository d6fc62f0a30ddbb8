# How often to play each of four moves, where the other side knows how often, but not which comes next: the best that one is sure to win.
import cvxpy as cp
import numpy as np

#                  what the other side plays
wins = np.array([[ 3, -1, -2],
                 [-2,  4, -1],
                 [-1, -2,  5],
                 [ 1,  0, -1]])

often = cp.Variable(4, nonneg=True)

prob = cp.Problem(cp.Maximize(cp.min(often @ wins)), [cp.sum(often) == 1])
prob.solve()
