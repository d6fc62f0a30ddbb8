# What goes over each pipe of a network so that every place gets what it wants, at the least cost. A place that gives has a number below 0.
import cvxpy as cp
import numpy as np

#           from 0   0   1   1   2   3   4   4
#           to   1   2   2   3   4   5   3   5
network = np.array([[-1, -1,  0,  0,  0,  0,  0,  0],
                    [ 1,  0, -1, -1,  0,  0,  0,  0],
                    [ 0,  1,  1,  0, -1,  0,  0,  0],
                    [ 0,  0,  0,  1,  0, -1,  1,  0],
                    [ 0,  0,  0,  0,  1,  0, -1, -1],
                    [ 0,  0,  0,  0,  0,  1,  0,  1]])
cost = np.array([4, 2, 1, 5, 3, 1, 2, 6])
most = np.array([9, 8, 4, 5, 9, 8, 3, 4])

wanted = cp.Parameter(6)
flow = cp.Variable(8, nonneg=True)

prob = cp.Problem(cp.Minimize(cost @ flow), [network @ flow == wanted, flow <= most])
