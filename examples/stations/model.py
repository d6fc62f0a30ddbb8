# Where should ambulances stand, so that each quarter of a town is reached within eight minutes and the rents are as low as they can be?
import cvxpy as cp
import numpy as np

rent = np.array([9, 7, 8, 7, 10, 6])  # of each place where they may stand, in thousands a year
reaches = np.array([                  # a row for each quarter: 1 where the place lies within eight minutes
    [1, 1, 0, 0, 0, 0],
    [0, 1, 1, 0, 0, 0],
    [0, 0, 1, 1, 0, 0],
    [0, 0, 0, 1, 1, 1],
    [1, 0, 0, 0, 1, 0],
    [0, 1, 0, 1, 0, 1],
    [1, 0, 1, 0, 0, 1],
])
need = cp.Parameter(7, nonneg=True, value=np.ones(7))  # how many places are to reach each quarter

stand = cp.Variable(6, boolean=True)

prob = cp.Problem(cp.Minimize(rent @ stand), [reaches @ stand >= need])
