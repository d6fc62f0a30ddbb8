# A line through counts of which two were mistyped: the sum of the distances hardly minds them, the greatest distance does.
import cvxpy as cp
import numpy as np

hours = np.array([0, 1, 2, 3, 4, 5, 6, 7, 8, 9])
counts = np.array([12, 15, 19, 21, 254, 31, 33, 36, 4, 43])

start = cp.Variable()
growth = cp.Variable()
misses = counts - (start + growth*hours)

prob = cp.Problem(cp.Minimize(cp.norm1(misses)))
prob.solve()
