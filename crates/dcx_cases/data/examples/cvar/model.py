# How much of four crops should a farm grow, so that it earns the most and its two worst years of ten lose little on average?
import cvxpy as cp
import numpy as np

earned = np.array([  # thousands for a hectare: a row for each of ten years, a column for each crop
    [ 9,  3,  5,  2],
    [-4,  3,  2,  2],
    [12,  1,  6,  2],
    [ 7,  4, -3,  2],
    [-6,  2,  4,  1],
    [10,  3,  7,  2],
    [ 8, -1,  5,  2],
    [11,  4,  6,  2],
    [-2,  3, -4,  1],
    [ 9,  2,  8,  2],
])
bearable = cp.Parameter()  # what the two worst years may lose on average, in thousands

area = cp.Variable(4, nonneg=True)  # hectares

year = earned @ area
worst = cp.sum_largest(-year, 2)/2  # the conditional value at risk of the losses, at a level of 80 percent

prob = cp.Problem(cp.Maximize(cp.mean(year)), [
    cp.sum(area) <= 20,  # 1
    worst <= bearable,   # 2
])
