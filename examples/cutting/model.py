# How many bars of six metres are sawn in each way, so that all pieces are there and the fewest bars are used?
import cvxpy as cp
import numpy as np

# The ways: a row for each length of a piece, 2.5, 2, 1.5 and 1 metres; a column for each way to saw a bar.
pieces = np.array([
    [2, 1, 1, 0, 0, 0, 0],
    [0, 1, 0, 3, 1, 0, 0],
    [0, 1, 1, 0, 2, 4, 0],
    [1, 0, 2, 0, 1, 0, 6],
])
wanted = cp.Parameter(4, nonneg=True)

bars = cp.Variable(7, integer=True, nonneg=True)

prob = cp.Problem(cp.Minimize(cp.sum(bars)), [pieces @ bars >= wanted])
