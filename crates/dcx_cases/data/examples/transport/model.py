# What should two stores bring to three shops, so that the sales bring the most?
import cvxpy as cp
import numpy as np

gain = np.array([          # of a crate: a row for each store, a column for each shop
    [9, 6, 4],
    [5, 7, 3],
])
stock = np.array([10, 12])     # crates in each store
wanted = np.array([8, 7, 9])   # crates that each shop can sell

crates = cp.Variable((2, 3), nonneg=True)

prob = cp.Problem(cp.Maximize(cp.sum(cp.multiply(gain, crates))), [
    cp.sum(crates, axis=1) <= stock,   # 1: of each store
    cp.sum(crates, axis=0) <= wanted,  # 2: of each shop
])
prob.solve()
