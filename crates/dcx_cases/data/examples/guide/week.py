# How many people begin their five days on each day of a week, so that each day is covered?
import cvxpy as cp
import numpy as np

need = np.array([17, 13, 15, 19, 14, 16, 11])

# A circulant: row d has ones on the five days from day d on, round the week. Twice the first row, and a window of it for each row.
twice = np.array([1, 1, 1, 1, 1, 0, 0, 1, 1, 1, 1, 1, 0, 0])
works = cp.vstack([twice[7 - d:14 - d] for d in range(7)])

begin = cp.Variable(7, integer=True, nonneg=True)
prob = cp.Problem(cp.Minimize(cp.sum(begin)), [begin @ works >= need])
prob.solve()
