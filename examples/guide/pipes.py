# The cheapest way of four units from place 0 to place 4, over pipes that are given by their ends.
import cvxpy as cp
import numpy as np

ends = [[0, 1], [0, 2], [1, 2], [1, 3], [2, 4], [3, 4]]
cost = np.array([2, 4, 1, 6, 3, 2])

# A row for each place, a column for each pipe: -1 where it begins, 1 where it ends.
incidence = cp.vstack([np.eye(5)[pipe[1]] - np.eye(5)[pipe[0]] for pipe in ends]).T
wanted = 4*(np.eye(5)[4] - np.eye(5)[0])

flow = cp.Variable(6, nonneg=True)
prob = cp.Problem(cp.Minimize(cost @ flow), [incidence @ flow == wanted, flow <= 3])
prob.solve()
