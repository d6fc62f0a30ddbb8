import cvxpy as cp
import numpy as np
least = np.ones(3)
raised = least
raised += 1
x = cp.Variable(3)
prob = cp.Problem(cp.Minimize(cp.sum(x)), [x >= least])
