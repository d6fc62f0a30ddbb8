import cvxpy as cp
import numpy as np
x = cp.Variable(2)
z = cp.Variable(2)
M = np.array([[1, 3], [2, 4]])
prob = cp.Problem(cp.Minimize(cp.norm1(x + z)), [x >= [2, 3], M @ z == [-1, -4]])
