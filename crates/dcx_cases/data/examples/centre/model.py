# The largest circle in a field between five fences, and where its centre is. Of each fence the normal has a whole length.
import cvxpy as cp
import numpy as np

normals = np.array([[3, 4], [-5, 12], [-4, -3], [8, -15], [1, 0]])
lengths = np.array([5, 13, 5, 17, 1])
bounds = np.array([60, 90, 10, 60, 15])

centre = cp.Variable(2)
radius = cp.Variable(nonneg=True)

prob = cp.Problem(cp.Maximize(radius), [normals @ centre + lengths*radius <= bounds])
prob.solve()
