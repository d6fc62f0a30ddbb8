# How many of two goods to make, which bring 3 and 2 a piece: there are four hours, one a piece, and buyers for three of the first.
import cvxpy as cp
import numpy as np
x = cp.Variable(nonneg=True)
y = cp.Variable(nonneg=True)
prob = cp.Problem(cp.Minimize(-3*x - 2*y), [x + y <= 4, x <= 3])
prob.solve()
