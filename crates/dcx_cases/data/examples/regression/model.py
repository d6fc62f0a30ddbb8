# The price that nine houses in ten stay below, as a linear function of floor area and age, with few weights.
import cvxpy as cp
import numpy as np

houses = np.array([[1, 52, 30], [1, 70, 12], [1, 81, 45], [1, 95, 8], [1, 110, 20], [1, 134, 3]])
prices = np.array([160, 245, 230, 340, 355, 470])
quantile = 0.9

weights = cp.Variable(3)
penalty = cp.Parameter(nonneg=True, value=0.5)

above = prices - houses @ weights
loss = cp.sum(quantile*cp.pos(above) + (1 - quantile)*cp.neg(above))

prob = cp.Problem(cp.Minimize(loss + penalty*cp.norm1(weights[1:])))
prob.solve()
print("weights", weights.value)
