# Six days' stock, of which the even days are limited, and two days want more than the others.
import cvxpy as cp
import numpy as np

# A selection matrix: the rows of the unit matrix with the chosen numbers.
even = cp.vstack([np.eye(6)[i] for i in range(0, 6, 2)])

# In place of demand[0] = 5 and demand[5] = 7.
demand = 3*np.ones(6) + 2*np.eye(6)[0] + 4*np.eye(6)[5]

stock = cp.Variable(6, nonneg=True)
prob = cp.Problem(cp.Minimize(cp.sum(stock)), [stock >= demand, even @ stock <= 8, cp.max(stock[1:5]) <= stock[5]])
prob.solve()
