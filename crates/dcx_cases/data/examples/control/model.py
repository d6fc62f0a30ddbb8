# A plan over ten steps that brings a cart to rest at 0 with little force: one plan for each state in which the cart was measured.
import cvxpy as cp
import numpy as np

steps = 10
A = np.array([[1, 1/2], [0, 1]])
B = np.array([1/8, 1/2])

measured = cp.Parameter(2)
state = cp.Variable((steps + 1, 2))
force = cp.Variable(steps)

rules = [state[0] == measured]
for t in range(steps):
    rules += [state[t + 1] == A @ state[t] + B*force[t]]
rules += [cp.norm_inf(force) <= 2, cp.max(cp.abs(state[:, 1])) <= 3/2, state[steps] == 0]

cost = cp.norm1(state[:, 0]) + cp.norm1(force)/4
prob = cp.Problem(cp.Minimize(cost), rules)
