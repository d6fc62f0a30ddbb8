# A cart comes from rest at 0 to rest at 10 in 12 steps with little force, and no step is longer than the limit.
import cvxpy as cp
import numpy as np

position = cp.Variable(13)
speed = cp.Variable(13)
force = cp.Variable(12)
limit = cp.Parameter(nonneg=True, value=1.5)

rules = [position[0] == 0, speed[0] == 0, position[12] == 10, speed[12] == 0]
for t in range(12):
    rules += [position[t + 1] == position[t] + speed[t]]
    rules += [speed[t + 1] == speed[t] + force[t] / 4]
rules += [cp.norm_inf(cp.diff(position)) <= limit]

prob = cp.Problem(cp.Minimize(cp.norm1(force)), rules)
prob.solve()
