# The lower, the middle and the upper quarter of travel times as linear functions of the distance, which don't cross where they were measured.
import cvxpy as cp
import numpy as np

distance = np.array([2, 3, 5, 6, 8, 9, 11, 12, 14, 15, 17, 20])
minutes = np.array([7, 12, 13, 21, 19, 30, 24, 38, 33, 29, 52, 44])
quantiles = [1/4, 1/2, 3/4]

start = cp.Variable(3)
slope = cp.Variable(3)

loss = 0
lines = []
for k in range(3):
    line = start[k] + slope[k]*distance
    lines += [line]
    above = minutes - line
    loss += cp.sum(quantiles[k]*cp.pos(above) + (1 - quantiles[k])*cp.neg(above))

prob = cp.Problem(cp.Minimize(loss), [lines[0] <= lines[1], lines[1] <= lines[2]])
prob.solve()
print("minutes to start with", start.value, "and for each kilometre", slope.value)
