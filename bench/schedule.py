"""Writes a plan that can't be kept: `schedule.py N FOLDER` makes FOLDER/model.py, with 2N constraints, and FOLDER/settings.txt.

A cart goes N steps from rest; each step has a constraint that moves it, and each but the first one that limits speed and force. The last constraint
asks for a place that it doesn't reach.
"""
import os
import sys

if len(sys.argv) != 3 or not sys.argv[1].isdigit():
    sys.exit(__doc__)
n, folder = int(sys.argv[1]), sys.argv[2]
script = f"""\
# A cart goes {n} steps from rest at 0, and comes too late.
import cvxpy as cp
import numpy as np

steps = {n}
A = np.array([[1, 1/2], [0, 1]])
B = np.array([1/8, 1/2])

state = cp.Variable((steps, 2))
force = cp.Variable(steps)

rules = [state[0] == B*force[0]]
for t in range(1, steps):
    rules += [state[t] == A @ state[t - 1] + B*force[t]]
    rules += [cp.maximum(cp.abs(state[t, 1]) - 3/2, cp.abs(force[t]) - 2) <= 0]
rules += [state[steps - 1, 0] >= 3*steps/4 + 1]

prob = cp.Problem(cp.Minimize(cp.norm1(force)), rules)
"""
os.makedirs(folder, exist_ok=True)
for name, text in (("model.py", script), ("settings.txt", "{}\n")):
    with open(os.path.join(folder, name), "w", encoding="utf-8") as out:
        out.write(text)
