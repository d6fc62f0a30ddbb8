"""Kelley's method: a smooth convex function from below, one tangent after the other."""
import cvxpy as cp
import numpy as np


def f(p):
    return (p[0] - 1) ** 2 + (p[1] + 0.5) ** 2 + p[0] * p[1]


def gradient(p):
    return np.array([2 * (p[0] - 1) + p[1], 2 * (p[1] + 0.5) + p[0]])


x = cp.Variable(2)
level = cp.Variable()
cuts = [x >= -2, x <= 2]
point = np.zeros(2)
best, history = np.inf, []
while len(history) < 12:
    best = min(best, f(point))
    g = gradient(point)
    cuts.append(level >= f(point) + g @ (x - point))
    prob = cp.Problem(cp.Minimize(level), cuts)
    lower = prob.solve()
    history.append(lower)
    if best - lower < 1e-2:
        break
    point = np.round(x.value, 2)

print(len(history), "cuts, between", history[-1], "and", best)
ANSWER = {"first": history[0], "second": history[1], "third": history[2]}
assert all(b >= a - 1e-9 for a, b in zip(history, history[1:]))
assert history[-1] <= best
