"""Curves through noisy readings: one that only rises, and one that is convex."""
import cvxpy as cp
import numpy as np

readings = np.array([3.1, 2.7, 3.6, 3.3, 4.8, 4.1, 5.9, 7.7, 7.2, 9.9])
n = readings.size
weights = np.ones(n)
weights[-1] = 2


def fit(shape_constraint):
    curve = cp.Variable(n)
    distance = cp.sum(cp.multiply(weights, cp.abs(curve - readings)))
    prob = cp.Problem(cp.Minimize(distance), [shape_constraint(curve)])
    prob.solve()
    return prob.value, curve.value


rising, up = fit(lambda c: cp.diff(c) >= 0)
convex, bowl = fit(lambda c: cp.diff(c, k=2) >= 0)
both, _ = fit(lambda c: cp.hstack([cp.diff(c), cp.diff(c, 2)]) >= 0)

assert np.all(np.diff(up) >= -1e-9) and np.all(np.diff(bowl, 2) >= -1e-9)
print(f"rising {rising:.3f}, convex {convex:.3f}, both {both:.3f}")
ANSWER = {"rising": rising, "convex": convex, "both": both}
