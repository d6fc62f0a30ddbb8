"""Quantiles of a fit: one pinball loss, several levels."""
import numpy as np
import cvxpy as cp


def pinball(residual, tau):
    return cp.sum(cp.maximum(tau * residual, (tau - 1) * residual))


ages = np.array([21, 24, 27, 30, 33, 37, 41, 44, 48, 53, 57, 61])
wages = np.array([14.5, 15.0, 18.5, 17.0, 22.5, 20.0, 29.0, 21.5, 33.0, 26.0, 38.5, 24.0])

slope, offset = cp.Variable(), cp.Variable()
residual = wages - (slope * ages + offset)

answers = {}
for tau in (0.1, 0.5, 0.9):
    prob = cp.Problem(cp.Minimize(pinball(residual, tau)))
    prob.solve()
    below = int(np.sum(residual.value < -1e-9))
    print(f"tau={tau}: loss {prob.value:.4f}, slope {slope.value:.4f}, {below} of {len(ages)} below")
    answers[f"loss {tau}"] = prob.value

ANSWER = answers
