"""A linear classifier with hinge loss and a 1-norm: the path over lambda picks features."""
import cvxpy as cp
import numpy as np

rng = np.random.default_rng(0)
m, n = 20, 4
labels = np.where(rng.random(m) < 0.5, -1, 1)
features = rng.integers(-4, 5, size=(m, n)) + labels[:, np.newaxis] * np.array([2, 0, 1, 0])

w = cp.Variable((n, 1))
b = cp.Variable()
lam = cp.Parameter(nonneg=True)
Y = labels.reshape(-1, 1)
loss = cp.sum(cp.pos(1 - cp.multiply(Y, features @ w - b)))
reg = cp.norm(w, 1)
prob = cp.Problem(cp.Minimize(loss / m + lam * reg))

path = {}
for value in np.logspace(-2, 0, 5).round(3):
    lam.value = value
    prob.solve()
    wrong = int(np.sum(np.sign(features @ w.value - b.value) != Y))
    used = np.count_nonzero(np.abs(w.value) > 1e-7)
    path[float(value)] = prob.value
    print(f"lambda {value}: {used} features, {wrong} of {m} wrong, objective {prob.value:.4f}")

ANSWER = {f"lambda {value}": objective for value, objective in path.items()}
