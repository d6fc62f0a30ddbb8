"""Cutting stock by column generation: duals price the next pattern, which a knapsack finds."""
import cvxpy as cp
import numpy as np

WIDTH = 100
lengths = np.array([45, 36, 31, 14])
orders = np.array([97, 61, 39, 21])
n = len(lengths)

patterns = [np.floor(WIDTH / length) * np.eye(n)[i] for i, length in enumerate(lengths)]


def master(patterns, whole=False):
    A = np.array(patterns).T
    rolls = cp.Variable(A.shape[1], integer=whole)
    fill = A @ rolls >= orders
    prob = cp.Problem(cp.Minimize(cp.sum(rolls)), [fill, rolls >= 0])
    prob.solve()
    return prob.value, None if whole else fill.dual_value, rolls.value


def price(duals):
    count = cp.Variable(n, integer=True)
    worth = duals @ count
    prob = cp.Problem(cp.Maximize(worth), [lengths @ count <= WIDTH, count >= 0])
    prob.solve()
    return prob.value, np.rint(count.value)


for iteration in range(20):
    relaxed, duals, _ = master(patterns)
    worth, pattern = price(duals)
    print(f"{iteration}: {relaxed:.3f} rolls, best new pattern {pattern} is worth {worth:.4f}")
    if worth <= 1 + 1e-6:
        break
    patterns.append(pattern)

rolls, _, counts = master(patterns, whole=True)
print("whole rolls:", rolls, counts)
ANSWER = {"relaxed": float(relaxed), "rounded up": float(np.ceil(relaxed - 1e-9))}
assert rolls >= ANSWER["rounded up"]
