"""A plan that holds for every price in a box and for any few that move: robust constraints by norms."""
import cvxpy as cp
import numpy as np

profit = np.array([12, 9, 14, 7])
wobble = np.array([3, 1, 6, 0.5])
use = np.array([[2, 1, 3, 1], [1, 2, 2, 1], [3, 1, 4, 2]])
limits = np.array([100, 80, 140])
budget = 0.05 * np.outer(limits, np.ones(4))


def nominal(x):
    return profit @ x


def box(x):
    return profit @ x - cp.norm1(cp.multiply(wobble, x))


def few(x, how_many):
    return profit @ x - cp.sum_largest(cp.multiply(wobble, cp.abs(x)), how_many)


def worst_single(x):
    return profit @ x - cp.norm(cp.multiply(wobble, x), "inf")


ANSWER = {}
for name, objective in {"nominal": nominal, "box": box, "two": lambda x: few(x, 2), "one": worst_single}.items():
    x = cp.Variable(4)
    rows = [use[i] @ x + cp.norm_inf(cp.multiply(budget[i] / 10, x)) <= limits[i] for i in range(len(limits))]
    prob = cp.Problem(cp.Maximize(objective(x)), rows + [x >= 0, x <= 30])
    prob.solve()
    print(f"{name:8s} {prob.value:10.4f} {np.round(x.value, 3)}")
    ANSWER[name] = float(prob.value)
