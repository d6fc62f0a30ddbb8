"""Problems whose data have many digits: fits, blends and portfolios, with what SciPy finds of them."""
from __future__ import annotations

import numpy as np
from scipy.optimize import linprog

import dcx.cvxpy as cp


def numbers(draw, digits, *shape, low=-2.0, high=2.0):
    return np.round(draw.uniform(low, high, size=shape), digits)


def fit(seed, columns=5, points=12, digits=4):
    """A least absolute fit, its variable, and its value as HiGHS finds it."""
    draw = np.random.default_rng(seed)
    A, b = numbers(draw, digits, points, columns), numbers(draw, digits, points)
    x = cp.Variable(columns, name="x")
    one = np.eye(points)
    found = linprog(
        np.r_[np.zeros(columns), np.ones(points)],
        A_ub=np.block([[A, -one], [-A, -one]]),
        b_ub=np.r_[b, -b],
        bounds=[(None, None)] * columns + [(0, None)] * points,
    )
    return cp.Problem(cp.Minimize(cp.norm1(A @ x - b))), x, found


def blend(seed, goods=9, needs=6, digits=4):
    """The least cost of a blend that has enough of everything."""
    draw = np.random.default_rng(seed)
    Q, c = numbers(draw, digits, needs, goods, low=0, high=9), numbers(draw, digits, goods, low=1, high=5)
    need = np.round(2 * Q.mean(axis=1), digits)
    q = cp.Variable(goods, name="q", nonneg=True)
    found = linprog(c, A_ub=-Q, b_ub=-need, bounds=(0, 1))
    return cp.Problem(cp.Minimize(c @ q), [Q @ q >= need, q <= 1]), q, found


def portfolio(seed, papers=6, days=12, digits=5):
    """The greatest mean of the three worst days."""
    draw = np.random.default_rng(seed)
    R = numbers(draw, digits, days, papers, low=-1, high=1.2)
    w = cp.Variable(papers, name="w", nonneg=True)
    # greatest t - sum(u)/3 where u >= t - R w, u >= 0
    eye = np.eye(days)
    found = linprog(
        np.r_[np.zeros(papers), -1, np.full(days, 1 / 3)],
        A_ub=np.block([[-R, np.ones((days, 1)), -eye]]),
        b_ub=np.zeros(days),
        A_eq=np.r_[np.ones(papers), np.zeros(days + 1)].reshape(1, -1),
        b_eq=[1],
        bounds=[(0, 0.5)] * papers + [(None, None)] + [(0, None)] * days,
    )
    found.fun = -found.fun
    worst = cp.sum_smallest(R @ w, 3) / 3
    return cp.Problem(cp.Maximize(worst), [cp.sum(w) == 1, w <= 0.5]), w, found
