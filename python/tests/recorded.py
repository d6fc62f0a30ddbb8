"""What tests of expressions share: points whose floats are exact, and two ways of evaluating that know nothing of each
other."""
from __future__ import annotations

import random
from fractions import Fraction

import numpy as np

import dcx.cvxpy as cp

# parts by which a float is exact, so that NumPy's sums and products of few of them are exact too
_PARTS = (1, 2, 4)


def point(rng: random.Random, shape: tuple, least: int = -9) -> np.ndarray:
    """Random numbers of this shape with parts of a quarter, from -9 to 9."""
    size = int(np.prod(shape)) if shape else 1
    numbers = [rng.randint(least * 4, 36) / 4 for _ in range(size)]
    return np.array(numbers).reshape(shape)


def variable(rng: random.Random, shape: tuple) -> cp.Variable:
    """A variable with a random value."""
    x = cp.Variable(shape)
    x.value = point(rng, shape)
    return x


def program_value(expression) -> Fraction:
    """A weighted sum of an expression's entries as the program finds it: with its variables fixed at their values, the
    least value of the sum where it is convex, and else the greatest. The weights are 1, 2, 3, .."""
    weights = weights_of(expression.shape)
    total = cp.sum(cp.multiply(weights, expression))
    fixed = [x == cp.Constant(x._array()) for x in expression.variables()]
    problem = cp.Problem(cp.Minimize(total), fixed)
    if not problem.is_dcp():
        problem = cp.Problem(cp.Maximize(total), fixed)
    problem.solve()
    assert problem.status == "optimal", problem.status
    return problem.exact


def weights_of(shape: tuple) -> np.ndarray:
    """The numbers 1, 2, 3, .. in a shape."""
    size = int(np.prod(shape)) if shape else 1
    return np.arange(1, size + 1).reshape(shape)
