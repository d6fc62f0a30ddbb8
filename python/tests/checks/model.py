"""Linear programs for SciPy's HiGHS, written row by row: the second way of knowing what the scripts of users/ answer.

An expression is a vector of coefficients whose last entry is its constant, so that NumPy's own arithmetic adds and
scales expressions; an array of expressions has one axis more than what it stands for.
"""
from __future__ import annotations

import numpy as np
from scipy.optimize import Bounds, LinearConstraint, linprog, milp


class Answer:
    def __init__(self, value, point, duals):
        self.value, self.point, self.duals = value, point, duals

    def of(self, expression):
        """The value of an expression, or of an array of them, at the point."""
        return np.asarray(expression) @ np.append(self.point, 1.0)


class Model:
    def __init__(self, size=800):
        self.size = size
        self.lower, self.upper, self.whole = [], [], []
        self.rows = []  # pairs of an expression and whether it is 0 (else at most 0)
        self.one = np.zeros(size + 1)
        self.one[-1] = 1

    def variables(self, *shape, low=-np.inf, high=np.inf, whole=False):
        """New variables, as an array of expressions of this shape."""
        count = int(np.prod(shape, dtype=int))
        first = len(self.lower)
        if first + count > self.size:
            raise ValueError("more variables than the model has room for")
        self.lower += [low] * count
        self.upper += [high] * count
        self.whole += [int(whole)] * count
        units = np.zeros((count, self.size + 1))
        units[np.arange(count), first + np.arange(count)] = 1
        return units.reshape(*shape, self.size + 1)

    def expression(self, value):
        """Numbers as constant expressions; what is an expression stays what it is."""
        value = np.asarray(value, dtype=float)
        if value.ndim and value.shape[-1] == self.size + 1:
            return value
        return value[..., np.newaxis] * self.one

    def _rows(self, left, right, equal):
        both = self.expression(left) - self.expression(right)
        added = both.reshape(-1, self.size + 1)
        first = len(self.rows)
        self.rows += [(row, equal) for row in added]
        return slice(first, len(self.rows))

    def at_most(self, left, right=0):
        """Left at most right, entry by entry; the slice is where the multipliers of these rows stand."""
        return self._rows(left, right, False)

    def equal(self, left, right=0):
        return self._rows(left, right, True)

    def above(self, *pieces):
        """New variables that are at least each of the pieces: their greatest, where they are minimized."""
        pieces = [self.expression(piece) for piece in pieces]
        shape = np.broadcast_shapes(*[piece.shape for piece in pieces])[:-1]
        top = self.variables(*shape)
        for piece in pieces:
            self.at_most(np.broadcast_to(piece, top.shape), top)
        return top

    def absolute(self, expression):
        return self.above(expression, -self.expression(expression))

    def minimize(self, objective):
        """The answer, or None where no point is feasible."""
        count = len(self.lower)
        objective = self.expression(objective)
        rows = np.array([row for row, _ in self.rows]).reshape(-1, self.size + 1)
        equal = np.array([is_equal for _, is_equal in self.rows], dtype=bool)
        left, right = rows[:, :count], -rows[:, -1]
        if any(self.whole):
            constraints = [LinearConstraint(left, np.where(equal, right, -np.inf), right)] if len(rows) else []
            found = milp(objective[:count], constraints=constraints, bounds=Bounds(self.lower, self.upper),
                         integrality=self.whole, options={"mip_rel_gap": 0})
            duals = None
        else:
            found = linprog(objective[:count], left[~equal], right[~equal], left[equal], right[equal],
                            np.column_stack([self.lower, self.upper]), method="highs")
            if found.status == 0:
                duals = np.zeros(len(rows))
                duals[~equal] = -found.ineqlin.marginals
                duals[equal] = -found.eqlin.marginals
        if found.status == 2:
            return None
        if found.status != 0:
            raise RuntimeError(found.message)
        point = np.zeros(self.size)
        point[:count] = found.x
        return Answer(found.fun + objective[-1], point, duals)

    def maximize(self, objective):
        answer = self.minimize(-self.expression(objective))
        if answer is not None:
            answer.value = -answer.value
        return answer
