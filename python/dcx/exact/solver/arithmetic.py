"""The two arithmetics of a run of the simplex method: floating-point numbers, scaled, and whole numbers over a common
denominator.

Both have vectors up to a factor above 0, which the run needs no more of than signs and quotients. What each has:

    drifts                  whether numbers get worse from pivot to pivot, so that they are formed anew with the factors
    feasible, optimal       how far a level, and a reduced cost, may be beyond 0
    least                   the least magnitude of a pivot
    quotient(a, b)          a / b, in numbers that can be compared
    factor(basis)           factors the columns of a basis, and gives it back, where columns that depend on others are
                            put out for logical ones
    levels()                the levels of the basic columns, by position
    reduced(costs)          the reduced costs of all columns at these costs
    column(q), row(r)       a column, by position, and a row of the tableau with its multipliers, by column and by row,
                            with the scale of each
    replace(r, q, alpha)    puts a column into the basis
    moved(levels, r, ..)    the levels behind a pivot
    turned(reduced, q, ..)  the reduced costs behind a pivot
"""
from __future__ import annotations

import operator
from fractions import Fraction
from math import frexp, gcd, ldexp

from .factors import FLOATS, Factors, modulo
from .lifting import lifted
from .standard import Standard

# Primes of Mersenne; where a basis can't be factored modulo one of them, the next one is taken.
PRIMES = [2**127 - 1, 2**521 - 1, 2**607 - 1, 2**1279 - 1]
# So many columns that entered, until factors are formed anew.
MOST_ETAS = 40


class Arithmetic:
    """What both have in common."""

    def __init__(self, form: Standard):
        self.form = form
        self.basis = []

    def _factored(self, field, basis, columns):
        """Factors of the basis, repaired: columns without a pivot are put out for the logical ones of rows without one.
        """
        size = self.form.size
        factors = Factors(field, size, [columns[c] for c in basis])
        if len(factors.places) < size:
            kept = [basis[place] for place in factors.places]
            basis = kept + [self.form.count + row for row in factors.rest]
            factors = Factors(field, size, [columns[c] for c in basis])
        self.factors, self.basis = factors, list(basis)
        return list(basis)

    def _dense(self, column):
        """A column with its zeros, by row."""
        result = [0] * self.form.size
        for i, v in column:
            result[i] = v
        return result

    def _tableau_row(self, multipliers, rows):
        """The numbers of the columns that aren't basic, from those of the rows."""
        found, count = {}, self.form.count
        for i, y in enumerate(multipliers):
            if y:
                found[count + i] = y
                for c, v in rows[i]:
                    found[c] = found.get(c, 0) + y * v
        for c in self.basis:
            found.pop(c, None)
        return found


class Floats(Arithmetic):
    """Floating-point numbers over rows and columns that are scaled by powers of 2."""

    drifts, feasible, optimal, least = True, 1e-9, 1e-9, 1e-7
    quotient = staticmethod(operator.truediv)

    def __init__(self, form):
        super().__init__(form)
        self._scale()
        size, count = form.size, form.count
        by, of = self.by_row, self.of_column
        self.rows = [[(c, float(v) * by[i] * of[c]) for c, v in row] for i, row in enumerate(form.rows)]
        self.columns = [[(i, float(v) * by[i] * of[c]) for i, v in form.columns[c]] for c in range(count)]
        self.columns += [[(i, 1.0)] for i in range(size)]
        self.right = [float(v) * by[i] for i, v in enumerate(form.right)]
        self.costs = [float(v) * of[c] for c, v in enumerate(form.costs[:count])] + [0.0] * size
        self._unit("right")
        self._unit("costs")

    def _unit(self, name):
        """Brings the greatest magnitude of a vector to 1, which changes no basis."""
        values = getattr(self, name)
        greatest = max(map(abs, values), default=0.0)
        if greatest:
            setattr(self, name, [v / greatest for v in values])

    def _scale(self):
        """Factors of rows and columns that bring magnitudes close to 1."""
        form = self.form
        self.by_row, self.of_column = [1.0] * form.size, [1.0] * form.count
        for _ in range(3):
            for i, row in enumerate(form.rows):
                self.by_row[i] = _middle([abs(v) * self.of_column[c] for c, v in row])
            for c in range(form.count):
                self.of_column[c] = _middle([abs(v) * self.by_row[i] for i, v in form.columns[c]])

    def factor(self, basis):
        return self._factored(FLOATS, basis, self.columns)

    def levels(self):
        return self.factors.solve(list(self.right))

    def reduced(self, costs):
        y = self.factors.price([costs[c] for c in self.basis])
        result = [costs[c] - sum(y[i] * v for i, v in column) for c, column in enumerate(self.columns)]
        for c in self.basis:
            result[c] = 0.0
        return result

    def column(self, q):
        return self.factors.solve(self._dense(self.columns[q])), 1.0

    def row(self, r):
        y = self.factors.price(self._dense([(r, 1.0)]))
        return y, {c: v for c, v in self._tableau_row(y, self.rows).items() if abs(v) > 1e-11}, 1.0

    def replace(self, r, q, alpha):
        self.factors.replace(r, alpha)
        self.basis[r] = q

    @staticmethod
    def moved(levels, r, alpha, scale):
        step = levels[r] / alpha[r]
        if step:
            levels = [x - step * a if a else x for x, a in zip(levels, alpha)]
        levels[r] = step
        return levels

    @staticmethod
    def turned(reduced, q, leaving, row, scale):
        step = reduced[q] / row[q]
        if step:
            for c, v in row.items():
                reduced[c] -= step * v
        reduced[q] = 0.0
        reduced[leaving] = -step
        return reduced


def _middle(values):
    """What brings the least and the greatest magnitude as far from 1, as a power of 2."""
    if not values:
        return 1.0
    least, most = min(values), max(values)
    return ldexp(1.0, -((frexp(least)[1] + frexp(most)[1]) // 2))


class Whole(Arithmetic):
    """Whole numbers over a common denominator, from factors modulo a prime."""

    drifts, feasible, optimal, least = False, 0, 0, 0
    quotient = Fraction

    def __init__(self, form):
        super().__init__(form)
        self.rows, self.right, self.costs = form.rows, form.right, form.costs
        self.p = PRIMES[0]

    def factor(self, basis):
        return self._factored(modulo(self.p), basis, self.form.columns)

    def levels(self):
        return self.exact_levels()[0]

    def exact_levels(self):
        """The levels of the basic columns as whole numbers over a denominator."""
        return self._solved(self.right)

    def reduced(self, costs):
        """The reduced costs, times a number above 0."""
        y, scale = self.multipliers(costs)
        result = [scale * c for c in costs]
        for i, row in enumerate(self.rows):
            if y[i]:
                result[self.form.count + i] -= y[i]
                for c, v in row:
                    result[c] -= y[i] * v
        return result

    def multipliers(self, costs):
        """The multipliers of the rows with which basic columns have these costs, as whole numbers over a denominator.
        """
        return self._priced([costs[c] for c in self.basis])

    def column(self, q):
        return self._solved(self._dense(self.form.columns[q]))

    def row(self, r):
        y, scale = self._priced(self._dense([(r, 1)]))
        return y, {c: v for c, v in self._tableau_row(y, self.rows).items() if v}, scale

    def replace(self, r, q, alpha):
        self.basis[r] = q
        own = self.factors.solve(self._dense(self.form.columns[q]))
        if own[r] and len(self.factors.etas) < MOST_ETAS:
            self.factors.replace(r, own)
            return
        basis = list(self.basis)
        for self.p in (self.p, *PRIMES):
            if self.factor(basis) == basis:
                return
        raise ArithmeticError("no prime factors the basis")

    def _solved(self, right):
        return lifted(self.factors.solve, self._product, right, self.p)

    def _priced(self, costs):
        return lifted(self.factors.price, self._across, costs, self.p)

    def _product(self, x):
        result = [0] * self.form.size
        for c, t in zip(self.basis, x):
            if t:
                for i, v in self.form.columns[c]:
                    result[i] += v * t
        return result

    def _across(self, y):
        return [sum(v * y[i] for i, v in self.form.columns[c]) for c in self.basis]

    @staticmethod
    def moved(levels, r, alpha, scale):
        x, a = levels[r], alpha[r]
        if x:
            if a < 0:
                x, a = -x, -a
            levels = [v * a - x * b if b else v * a for v, b in zip(levels, alpha)]
            levels[r] = x * scale
            return _shortened(levels)
        return levels

    @staticmethod
    def turned(reduced, q, leaving, row, scale):
        d, a = reduced[q], row[q]
        if d:
            if a < 0:
                d, a = -d, -a
            reduced = [v * a for v in reduced]
            for c, v in row.items():
                reduced[c] -= d * v
            reduced[leaving] = -d * scale
            return _shortened(reduced)
        return reduced


def _shortened(values):
    shared = gcd(*values)
    return [v // shared for v in values] if shared > 1 else values
