"""A reduced program in whole numbers, as the simplex method has it: columns, rows and costs, with a logical column
behind them for each row.
"""
from __future__ import annotations

from fractions import Fraction
from math import gcd, lcm

FREE, NONNEG, ZERO = "free", "nonneg", "zero"


class Standard:
    """`costs x` is to be small where `columns x = right`, and each x is free, at least 0, or 0.

    Column `count + i` is the logical one of row i: 1 in it, at least 0 for an inequality, 0 for an equality. Columns
    and rows are lists of (row or column, number); those of the logical ones aren't listed among the rows. An unknown
    that is at most 0 stands turned around.

        size, count      rows, and columns that are no logical ones
        kinds, costs     of all columns
        signs            of the unknowns
        factors          of the rows: a row of the program times its factor, which is above 0, is the row here; the last
                         one is that of the costs
    """

    def __init__(self, program):
        self.size, self.count = len(program.rows), len(program.kinds)
        self.signs = [-1 if kind == "nonpos" else 1 for kind in program.kinds]
        self.kinds = [FREE if kind == "free" else NONNEG for kind in program.kinds]
        self.kinds += [ZERO if row.is_equal else NONNEG for row in program.rows]
        self.columns = [[] for _ in range(self.count)]
        self.rows, self.right, self.factors = [], [], []
        for i, row in enumerate(program.rows):
            terms, right = self._whole(row.form)
            self.rows.append(list(terms.items()))
            self.right.append(-right)
            for u, value in terms.items():
                self.columns[u].append((i, value))
        self.columns += [[(i, 1)] for i in range(self.size)]
        terms, _ = self._whole(program.objective)
        self.costs = [terms.get(u, 0) for u in range(self.count)] + [0] * self.size

    def _whole(self, form):
        """Terms and constant of a form times the factor that makes them whole with no common divisor."""
        values = [Fraction(v) for v in (*form.terms.values(), form.constant)]
        multiple = lcm(*(v.denominator for v in values))
        whole = [v.numerator * (multiple // v.denominator) for v in values]
        shared = gcd(*whole) or 1
        self.factors.append(Fraction(multiple, shared))
        return {u: self.signs[u] * (v // shared) for u, v in zip(form.terms, whole) if v}, whole[-1] // shared
