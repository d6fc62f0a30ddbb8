"""The exact answer to a reduced program: how it ends, the point, the ray and the multipliers of its rows."""
from __future__ import annotations

from fractions import Fraction
from math import gcd, lcm
from typing import Optional

from . import starts
from .arithmetic import Whole
from .run import Run
from .standard import Standard


class Solution:
    """An end of a program, shown by what it has.

        kind           `optimal`, `infeasible` or `unbounded`
        number         the least value; the gap; or the value at the point
        slope          how fast what is minimized falls along the ray
        point, ray     numbers of the unknowns, None where there are none
        multipliers    of the rows, None where there are none: with those of an optimal program, what is minimized and
                       multiplier times row, summed, are at least the value wherever the unknowns have their signs;
                       with those of an infeasible one, the sum is at least the gap
        basis          the columns to start from for a program of the same size
        pivots         in whole numbers
    """

    def __init__(self, kind: str, basis: list, pivots: int):
        self.kind, self.basis, self.pivots = kind, basis, pivots
        self.number = Fraction(0)
        self.slope = self.point = self.ray = self.multipliers = None


def solved(program, use_floats: bool = True, basis: Optional[list] = None) -> Solution:
    """The answer to a reduced program, from a basis of an earlier one where there is one of its size."""
    form = Standard(program)
    if basis is not None and (len(basis) != form.size or max(basis, default=0) >= len(form.kinds)):
        basis = None
    if use_floats:
        basis = starts.found(form, basis)
    numbers = Whole(form)
    run = Run(form, numbers, basis or starts.first(form))
    end = run.found()
    return Reading(program, form, numbers, run, end).solution()


class Reading:
    """What stands in the last basis of a run in whole numbers."""

    def __init__(self, program, form, numbers, run, end):
        self.program, self.form, self.numbers, self.run, self.end = program, form, numbers, run, end

    def solution(self):
        result = Solution(self.end.kind, list(self.run.basis), self.run.pivots)
        getattr(self, "_" + self.end.kind)(result)
        return result

    def _optimal(self, result):
        result.point = self._point()
        result.number = self._objective(result.point) + self.program.objective.constant
        y, scale = self.numbers.multipliers(self.form.costs)
        # (costs are those of the program times the last factor)
        result.multipliers = self._rows([Fraction(-v, scale) / self.form.factors[-1] for v in y])

    def _infeasible(self, result):
        multipliers = self._rows([Fraction(y) for y in self.end.multipliers])
        multipliers = primitive(multipliers)
        result.multipliers = multipliers
        result.number = sum((m * row.form.constant for m, row in zip(multipliers, self.program.rows)), Fraction(0))

    def _unbounded(self, result):
        result.point = self._point()
        result.number = self._objective(result.point) + self.program.objective.constant
        end = self.end
        columns = {end.column: end.direction * end.scale}
        columns.update((c, -end.direction * a) for c, a in zip(self.run.basis, end.alpha))
        result.ray = primitive(self._unknowns(columns))
        result.slope = -self._objective(result.ray)

    def _point(self):
        levels, scale = self.numbers.exact_levels()
        return self._unknowns({c: Fraction(x, scale) for c, x in zip(self.run.basis, levels)})

    def _unknowns(self, columns):
        return [sign * columns.get(u, Fraction(0)) for u, sign in enumerate(self.form.signs)]

    def _objective(self, unknowns):
        return sum((v * unknowns[u] for u, v in self.program.objective.terms.items()), Fraction(0))

    def _rows(self, multipliers):
        """Multipliers of the program's rows from those of the rows in whole numbers."""
        return [factor * m for factor, m in zip(self.form.factors, multipliers)]


def primitive(values):
    """The numbers times one above 0 that makes them whole with no common divisor."""
    values = [Fraction(v) for v in values]
    multiple = lcm(*(v.denominator for v in values))
    whole = [v.numerator * (multiple // v.denominator) for v in values]
    shared = gcd(*whole) or 1
    return [Fraction(v // shared) for v in whole]
