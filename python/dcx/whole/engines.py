"""Relaxations over boxes, solved: by HiGHS in floating point where SciPy can be imported, else by the exact solver.

What is found is a guess: a value, a point, and multipliers of the rows in integers, from which `Rows.shown` makes what
is shown.
"""
from __future__ import annotations

from typing import NamedTuple, Optional

from .boxes import Box
from .rows import Rows


class Found(NamedTuple):
    """A relaxation's end: `optimal` with the value of what is minimized, `infeasible`, `unbounded`, or `lost`. `whole`
    has the point's marked entries; multipliers go with costs in integers, those of an infeasible one with none."""

    kind: str
    value: float = 0.0
    whole: tuple = ()
    multipliers: tuple = ()


def engine(rows: Rows, use_floats: bool = True):
    """What solves the relaxations of these rows."""
    if use_floats:
        try:
            return Floats(rows)
        except (ImportError, OverflowError):
            pass
    return Exact(rows)


class Exact:
    """The exact solver."""

    is_exact = True

    def __init__(self, rows: Rows):
        self.rows = rows

    def solve(self, box: Box) -> Found:
        """The relaxation over a box."""
        found, shown = self.rows.exact(box)
        if found.kind == "unbounded":
            return Found("unbounded")
        sparse = shown.rows if shown is not None else {}
        multipliers = tuple(sparse.get(i, 0) for i in range(len(self.rows.rows)))
        if found.kind == "infeasible":
            return Found("infeasible", multipliers=multipliers)
        whole = tuple(found.point[u] for u in self.rows.whole)
        return Found("optimal", float(found.number), whole, multipliers)

    @staticmethod
    def guess(seconds: float) -> Optional[list]:
        """No guess of a best point."""
        return None


class Floats:
    """HiGHS, by way of SciPy."""

    is_exact = False

    def __init__(self, rows: Rows):
        import numpy
        from scipy.optimize import linprog
        from scipy.sparse import csr_matrix

        self.rows, self.numpy, self.linprog = rows, numpy, linprog
        count = len(rows.kinds)
        self.costs = numpy.zeros(count)
        for u, value in rows.costs:
            self.costs[u] = float(value)
        self.less = [i for i, row in enumerate(rows.rows) if not row.is_equal]
        self.same = [i for i, row in enumerate(rows.rows) if row.is_equal]

        def part(listed):
            data, columns, starts = [], [], [0]
            for i in listed:
                data += [float(v) for _, v in rows.terms[i]]
                columns += [u for u, _ in rows.terms[i]]
                starts.append(len(columns))
            right = numpy.array([-float(rows.constants[i]) for i in listed])
            return (csr_matrix((data, columns, starts), shape=(len(listed), count)), right) if listed else (None, None)

        self.a, self.b = part(self.less)
        self.e, self.f = part(self.same)
        ends = {"nonneg": (0, numpy.inf), "nonpos": (-numpy.inf, 0)}
        self.bounds = numpy.array([ends.get(kind, (-numpy.inf, numpy.inf)) for kind in rows.kinds], dtype=float)
        self.elastic = None

    def ends(self, box: Box):
        """The bounds of all unknowns."""
        bounds, infinity = self.bounds.copy(), self.numpy.inf
        for u, (low, high) in zip(self.rows.whole, box):
            bounds[u] = (-infinity if low is None else low, infinity if high is None else high)
        return bounds

    def solve(self, box: Box) -> Found:
        """The relaxation over a box."""
        bounds = self.ends(box)
        if (bounds[:, 0] > bounds[:, 1]).any():
            return Found("infeasible", multipliers=(0.0,) * len(self.rows.rows))
        found = self._solved(self.costs, self.a, self.b, self.e, self.f, bounds)
        if found.status == 2:
            return self._infeasible(bounds)
        if found.status == 3:
            return Found("unbounded")
        if found.status != 0:
            return Found("lost")
        multipliers = [0.0] * len(self.rows.rows)
        for listed, part in ((self.less, found.ineqlin), (self.same, found.eqlin)):
            for i, value in zip(listed, part.marginals):
                multipliers[i] = -float(value)
        value = (float(found.fun) + self.rows.cost_constant) / float(self.rows.cost_multiple)
        return Found("optimal", value, tuple(map(float, found.x[self.rows.whole])), tuple(multipliers))

    def _solved(self, costs, a, b, e, f, bounds):
        return self.linprog(costs, A_ub=a, b_ub=b, A_eq=e, b_eq=f, bounds=bounds, method="highs-ds")

    def _infeasible(self, bounds) -> Found:
        """Multipliers that show that a box has no point: those of the least violation of all rows."""
        from scipy.sparse import hstack, vstack

        numpy = self.numpy
        if self.elastic is None:
            blocks = [(self.a, self.b, 1)] if self.less else []
            blocks += [(self.e, self.f, 1), (self.e, self.f, -1)] if self.same else []
            left = vstack([hstack([side * m, -numpy.ones((m.shape[0], 1))]) for m, _, side in blocks]).tocsr()
            self.elastic = left, numpy.concatenate([side * r for _, r, side in blocks])
        left, right = self.elastic
        costs = numpy.zeros(left.shape[1])
        costs[-1] = 1
        found = self._solved(costs, left, right, None, None, numpy.vstack([bounds, [0, numpy.inf]]))
        if found.status != 0:
            return Found("lost")
        values, n, k = -found.ineqlin.marginals, len(self.less), len(self.same)
        multipliers = [0.0] * len(self.rows.rows)
        for place, i in enumerate(self.less):
            multipliers[i] = float(values[place])
        for place, i in enumerate(self.same):
            multipliers[i] = float(values[n + place] - values[n + k + place])
        return Found("infeasible", multipliers=tuple(multipliers))

    def guess(self, seconds: float) -> Optional[list]:
        """The marked entries of a point that HiGHS's own branch and bound finds, None where it finds none in time."""
        from scipy.optimize import Bounds, LinearConstraint, milp

        numpy, count = self.numpy, len(self.rows.kinds)
        constraints = []
        if self.less:
            constraints.append(LinearConstraint(self.a, -numpy.inf, self.b))
        if self.same:
            constraints.append(LinearConstraint(self.e, self.f, self.f))
        marks = numpy.zeros(count)
        marks[self.rows.whole] = 1
        bounds = self.ends(self.rows.relaxation.root)
        try:
            found = milp(
                self.costs, integrality=marks, bounds=Bounds(bounds[:, 0], bounds[:, 1]), constraints=constraints,
                options={"time_limit": seconds, "mip_rel_gap": 0},
            )
        except ValueError:
            return None
        return None if found.x is None else [round(v) for v in found.x[self.rows.whole]]
