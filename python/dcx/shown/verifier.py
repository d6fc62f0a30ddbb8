"""Finds what can be shown of given values: the part of `verify` that is worked out in the exact solver's process."""
from __future__ import annotations

from fractions import Fraction
from typing import Optional

from ..exact.affine import Form
from ..exact.numbers import OF_LANGUAGE
from ..exact.reduce import Layout, Program, Row
from ..exact.solver import solved
from . import points
from .making import AIM, TRIALS, Made, Maker

ZERO = Fraction(0)
NEAR = Fraction(1, 100_000)  # of the greatest entry: what is farther away is another point


class Verifier(Maker):
    """Shows what can be shown of values, and of multipliers."""

    def verified(self, values: dict[str, list], duals: Optional[dict[int, list]]):
        """Both ends, what the values lack of constraints and variables, the objective there, and how far the point of
        the interval is from them."""
        given = [[Fraction(v) for v in values[name]] for name, _ in self.problem.variables]
        lacks, value = self.tried(given)
        made, moved = self.near(given, lacks)
        found = None
        if duals is not None:
            self.put_best_bound(made, self.completed(duals))
        if made.bound is None or not made.width() <= AIM:
            found = solved(self.program)
            self.put_own_bound(made, found)
        return made, lacks, value, moved

    # ---- the point

    def near(self, given, lacks) -> tuple[Made, Optional[Fraction]]:
        """The end of a feasible point as near to the values as one is found, and how far away that is."""
        made = Made()
        if not lacks and all(OF_LANGUAGE.has(v) for entries in given for v in entries):
            self.put_arrays(made, given)
            if made.value is not None:
                return made, ZERO
        wanted = self.unknowns(given)
        most = max((abs(v) for v in wanted), default=ZERO) or Fraction(1)
        for margins in TRIALS:
            made = Made()
            self.put_point(made, points.rounded(self.problem, self.program, wanted, margins.point))
            if made.value is None:
                close = points.nearest(self.problem, self.program, wanted, margins)
                if close is None:
                    made.why = "no point keeps the constraints"
                    return made, None
                self.put_point(made, points.rounded(self.problem, self.program, close, margins.point))
            moved = max((abs(a - b) for a, b in zip(self.unknowns(made.point), wanted)), default=ZERO)
            if moved > NEAR * most:
                made.value = made.upper = None
                made.why = f"the nearest feasible point that is found is {float(moved):.3g} away"
                return made, None
            if made.value is not None:
                return made, moved
        return made, None

    def unknowns(self, arrays) -> list[Fraction]:
        """The unknowns of the program that are entries of variables."""
        layout = Layout(self.problem)
        found = [ZERO] * len(layout.kinds)
        for (_, n), entries in zip(self.problem.variables, arrays):
            for u, value in zip(layout.entries[n], entries):
                if u is not None:
                    found[u] = Fraction(value)
        return found

    # ---- the bound

    def put_best_bound(self, made: Made, wanted) -> None:
        """Puts the bound of multipliers in the best of the ways to round them."""
        for margins in TRIALS:
            trial = Made(value=made.value, point=made.point)
            self.put_bound(trial, wanted, margins.multipliers)
            if trial.bound is not None and self.is_better(trial, made):
                made.bound, made.duals, made.lower = trial.bound, trial.duals, trial.lower
                made.box, made.boxed = trial.box, trial.boxed
            if made.width() <= AIM:
                break

    def is_better(self, trial: Made, made: Made) -> bool:
        return made.bound is None or self.side * trial.bound > self.side * made.bound

    def put_own_bound(self, made: Made, found) -> None:
        """Puts the bound of the exact solver's own multipliers."""
        if found.kind != "optimal":
            made.why = f"the problem is {found.kind}"
            return
        near = points.tightened(self.problem, self.program, found, TRIALS[0])
        self.put_best_bound(made, self.rows_of(near.multipliers))

    def completed(self, duals: dict[int, list]):
        """The given multipliers, and weights of the atoms that go with them as well as any: those of the problem in
        which the constraints stand in the objective, in the box."""
        stated = [list(map(Fraction, duals.get(i, ()))) for i in range(1, len(self.problem.constraints) + 1)]
        rows = [row for row in self.program.rows if row.origin[0] == "constraint"]
        at = iter(rows)
        objective = Form(self.program.objective.constant, dict(self.program.objective.terms))
        for number, entries in enumerate(stated):
            count = sum(1 for row in rows if row.origin[1] == number)
            entries = entries or [ZERO] * count
            its = [next(at) for _ in entries]
            stated[number] = [v if row.is_equal else max(v, ZERO) for v, row in zip(entries, its)]
        for value, row in zip((v for entries in stated for v in entries), rows):
            objective.constant += value * row.form.constant
            for u, coefficient in row.form.terms.items():
                objective.terms[u] = objective.terms.get(u, ZERO) + value * coefficient
        graph = [row for row in self.program.rows if row.origin[0] == "node"]
        if not graph:
            return stated, {}
        box = self.box or Fraction(10**6)
        ends = [
            Row(False, Form(-box, {u: Fraction(sign)}), ("box", u, sign))
            for u in range(points.count_of(self.problem)) for sign in (1, -1)
        ]
        found = solved(Program(self.program.kinds, graph + ends, objective))
        weights: dict = {}
        if found.kind == "optimal":
            for row, value in zip(graph, found.multipliers):
                weights.setdefault(row.origin[1], []).append(value)
        return stated, weights
