"""The relaxation of a problem in whole numbers: its rows and costs in integers, and multipliers that show a bound over
a box, exactly.

A row is a form that is at most 0, or 0. With multipliers of the rows, at least 0 where it is at most 0, the weighted
costs and rows sum to a form whose least over a box bounds the costs there: each unknown pays by the bound that its
coefficient asks for. Where an unknown has no such bound, its coefficient has to be 0, or of the other sign.
"""
from __future__ import annotations

from fractions import Fraction
from math import gcd, lcm
from typing import NamedTuple, Optional, Sequence

from ..exact import shapes
from ..exact.affine import Form
from ..exact.commands import Accepted, laid_over
from ..exact.faults import Refused
from ..exact.limits import NONE
from ..exact.reduce import Layout, Program, Row
from ..exact.session import Session
from ..exact.settings import parse_settings
from ..exact.solver import Solution, solved
from .boxes import Box, Relaxation

ZERO = Fraction(0)
MOST_ADDED = 2000  # entries of all sums together


class Shown(NamedTuple):
    """What multipliers show of a box: `weight` times the costs are at least `least` in it. With the weight 0 and
    `least` above 0 there is no point in it. `rows` has multipliers by row, those that aren't 0, and `point` an optimal
    point where there is one that has exactly this bound."""

    weight: Fraction
    rows: dict
    least: Fraction
    point: Optional[list] = None


def rows_of(script: str, settings: str) -> Rows:
    """The rows of a script's relaxation, with the sums that may be worth a split."""
    rows = Rows(Relaxation(script, settings, has_goal=True))
    sums = rows.sums()
    try:
        return Rows(Relaxation(script, settings, has_goal=True, sums=sums)) if sums else rows
    except Refused:  # with them it passes a limit of the language
        return rows


class Rows:
    """The rows of a relaxation but for those of bounds and of the goal."""

    def __init__(self, relaxation: Relaxation):
        self.relaxation = relaxation
        accepted = Accepted(relaxation.text.encode())
        self.problem = accepted.problem
        self.session = Session(self.problem, limits=NONE)
        (line,) = parse_settings(relaxation.setting(relaxation.root, 0).encode() + b"\n")
        setting = laid_over(accepted.last, line)
        self.session.fit(setting)
        program = self.session.program(setting)
        self.kinds, self.objective = program.kinds, program.objective
        own = len(self.problem.constraints) - relaxation.has_goal - 2 * len(relaxation.marked)
        self.rows = [row for row in program.rows if row.origin[0] == "node" or row.origin[1] < own]
        self.own = own
        constraints = self.problem.constraints
        self.sizes = [shapes.size(constraint.shape) for constraint in constraints]
        self.fronts = [f"dual {i} {shapes.text(c.shape)} =" for i, c in enumerate(constraints, 1)]
        self.first_node = sum(self.sizes[:own])
        entries, numbers = Layout(self.problem).entries, dict(self.problem.variables)
        self.whole = [u for item in relaxation.marked for u in entries[numbers[item.name]]]
        self.place = {u: place for place, u in enumerate(self.whole)}
        self.terms, self.constants, self.multiples = [], [], []
        for row in self.rows:
            self._take(row.form)
        self._take(self.objective)
        self.costs, self.cost_constant, self.cost_multiple = (
            part.pop() for part in (self.terms, self.constants, self.multiples)
        )
        self.columns: list = [[] for _ in self.kinds]
        for i, terms in enumerate(self.terms):
            for u, value in terms:
                self.columns[u].append((i, value))
        self.clean: dict = {}

    def _take(self, form: Form) -> None:
        values = [Fraction(v) for v in (*form.terms.values(), form.constant)]
        multiple = Fraction(lcm(*(v.denominator for v in values)))
        whole = [int(v * multiple) for v in values]
        shared = gcd(*whole) or 1
        self.terms.append([(u, v // shared) for u, v in zip(form.terms, whole)])
        self.constants.append(whole[-1] // shared)
        multiple /= shared
        self.multiples.append(int(multiple) if multiple.denominator == 1 else multiple)

    def _clean(self, u: int) -> list:
        """The rows of an unknown, those first in which all others are to be whole, which pay by their bounds."""
        if u in self.clean:
            return self.clean[u]

        def others(item):
            return sum(v not in self.place for v, _ in self.terms[item[0]]), len(self.terms[item[0]])

        self.clean[u] = sorted(self.columns[u], key=others)
        return self.clean[u]

    # Multipliers

    def ends(self, box: Box, u: int) -> tuple:
        """The bounds of an unknown in a box."""
        if u in self.place:
            return box[self.place[u]]
        kind = self.kinds[u]
        return (0 if kind == "nonneg" else None, 0 if kind == "nonpos" else None)

    def rest(self, weight, rows: dict) -> list:
        """The coefficients of the unknowns in the sum."""
        result = [0] * len(self.kinds)
        if weight:
            for u, value in self.costs:
                result[u] = weight * value
        for i, y in rows.items():
            for u, value in self.terms[i]:
                result[u] += y * value
        return result

    def shown(self, box: Box, weight: int, multipliers: Sequence, goal: Optional[Fraction]) -> Optional[Shown]:
        """Multipliers of few digits, near the given ones, that show that a box has no point as good as the goal; None
        where none of those that are tried do. With the weight 0 they show that it has no point."""
        greatest = max((abs(y) for y in multipliers), default=0) or 1
        if weight:
            greatest = max(greatest, 1)
        for digits in (2, 3, 4, 6, 8, 11):
            unit = 10**digits / greatest
            scale = 10 ** (len(str(int(unit))) - 1) if unit >= 1 else None
            one = scale or Fraction(1, 10 ** len(str(int(1 / unit))))
            if weight and one < 1:
                continue
            rows = {i: n for i, y in enumerate(multipliers) if (n := round(y * float(one)))}
            rows = {i: n for i, n in rows.items() if n > 0 or self.rows[i].is_equal}
            found = self.repaired(box, weight * int(one), rows)
            if found is not None and self.beats(found, goal):
                return found
        return None

    def beats(self, shown: Shown, goal: Optional[Fraction]) -> bool:
        """Whether a box has no point as good as the goal."""
        if shown.weight == 0:
            return shown.least > 0
        return goal is not None and shown.least > shown.weight * self.cost_multiple * goal

    def repaired(self, box: Box, weight, rows: dict) -> Optional[Shown]:
        """What multipliers show, where some of them are moved so that each unknown without a bound pays nothing."""
        rest = self.rest(weight, rows)
        wrong = [u for u, v in enumerate(rest) if v and self.ends(box, u)[v < 0] is None]
        steps = 4 * len(wrong) + 50
        while wrong:
            u = wrong.pop()
            value = rest[u]
            if not value or self.ends(box, u)[value < 0] is not None:
                continue
            steps -= 1
            move = self._move(u, value, rows) if steps else None
            if move is None:
                return None
            i, by = move
            rows[i] = rows.get(i, 0) + by
            for other, coefficient in self.terms[i]:
                rest[other] += by * coefficient
                if rest[other] and other != u and self.ends(box, other)[rest[other] < 0] is None:
                    wrong.append(other)
        return self._summed(box, weight, rows, rest)

    def _move(self, u: int, value, rows: dict) -> Optional[tuple]:
        """A row and by how much its multiplier moves, so that the coefficient of an unknown is 0."""
        for i, coefficient in self._clean(u):
            by = -value // coefficient if value % coefficient == 0 else Fraction(-value) / coefficient
            if self.rows[i].is_equal or rows.get(i, 0) + by >= 0:
                return i, by
        return None

    def _summed(self, box: Box, weight, rows: dict, rest: list, point=None) -> Shown:
        least = weight * self.cost_constant + sum(y * self.constants[i] for i, y in rows.items())
        for u, value in enumerate(rest):
            if value:
                least += value * self.ends(box, u)[value < 0]
        return Shown(weight, {i: y for i, y in rows.items() if y}, least, point)

    # The exact solver

    def exact(self, box: Box) -> tuple[Solution, Optional[Shown]]:
        """The exact solution over a box, and what its multipliers show; None where it is unbounded."""
        fixed = {u: low for u, (low, high) in zip(self.whole, box) if low == high and low is not None}
        kept, rows = [], []
        for i, row in enumerate(self.rows):
            form = _without(row.form, fixed)
            holds = form.constant == 0 if row.is_equal else form.constant <= 0
            if form.terms or not holds:
                kept.append(i)
                rows.append(Row(row.is_equal, form, row.origin))
        for u, (low, high) in zip(self.whole, box):
            if u not in fixed:
                if low is not None and (low or self.kinds[u] != "nonneg"):
                    rows.append(Row(False, Form(Fraction(low), {u: Fraction(-1)}), ("low", u)))
                if high is not None and (high or self.kinds[u] != "nonpos"):
                    rows.append(Row(False, Form(Fraction(-high), {u: Fraction(1)}), ("high", u)))
        objective = _without(self.objective, fixed)
        unknowns = [u for u in range(len(self.kinds)) if u not in fixed]
        number = {u: n for n, u in enumerate(unknowns)}
        found = solved(
            Program(
                [self.kinds[u] for u in unknowns],
                [Row(row.is_equal, _named(row.form, number), row.origin) for row in rows],
                _named(objective, number),
            )
        )
        if found.point is not None:
            found.point = [fixed.get(u, None) if u in fixed else found.point[number[u]] for u in range(len(self.kinds))]
        if found.multipliers is None:
            return found, None
        weight = Fraction(1 if found.kind == "optimal" else 0)
        # (multipliers are those of the rows, here of the rows in integers)
        mine = {i: Fraction(y) / self.multiples[i] * self.cost_multiple for i, y in zip(kept, found.multipliers) if y}
        rest = self.rest(weight, mine)
        if any(v and self.ends(box, u)[v < 0] is None for u, v in enumerate(rest)):
            return found, None
        return found, self._summed(box, weight, mine, rest, found.point)

    def with_sums(self, whole: Sequence) -> list:
        """The marked entries of a point, with the sums that they have."""
        own = len(whole) - len(self.relaxation.added)
        return [*whole[:own], *(sum(whole[at] for at in listed) for listed in self.relaxation.added)]

    def sums(self) -> list:
        """Sums that may be worth a split: of the entries of a row of marked entries whose numbers are of one sign, and
        not all the same in the least whole numbers, in which case the row says it already."""
        names = [[item.name, entry] for item in self.relaxation.marked for entry in range(item.size)]
        found: dict = {}
        for row, terms in zip(self.rows, self.terms):
            values = {v for _, v in terms}
            if row.origin[0] == "constraint" and len(terms) > 1 and all(u in self.place for u, _ in terms):
                if values not in ({1}, {-1}) and (min(values) > 0 or max(values) < 0):
                    found[tuple(sorted(self.place[u] for u, _ in terms))] = None
        listed, total = [], 0
        for places in found:
            total += len(places)
            if total <= MOST_ADDED:
                listed.append([names[at] for at in places])
        return listed

    def is_whole(self, point: Sequence) -> bool:
        """Whether the marked entries of a point are whole."""
        return all(Fraction(point[u]).denominator == 1 for u in self.whole)

    # Sections

    def section(self, number: int, box: Box, shown: Shown, goal: Optional[Fraction]) -> list[str]:
        """The lines of the section of a certificate that a box has: `infeasible`, with the goal where there is one, or
        `optimal` where it has nothing better than the goal."""
        rest, cost = self.rest(shown.weight, shown.rows), shown.weight * self.cost_multiple
        # (multipliers are those of costs and rows in integers)
        gap = shown.least - (cost * goal if goal is not None else 0)
        is_optimal = shown.weight != 0 and gap <= 0
        rows = [shown.rows[i] * multiple if i in shown.rows else 0 for i, multiple in enumerate(self.multiples)]
        if is_optimal:
            lines = [f"section {number} optimal", f"value {Fraction(shown.least) / cost}"]
            rows, rest = ([Fraction(v) / cost if v else 0 for v in values] for values in (rows, rest))
            for (name, n), entries in zip(self.problem.variables, self.session.arrays(shown.point)):
                lines.append(_line(f"var {name} {shapes.text(self.problem.nodes[n].shape)} =", entries))
        else:
            lines = [f"section {number} infeasible", f"gap {gap}"]
        duals, at = [], 0
        for size in self.sizes[: self.own]:
            duals.append(rows[at : at + size])
            at += size
        if self.relaxation.has_goal:
            duals.append([0 if is_optimal else cost])
        at = 0
        for item in self.relaxation.marked:
            part = slice(at, at + item.size)
            at += item.size
            listed = [(rest[u], self.kinds[u], *ends) for u, ends in zip(self.whole[part], box[part])]
            # (what a sign pays for wants no multiplier)
            duals.append([v if v > 0 and (kind != "nonneg" or low) else 0 for v, kind, low, _ in listed])
            duals.append([-v if v < 0 and (kind != "nonpos" or high) else 0 for v, kind, _, high in listed])
        lines += map(_line, self.fronts, duals)
        weights: dict = {}
        for row, y in zip(self.rows[self.first_node :], rows[self.first_node :]):
            weights.setdefault(row.origin[1], []).append(y)
        lines += [_line(f"node {n} =", entries) for n, entries in weights.items()]
        return [*lines, "end"]


def _line(front: str, entries: Sequence) -> str:
    return " ".join([front, *map(str, entries)])


def _without(form: Form, fixed: dict) -> Form:
    """A form with numbers in the place of some unknowns."""
    if not any(u in fixed for u in form.terms):
        return form
    constant = form.constant + sum((Fraction(v) * fixed[u] for u, v in form.terms.items() if u in fixed), ZERO)
    return Form(Fraction(constant), {u: v for u, v in form.terms.items() if u not in fixed})


def _named(form: Form, number: dict) -> Form:
    return Form(form.constant, {number[u]: v for u, v in form.terms.items()})

