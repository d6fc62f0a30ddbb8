"""Multipliers of few digits, near to those that a solver found, and the bound that they show.

A solver's multipliers are rounded constraint by constraint; the weights of the atoms are made to fit, from the
objective down, so that each condition of docs/CERTIFICATES.md holds exactly. What then is left over on a variable is
paid for by its bounds: those that constraints of the problem state, or those of a box (safe bounds in the sense of
Neumaier and Shcherbina, 2004).
"""
from __future__ import annotations

from fractions import Fraction
from typing import NamedTuple, Optional, Sequence

from ..exact import shapes
from ..exact.certificates import Section
from ..exact.checks import Checker
from ..exact.numbers import EXACT
from ..exact.reduce import Layout
from ..exact.slopes import LEAST, PAIRED, members

ZERO = Fraction(0)


class Bound(NamedTuple):
    """What multipliers show: at each feasible point within the box what is minimized is at least `total` (and where no
    objective counts, `total` is the gap). `payments` has by variable what its entries have to be paid with in the box,
    by entry: a number below 0 wants an upper bound, one above 0 a lower one."""

    total: Fraction
    duals: list[list[Fraction]]
    weights: dict[int, list[Fraction]]
    payments: dict[int, dict[int, Fraction]]


def bound(problem, setting, program, duals, weights, decimals: int, box: Fraction, counts_objective: bool) -> Bound:
    """The bound of these multipliers, rounded to so many decimals."""
    kept = [
        [_rounded(v, decimals) if c.kind == "equal" else max(_rounded(v, decimals), ZERO) for v in entries]
        for c, entries in zip(problem.constraints, duals)
    ]
    kind = "optimal" if counts_objective else "infeasible"
    walk = _Walk(problem, setting, kind, kept, weights, decimals)
    if _paid_by_constraints(problem, program, walk.left, kept):
        walk = _Walk(problem, setting, kind, kept, weights, decimals)
    payments = {v: entries for v, entries in walk.left.items() if entries}
    cost = sum((abs(r) for entries in payments.values() for r in entries.values()), ZERO) * box
    return Bound(walk.total - cost, kept, walk.section.weights, payments)


class _Walk(Checker):
    """The walk of a check from the objective and the constraints down, which makes the atoms' weights fit."""

    def __init__(self, problem, setting, kind, duals, wanted, decimals):
        section = Section(kind)
        section.duals = duals
        super().__init__(problem, setting, section, EXACT)
        self.wanted, self.decimals = wanted, decimals
        self.walk()
        self.left = {v: _left(problem.nodes[n], self.reach[n]) for v, (_, n) in enumerate(problem.variables)}

    def hand_on_slopes(self, n, node):
        args = self.problem.arg_shapes(node)
        count = shapes.size(node.shape)
        wanted = self.wanted.get(n)
        self.section.weights[n] = fitted(node.call, args, self.reach[n], wanted, count, self.decimals)
        super().hand_on_slopes(n, node)


def _left(node, reach) -> dict[int, Fraction]:
    """What is left over on the entries of a variable, as far as it isn't of the variable's sign."""
    attribute, found = node.call[2], {}
    for entry, value in enumerate(reach):
        if attribute in ("symmetric", "diag"):
            i, j = divmod(entry, node.shape[0])
            if i > j or (attribute == "diag" and i != j):
                continue
            if i < j:
                value += reach[j * node.shape[0] + i]
        fits = {"nonneg": value >= 0, "nonpos": value <= 0}.get(attribute, value == 0)
        if not fits:
            found[entry] = value
    return found


def _paid_by_constraints(problem, program, left, duals) -> bool:
    """Pays for what is left over with constraints that bound one entry alone; whether there was one."""
    if not any(left.values()):
        return False
    ends = _ends(program)
    entries = Layout(problem).entries
    paid = False
    for v, (_, n) in enumerate(problem.variables):
        for entry, value in left[v].items():
            found = ends.get((entries[n][entry], value < 0))
            if found is not None:
                (c, at), coefficient = found
                duals[c][at] += -value / coefficient
                paid = True
    return paid


def _ends(program) -> dict:
    """Constraints that bound one unknown alone, by the unknown and whether from above: place and coefficient."""
    found = {}
    for row in program.rows:
        if row.origin[0] == "constraint" and not row.is_equal and len(row.form.terms) == 1:
            ((u, coefficient),) = row.form.terms.items()
            key, end = (u, coefficient > 0), abs(row.form.constant / coefficient)
            if key not in found or end < found[key][2]:
                found[key] = (row.origin[1:], coefficient, end)
    return {key: (place, coefficient) for key, (place, coefficient, _) in found.items()}


def _rounded(value, decimals: int) -> Fraction:
    return Fraction(round(Fraction(value), decimals))


# ---- the weights of atoms


def fitted(call, args, coefficients, wanted: Optional[Sequence], count: int, decimals: int) -> list[Fraction]:
    """Weights of an atom's rows near to the wanted ones, which keep the conditions exactly at these coefficients."""
    rest = iter(wanted if wanted is not None else ())

    def next_wanted():
        return max(_rounded(next(rest, ZERO), decimals), ZERO)

    if call[0] == "cummax":
        return _running(coefficients, [[next_wanted() for _ in range(2 if e else 1)] for e in range(count)])
    result: list[Fraction] = []
    rows = 2 if call[0] in PAIRED else 1
    for entry, c in enumerate(coefficients):
        given = [[next_wanted() for _ in range(rows)] for _ in members(call, args, entry)]
        result += _of_entry(call, c, given)
    return result


def _of_entry(call, c: Fraction, given: list[list[Fraction]]) -> list[Fraction]:
    word = call[0]
    c = -c if word in LEAST else c
    if word in ("abs", "norm1"):
        slopes = [max(-c, min(c, first - second)) for first, second in given]
        return [part for s in slopes for part in (max(s, ZERO), max(-s, ZERO))]
    if word in ("pos", "neg"):
        return [min(given[0][0], c)]
    if word == "norm_inf":
        slopes = [first - second for first, second in given]
        sizes = _summing([abs(s) for s in slopes], min(c, sum(map(abs, slopes))), None)
        return [part for s, size in zip(slopes, sizes) for part in ((size, ZERO) if s >= 0 else (ZERO, size))]
    if word in ("sum_largest", "sum_smallest"):
        return _summing([min(w, c) for (w,) in given], call[1] * c, c)
    return _summing([w for (w,) in given], c, None)


def _summing(numbers: list[Fraction], total: Fraction, most: Optional[Fraction]) -> list[Fraction]:
    """Numbers of at least 0, and at most `most`, near to these, whose sum is the total."""
    rest = total - sum(numbers)
    for i in sorted(range(len(numbers)), key=lambda i: -numbers[i]):
        if rest == 0:
            break
        new = max(numbers[i] + rest, ZERO)
        new = new if most is None else min(new, most)
        rest -= new - numbers[i]
        numbers[i] = new
    return numbers


def _running(coefficients, given: list[list[Fraction]]) -> list[Fraction]:
    """Of cummax, from the last entry on: each carries what the entry behind it leaves."""
    carried, found = ZERO, []
    for c, ws in zip(reversed(coefficients), reversed(given)):
        total = c + carried
        carried = min(ws[1], total) if len(ws) == 2 else ZERO
        found.append([total - carried, carried][: len(ws)])
    return [w for ws in reversed(found) for w in ws]
