"""Points of few digits that keep all constraints exactly, near to the best one.

The program is tightened a little before it is solved: inequalities by a margin, costs of what has a sign by another
one. So its point lies inside, and its multipliers too, and both may be rounded. What rounding does to equalities is
mended by moving some unknowns, exactly.
"""
from __future__ import annotations

from fractions import Fraction
from typing import NamedTuple, Optional, Sequence

from ..exact.affine import Form
from ..exact.numbers import OF_LANGUAGE
from ..exact.reduce import Layout, Program, Row
from ..exact.solver import Solution, solved

ZERO = Fraction(0)
MOST_ROUNDS = 12


class Margins(NamedTuple):
    """How fine a point is, relative to its greatest entry, in decimals; how many decimals multipliers have; and how
    much wider than that the margins are, in powers of ten."""

    point: int
    multipliers: int
    wider: int


def count_of(problem) -> int:
    """How many unknowns are entries of variables: they come first."""
    return len(Layout(problem).kinds)


def unit(values: Sequence[Fraction], digits: int) -> int:
    """So many decimals are as many digits of the greatest of the values."""
    greatest = max((abs(v) for v in values), default=ZERO)
    whole = len(str(int(greatest))) if greatest >= 1 else 0
    zeros = 0
    while 0 < greatest * 10 ** (zeros + 1) < 1:
        zeros += 1
    return digits - whole + zeros


def tightened(problem, program, found: Solution, margins: Margins) -> Solution:
    """The solution of the program with margins, from the basis of the one without. Where no point keeps a margin, the
    constraints that are in its way have none."""
    own = count_of(problem)
    step = Fraction(1, 10 ** unit(found.point[:own], margins.point))
    wide = 10**margins.wider
    without: set[int] = set()
    shares = _shares(program, own, Fraction(wide, 10**margins.multipliers))
    is_shared = True
    for _ in range(MOST_ROUNDS):
        rows = [
            Row(False, Form(row.form.constant + step * wide * sum(map(abs, row.form.terms.values())), row.form.terms),
                row.origin)
            if row.origin[0] == "constraint" and not row.is_equal and r not in without and row.form.terms
            else row
            for r, row in enumerate(program.rows)
        ]
        objective = _shared(program, shares) if is_shared else program.objective
        result = solved(Program(program.kinds, rows, objective), True, found.basis)
        if result.kind == "optimal":
            return result
        if result.kind == "unbounded":
            is_shared = False
        else:
            more = {r for r, y in enumerate(result.multipliers) if y and program.rows[r].origin[0] == "constraint"}
            if not more - without:
                break
            without |= more
    return found


def _shares(program, own: int, margin: Fraction) -> dict[int, Fraction]:
    """By how much the cost of each unknown of a variable with a sign is lowered."""
    sums = dict.fromkeys(range(own), ZERO)
    for row in program.rows:
        for u, v in row.form.terms.items():
            if u < own:
                sums[u] += abs(v)
    return {u: margin * (1 + total) for u, total in sums.items() if program.kinds[u] in ("nonneg", "nonpos")}


def _shared(program, shares) -> Form:
    terms = dict(program.objective.terms)
    for u, share in shares.items():
        terms[u] = terms.get(u, ZERO) - (share if program.kinds[u] == "nonneg" else -share)
    return Form(program.objective.constant, terms)


def rounded(problem, program, point: Sequence[Fraction], digits: int) -> list[Fraction]:
    """The entries of the variables with so many digits of the greatest, moved so that equalities hold, as far as the
    unknowns that aren't at a bound let them."""
    own = count_of(problem)
    decimals = unit(point[:own], digits)
    near = [Fraction(round(Fraction(v), decimals)) for v in point[:own]]
    moved = mended(program, near, own)
    return moved if all(map(OF_LANGUAGE.has, moved)) else near


def mended(program, near: list[Fraction], own: int) -> list[Fraction]:
    """The point moved so that each equality holds, by as few unknowns as there are equalities; those with coefficients
    of 1 and far from 0 are moved first."""
    rows = []
    for row in program.rows:
        if row.is_equal and row.origin[0] == "constraint":
            terms = {u: Fraction(v) for u, v in row.form.terms.items()}
            residue = row.form.constant + sum((v * near[u] for u, v in terms.items()), ZERO)
            rows.append((terms, -residue))
    if not any(residue for _, residue in rows):
        return near
    moves = _solved(rows, near, program.kinds)
    return near if moves is None else [v + moves.get(u, ZERO) for u, v in enumerate(near)]


def _solved(rows, near, kinds) -> Optional[dict[int, Fraction]]:
    """Moves of some unknowns that keep all rows, None where there are none; by elimination."""
    pivots: list[tuple[int, dict, Fraction]] = []

    def worth(item):
        u, v = item
        is_free = kinds[u] == "free"
        return (is_free or near[u] != 0, abs(v) == 1, is_free, abs(near[u]), -u)

    for terms, right in sorted(rows, key=lambda row: len(row[0])):
        terms = dict(terms)
        for u, other, value in pivots:
            if u in terms:
                factor = terms[u]
                for w, v in other.items():
                    new = terms.get(w, ZERO) - factor * v
                    if new:
                        terms[w] = new
                    else:
                        terms.pop(w, None)
                right -= factor * value
        if not terms:
            if right:
                return None
            continue
        u, v = max(terms.items(), key=worth)
        pivots.append((u, {w: c / v for w, c in terms.items()}, right / v))
    moves: dict[int, Fraction] = {}
    for u, terms, right in reversed(pivots):
        moves[u] = right - sum((c * moves.get(w, ZERO) for w, c in terms.items() if w != u), ZERO)
    return moves


def elastic(problem, program, margins: Margins) -> Program:
    """The program in which each constraint may be broken at a cost of 1, and nothing else costs anything but the
    margins: its multipliers show that no point is feasible, where none is."""
    kinds, rows, costs = list(program.kinds), [], {}
    for row in program.rows:
        terms = dict(row.form.terms)
        if row.origin[0] == "constraint":
            for side in (-1, 1) if row.is_equal else (-1,):
                terms[len(kinds)] = Fraction(side)
                costs[len(kinds)] = Fraction(1)
                kinds.append("nonneg")
        rows.append(Row(row.is_equal, Form(row.form.constant, terms), row.origin))
    for u, share in _shares(program, count_of(problem), Fraction(10**margins.wider, 10**margins.multipliers)).items():
        costs[u] = -share if kinds[u] == "nonneg" else share
    return Program(kinds, rows, Form(ZERO, costs))


def nearest(problem, program, point: Sequence[Fraction], margins: Margins) -> Optional[list[Fraction]]:
    """The point that keeps the constraints with a margin and is nearest to the given one in the greatest of its
    entries' moves; None where there is none."""
    own = count_of(problem)
    far = len(program.kinds)
    rows = list(program.rows)
    for u in range(own):
        for side in (1, -1):
            rows.append(Row(False, Form(-side * point[u], {u: Fraction(side), far: Fraction(-1)}), ("near", u, side)))
    moving = Program([*program.kinds, "nonneg"], rows, Form(ZERO, {far: Fraction(1)}))
    first = solved(moving)
    if first.kind != "optimal":
        return None
    return tightened(problem, moving, first, margins).point[:own]
