"""Makes both ends of an interval: scripts with certificates, which are right before the program is asked."""
from __future__ import annotations

from dataclasses import dataclass, field
from fractions import Fraction
from math import floor
from typing import Optional

from ..errors import LimitError
from ..exact import shapes
from ..exact.certificates import Section, written
from ..exact.checks import Checker, Fault, check
from ..exact.commands import Accepted, laid_over
from ..exact.faults import Refused
from ..exact.limits import NONE
from ..exact.numbers import EXACT, OF_LANGUAGE
from ..exact.session import Session
from ..exact.settings import parse_settings
from ..exact.solver import solved
from . import multipliers, points
from .intervals import LEAST, relative
from .multipliers import Bound
from .points import Margins
from .texts import OBJECTIVE, Text, Unwritten

ZERO = Fraction(0)
BOX = Fraction(10**6)
AIM = 1e-9
# The finest first: what is too fine passes 128 bits, and what is too coarse makes the interval wider.
TRIALS = (
    Margins(15, 19, 1),
    Margins(14, 18, 3),
    Margins(12, 15, 2),
    Margins(15, 21, 4),
    Margins(10, 12, 2),
    Margins(9, 10, 1),
)


@dataclass
class Made:
    """Ends, each with its number and the texts that show it: a script and a certificate. `point` has the entries of
    the variables in the problem's order, `duals` those of the constraints; `residues` are what the point lacks, by
    number of the constraint or name of the variable."""

    status: str = "optimal"
    value: Optional[Fraction] = None
    point: Optional[list] = None
    upper: Optional[tuple[str, str]] = None
    bound: Optional[Fraction] = None
    duals: Optional[list] = None
    lower: Optional[tuple[str, str]] = None
    box: Optional[Fraction] = None
    boxed: tuple[str, ...] = ()
    residues: dict = field(default_factory=dict)
    why: str = ""

    def width(self) -> float:
        """The relative width, 0 of one that is as narrow as any has to be; without end where an end is missing."""
        if self.value is None or self.bound is None:
            return float("inf")
        return 0.0 if abs(self.value - self.bound) <= LEAST else relative(self.value, self.bound)


class Maker:
    """Makes intervals of a script at one setting."""

    def __init__(self, script: str, settings: str, box: Optional[Fraction] = None):
        self.script, self.settings = script, settings
        self.accepted = Accepted(script.encode())
        self.problem = self.accepted.problem
        (line,) = parse_settings(settings.encode())
        self.line = line
        self.setting = laid_over(self.accepted.last, line)
        self.session = Session(self.problem, limits=NONE)
        self.session.fit(self.setting)
        self.program = self.session.program(self.setting)
        self.text = Text(script, self.problem)
        self.side = -1 if self.problem.sense == "maximize" else 1
        self.box = box

    # ---- both ends of a problem that has a best point

    def interval(self, found=None) -> Made:
        """The narrowest of the intervals that are tried, the first that is as narrow as is aimed at."""
        found = found or solved(self.program)
        best = Made(found.kind, why="its numbers pass 128 bits in every way that was tried")
        if found.kind != "optimal":
            return best
        itself = Made()
        if all(map(OF_LANGUAGE.has, found.point)):
            self.put_point(itself, found.point)
        for margins in TRIALS:
            near = points.tightened(self.problem, self.program, found, margins)
            made = Made(value=itself.value, point=itself.point, upper=itself.upper)
            if itself.value is None:
                self.put_point(made, points.rounded(self.problem, self.program, near.point, margins.point))
            self.put_bound(made, self.rows_of(near.multipliers), margins.multipliers)
            if best.value is None and best.bound is None or made.width() < best.width():
                best = made
            if best.width() <= AIM:
                break
        return best

    def refuted(self) -> Optional[str]:
        """A certificate that no point is feasible, of multipliers of few digits; None where none is found."""
        for margins in TRIALS:
            near = solved(points.elastic(self.problem, self.program, margins))
            if near.kind != "optimal":
                continue
            duals, weights = self.rows_of(near.multipliers)
            found = multipliers.bound(
                self.problem, self.setting, self.program, duals, weights, margins.multipliers, BOX, False
            )
            if found.payments or found.total <= 0:
                continue
            try:
                gap = _simple(found.total)
                return self._certificate(self.script, "infeasible", gap, lambda _, f=found: f.duals, found.weights)
            except Fault:
                continue
        return None

    def rows_of(self, row_multipliers):
        """Multipliers by constraint, and weights by node."""
        weights: dict = {}
        for row, value in zip(self.program.rows, row_multipliers):
            if row.origin[0] == "node":
                weights.setdefault(row.origin[1], []).append(value)
        return self.session.spread(row_multipliers.__getitem__), weights

    # ---- the point

    def put_point(self, made: Made, unknowns) -> None:
        """Puts the end of a point, where it keeps all constraints."""
        self.put_arrays(made, self.session.arrays(unknowns))

    def put_arrays(self, made: Made, arrays) -> None:
        """The same of the entries of the variables."""
        made.residues, value = self.tried(arrays)
        made.point = arrays
        if made.residues:
            made.why = "no point of few digits that keeps all constraints was found"
            return
        try:
            script = self.text.with_values(arrays)
            certificate = self._certificate(script, "optimal", self.side * value, lambda problem: [
                [ZERO] * shapes.size(c.shape) for c in problem.constraints
            ])
        except (Fault, Refused, LimitError, Unwritten) as fault:
            made.why = _said(fault)
            return
        made.value, made.upper, made.why = value, (script, certificate), ""

    def tried(self, arrays) -> tuple[dict, Fraction]:
        """What a point lacks of constraints, by number from 1, and of variables' own signs and forms, by name, the
        greatest of each; and the objective's value there."""
        section = Section("optimal")
        section.point = arrays
        checker = Checker(self.problem, self.setting, section, EXACT)
        lacks: dict = {}
        for (name, n), entries in zip(self.problem.variables, arrays):
            least = _lacking(self.problem.nodes[n], entries)
            if least:
                lacks[name] = least
        checker.divisors()
        for number, c in enumerate(self.problem.constraints, 1):
            checker.values.form(c.left, c.right)
            pairs = zip(checker.values.found[c.left], checker.values.found[c.right])
            gaps = [abs(a - b) if c.kind == "equal" else a - b for a, b in pairs]
            if max(gaps, default=ZERO) > 0:
                lacks[number] = max(gaps)
        return lacks, self.side * checker.objective(checker.values)

    # ---- the bound

    def put_bound(self, made: Made, wanted, decimals: int) -> None:
        """Puts the end of multipliers, rounded to so many decimals."""
        duals, weights = wanted
        largest = [abs(v) for entries in [*duals, *weights.values()] for v in entries]
        decimals = points.unit(largest, decimals)
        box = self.box or _box(made.point)
        found = multipliers.bound(self.problem, self.setting, self.program, duals, weights, decimals, box, True)
        step = 10 ** max(points.unit([found.total], 16), 0)
        cut = Fraction(floor(found.total * step) - 1, step)
        try:
            made.lower = self._lower(found, box, cut)
        except (Fault, Refused, LimitError, Unwritten) as fault:
            made.why = made.why or _said(fault)
            return
        made.bound, made.duals = self.side * cut, found.duals
        if found.payments:
            made.box, made.boxed = box, tuple(self.problem.variables[v][0] for v in found.payments)

    def _lower(self, found: Bound, box: Fraction, cut: Fraction) -> tuple[str, str]:
        sign = "<=" if self.side == 1 else ">="
        listed, duals = [f"{OBJECTIVE} {sign} {_text(self.side * cut)}"], [[Fraction(1)]]
        for v, entries in found.payments.items():
            name, n = self.problem.variables[v]
            size = shapes.size(self.problem.nodes[n].shape)
            for sign, word in ((-1, f"{name} <= {_text(box)}"), (1, f"{name} >= {_text(-box)}")):
                paid = [max(sign * entries.get(e, ZERO), ZERO) for e in range(size)]
                if any(paid):
                    listed.append(word)
                    duals.append(paid)
        script = self.text.with_constraints(listed)
        gap = _simple(found.total - cut)
        return script, self._certificate(script, "infeasible", gap, lambda _: found.duals + duals, found.weights)

    # ---- certificates

    def _certificate(self, script: str, kind: str, number: Fraction, duals, weights=None) -> str:
        """The certificate of a script at the setting. Raises the fault that its check finds."""
        accepted = Accepted(script.encode())
        problem = accepted.problem
        setting = laid_over(accepted.last, self.line)
        section = Section(kind)
        section.params = [setting[name].entries for name, _ in problem.parameters]
        section.number, section.point, section.duals = number, [], duals(problem)
        section.weights = dict(sorted((weights or {}).items()))
        for value in (number, *(v for entries in [*section.duals, *section.weights.values()] for v in entries)):
            if not OF_LANGUAGE.has(Fraction(value)):
                raise Fault("Wide", "number", value)
        check(problem, setting, section)
        return written(problem, "2", [section])


def _said(fault) -> str:
    """What stood in the way, in words."""
    if isinstance(fault, Fault) and fault.name == "Wide":
        return "numbers pass 128 bits"
    return f"a script for it isn't taken ({fault.text('script').strip()})" if isinstance(fault, Refused) else str(fault)


def _lacking(node, entries) -> Fraction:
    """By how much the entries of a variable miss its sign or form."""
    attribute = node.call[2]
    if attribute in ("nonneg", "nonpos"):
        return max(ZERO, *(-v if attribute == "nonneg" else v for v in entries))
    if attribute in ("symmetric", "diag"):
        n = node.shape[0]
        pairs = ((entry, *divmod(entry, n)) for entry in range(n * n))
        if attribute == "diag":
            return max((abs(entries[e]) for e, i, j in pairs if i != j), default=ZERO)
        return max((abs(entries[e] - entries[j * n + i]) for e, i, j in pairs), default=ZERO)
    return ZERO


def _box(arrays) -> Fraction:
    """The box that is taken where none is given: a million, or a thousand times the point."""
    greatest = max((abs(v) for entries in arrays or () for v in entries), default=ZERO)
    box = BOX
    while box < 1000 * greatest:
        box *= 10
    return box


def _simple(gap: Fraction) -> Fraction:
    """A number above 0 of few digits and at most the gap."""
    power = 0
    while gap * 10**power < 1:
        power += 1
    return Fraction(int(gap * 10**power), 10**power)


def _text(number: Fraction) -> str:
    from ..numbers import text

    return text(Fraction(number))
