"""How far apart the values are that an objective can have: at points whose marked entries are whole, each value is a
multiple of the step, where there is one."""
from __future__ import annotations

from fractions import Fraction
from math import floor, gcd, lcm
from typing import Iterable, Optional

from ..exact import calls
from ..exact.commands import Accepted, laid_over
from ..exact.settings import parse_settings
from ..exact.verify import Values, listed


def step_of(script: str, settings: str) -> Optional[Fraction]:
    """The step of a script's objective at a line of settings; None where a variable that may have fractions is part
    of the objective, or all values are 0.

    Each expression has a step: that of a marked variable is 1, that of numbers their greatest common divisor, that of
    a sum the greatest common divisor of what is added, each coefficient times a step; the entries of `max`, `abs` and
    the like are entries or sums of entries of their arguments.
    """
    accepted = Accepted(script.encode())
    problem = accepted.problem
    (line,) = parse_settings(settings.encode())
    values = Values(problem, None, laid_over(accepted.last, line))
    steps: list[Optional[Fraction]] = []
    for number, node in enumerate(problem.nodes):
        steps.append(_step(problem, number, node, values, steps))
    return steps[problem.objective] or None


def _step(problem, number, node, values, steps) -> Optional[Fraction]:
    """The step of a node, 0 where all entries are 0, None where there is none."""
    if not problem.has_variable[number]:
        return _divisor(values.found[number])
    if node.call[0] == "variable":
        return Fraction(1) if node.call[3] else None
    below = [steps[a] for a in node.args]
    if None in below:
        return None
    if node.call[0] in calls.PAIRING:
        left, right = node.args
        if node.call[0] == "over":
            return _divisor([below[0] / values.found[right][r] for pairs in listed(problem, node) for _, r in pairs])
        return below[0] * below[1]
    if node.call[0] in calls.LINEAR:
        return _divisor([k * below[a] for terms in listed(problem, node) for a, _, k in terms])
    return _divisor(below)


def _divisor(values: Iterable) -> Fraction:
    """The greatest number that each of these is a whole multiple of; 0 where all are 0."""
    values = [Fraction(v) for v in values]
    multiple = lcm(*(v.denominator for v in values))
    return Fraction(gcd(*(int(v * multiple) for v in values)), multiple)


def beyond(goal: Fraction, step: Optional[Fraction]) -> Fraction:
    """What each value above the goal is at least: the goal, or the first multiple of the step that is above it."""
    return goal if step is None else step * (floor(goal / step) + 1)
