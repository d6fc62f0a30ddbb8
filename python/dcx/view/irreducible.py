"""Multipliers of the constraints in the way alone. The program tells which these are; multipliers that show it are
found here, by the second reading, and stand for nothing until the program's word `certify` has taken them."""
from __future__ import annotations

from dataclasses import replace
from fractions import Fraction
from typing import Optional

from .. import program
from ..exact.certificates import Section, written
from ..exact.faults import Stopped
from ..exact.filtering import Filter
from ..exact.limits import NONE
from ..exact.session import Session
from ..exact.verify import Wrong
from ..reports import Answer, read_report
from ..sources import Sources
from ..values import Entries

MOST_ROWS = 120  # of the constraints, above which it would take too long in Python
MOST_PIVOTS = 2_000


def shown(
    script: bytes, sources: Sources, line: str, values: dict[str, Entries], answer: Answer, members: tuple[int, ...]
) -> Optional[Answer]:
    """The answer with the multipliers and the gap of these constraints alone, as `certify` takes them; None where there
    are none of 128 bits, or they would take too long.

    `line` is the setting with its end, and `values` what it gives the parameters.
    """
    problem = sources.problem
    kept = [number - 1 for number in members]
    count = sum(len(answer.duals[number].entries) for number in members if number in answer.duals)
    if not members or count > MOST_ROWS or any(number not in answer.duals for number in members):
        return None
    try:
        step = Filter(Session(problem, limits=NONE), values, MOST_PIVOTS)
        reading = step.solved(0, kept)
    except (Stopped, Wrong):
        return None
    if reading.end.kind != "infeasible":
        return None
    section = Section("infeasible")
    section.params = [values[name].entries for name, _ in problem.parameters]
    section.number = reading.number
    section.duals = step.spread(kept, reading.exact_multiplier)
    section.weights = step.session.weights(reading)
    text = written(problem, "2", [section])
    if read_report(program.run("certify", script, line, text).report).certified != 1:
        return None
    duals = {
        number: Entries(dual.shape, tuple(map(Fraction, section.duals[number - 1])))
        for number, dual in answer.duals.items()
    }
    return replace(answer, gap=Fraction(section.number), duals=duals)
