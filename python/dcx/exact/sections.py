"""The sections of a certificate that the exact solver finds, one setting after the other, with numbers of any size."""
from __future__ import annotations

from fractions import Fraction
from typing import Optional

from .certificates import Section
from .checks import Fault, check
from .faults import Stopped
from .numbers import OF_LANGUAGE, number
from .reduce import ZeroDivisor, stopped
from .session import Session
from .solver import solved


class Finder:
    """Finds the section of a setting, from the basis of the one before it. The session has no limits."""

    def __init__(self, session: Session, use_floats: bool = True):
        self.session, self.problem, self.use_floats = session, session.problem, use_floats
        self.basis = None

    def section(self, setting: dict) -> Section:
        """The section of a setting; raises Stopped where the setting doesn't fit."""
        session, problem = self.session, self.problem
        session.fit(setting)
        try:
            program = session.program(setting)
        except ZeroDivisor as fault:
            raise stopped(problem, fault) from None
        found = solved(program, self.use_floats, self.basis)
        self.basis = found.basis
        section = Section(found.kind)
        section.params = [setting[name].entries for name, _ in problem.parameters]
        section.number, section.slope = found.number, found.slope
        if found.point is not None:
            section.point = session.arrays(found.point)
        if found.ray is not None:
            section.ray = session.arrays(found.ray)
        if found.multipliers is not None:
            section.duals = session.spread(found.multipliers.__getitem__)
            for row, multiplier in zip(program.rows, found.multipliers):
                if row.origin[0] == "node" and problem.has_variable[row.origin[1]]:
                    section.weights.setdefault(row.origin[1], []).append(multiplier)
        return section

    def ends(self, settings: list[dict]) -> list:
        """The section of each setting, or the Stopped that it stops with."""
        result = []
        for setting in settings:
            try:
                result.append(self.section(setting))
            except Stopped as stop:
                result.append(stop)
        return result


def sections_to_show(problem, settings: list[dict], ends: list) -> list[Section]:
    """The sections, with one that shows nothing in the place of each that the program can't say yes to."""
    result = []
    for setting, end in zip(settings, ends):
        is_shown = isinstance(end, Section) and end.kind != "none" and wide(problem, setting, end) is None
        result.append(end if is_shown else Section("none"))
    return result


def wide(problem, setting: dict, section: Section) -> Optional[str]:
    """What first passes 128 bits in a section that is right, or in its checks; None where nothing does."""
    for value in _numbers(section):
        if not OF_LANGUAGE.has(Fraction(value)):
            return f"number {number(value)}"
    try:
        check(problem, setting, section)
    except Fault as fault:
        if fault.name != "Wide":
            raise
        return fault.text().partition(" ")[2]
    return None


def _numbers(section):
    """All numbers of a section."""
    yield section.number
    if section.slope is not None:
        yield section.slope
    for arrays in (section.point, section.ray, section.duals, section.weights.values()):
        for entries in arrays or ():
            yield from entries
