"""Answers to a script at its settings from the exact solver, without limits, and the certificate of them that the
program checks.
"""
from __future__ import annotations

from dataclasses import dataclass
from fractions import Fraction
from typing import Optional

from ..errors import DCXError, LimitError, UnsupportedError
from ..lines import Refusal, read_refusal, read_stop
from ..reports import Answer, Entries
from .branching import marked
from .certificates import Section, written
from .checks import Fault, check
from .commands import Accepted, laid_over
from .faults import Refused, Stopped
from .limits import NONE
from .numbers import EXACT
from .sections import Finder, wide
from .session import Session
from .settings import parse_settings


class RefusedError(DCXError):
    """A script or a settings file that the language hasn't; `refusal` says why and where."""

    def __init__(self, refusal: Refusal):
        super().__init__(
            f"{refusal.text}; the exact solver reads the program's language, which docs/LANGUAGE.md describes"
        )
        self.refusal = refusal


class WrongError(DCXError):
    """The exact solver found something that its own checks refuse; `fault` is the fault that docs/CERTIFICATES.md
    names.
    """

    def __init__(self, index: int, fault: str):
        super().__init__(f"the exact solver's answer to setting {index} is wrong, as its check found: {fault}")
        self.index, self.fault = index, fault


@dataclass(frozen=True)
class ExactAnswer(Answer):
    """An answer as it stands in a report, of numbers of any size. `status` is `optimal`, `infeasible`, `unbounded` or
    `stopped`.

    `checked` says that it passed the checks of a certificate in Python's numbers. `wide` is None where a certificate
    can show it; where numbers of the answer or of its checks pass 128 bits, so that the program can't say yes, it is
    the first such number (`number ..`) or operation (`mul .. ..`).
    """

    checked: bool = False
    wide: Optional[str] = None


class Solved:
    """The answers to a script at its settings, one for each, in order."""

    def __init__(self, problem, sections: list[Section], answers: list[ExactAnswer]):
        self.answers = answers
        self._problem, self._sections = problem, sections

    def certificate(self) -> bytes:
        """A certificate of the answers, in format 2. The section of a setting that stopped, or whose numbers pass 128
        bits, shows nothing.
        """
        shown = [Section("none") if a.wide is not None else section for a, section in zip(self.answers, self._sections)]
        return written(self._problem, "2", shown).encode()


def answer(script: bytes, settings: Optional[bytes] = None, *, use_floats: bool = True) -> list[ExactAnswer]:
    """The exact answers to a script at each setting of a settings file, or at its own solves where there is none.

    With `use_floats` a basis is sought in floating-point numbers first, and nothing rests on what is found. Raises
    RefusedError where the language hasn't the script or the file, UnsupportedError where the problem is one in whole
    numbers, WrongError where an answer fails its own checks, which would be an error of the solver.
    """
    return solve(script, settings, use_floats=use_floats).answers


def certificate(script: bytes, settings: bytes, *, use_floats: bool = True) -> bytes:
    """The certificate of the answers at all settings of the file, for the program's word `certify`. Raises as `answer`
    does.
    """
    return solve(script, settings, use_floats=use_floats).certificate()


def solve(script: bytes, settings: Optional[bytes] = None, *, use_floats: bool = True) -> Solved:
    """Answers and certificate at once. Raises as `answer` does."""
    accepted, listed = _read(script, settings)
    problem = accepted.problem
    whole = marked(problem)
    if whole:
        name = problem.variables[whole[0][0]][0]
        raise UnsupportedError(
            f"the exact solver answers no problem in whole numbers (variable {name}): there is no certificate of one"
        )
    finder, word = Finder(Session(problem, limits=NONE), use_floats), "solve" if settings is None else "setting"
    sections, answers = [], []
    for index, setting in enumerate(listed, 1):
        try:
            section = finder.section(setting)
        except Stopped as stop:
            sections.append(Section("none"))
            answers.append(ExactAnswer(word, index, "stopped", stop=read_stop(stop.text().split(" ")[1:])))
            continue
        _show(problem, setting, index, section)
        sections.append(section)
        answers.append(_answer(problem, word, index, section, wide(problem, setting, section)))
    return Solved(problem, sections, answers)


def _read(script, settings):
    """The problem of a script and its settings."""
    of = "script"
    try:
        accepted = Accepted(script)
        if settings is None:
            return accepted, accepted.events
        of = "settings"
        return accepted, [laid_over(accepted.last, line) for line in parse_settings(settings)]
    except Refused as refused:
        raise RefusedError(read_refusal(refused.text(of).rstrip("\n"))) from None
    except RecursionError:
        raise LimitError(
            "the script nests deeper than Python's stack allows; sys.setrecursionlimit raises it"
        ) from None


def _show(problem, setting, index, section):
    """Raises WrongError where an answer doesn't pass its checks, in numbers of any size."""
    try:
        check(problem, setting, section, EXACT)
    except Fault as fault:
        raise WrongError(index, fault.text()) from None


def _answer(problem, word, index, section, wide):
    """The answer of a section, with the numbers of the user's objective."""
    side = -1 if problem.sense == "maximize" else 1
    numbers = {"optimal": {"value": side * section.number}, "infeasible": {"gap": section.number}}.get(section.kind)
    if numbers is None:
        numbers = {"bound": side * section.number, "slope": section.slope}
    variables, ray = (_arrays(problem, arrays) for arrays in (section.point, section.ray))
    duals = {}
    for i, (constraint, entries) in enumerate(zip(problem.constraints, section.duals or ()), 1):
        duals[i] = Entries(constraint.shape, tuple(Fraction(v) for v in entries))
    return ExactAnswer(
        word, index, section.kind, **numbers, variables=variables, ray=ray, duals=duals, checked=True, wide=wide
    )


def _arrays(problem, arrays):
    """Entries by the names of variables."""
    if arrays is None:
        return {}
    return {
        name: Entries(problem.nodes[n].shape, tuple(Fraction(v) for v in entries))
        for (name, n), entries in zip(problem.variables, arrays)
    }
