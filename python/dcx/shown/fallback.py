"""The answer where the program stops: the exact solver is asked, and the program checks what it says."""
from __future__ import annotations

import re
import time
from dataclasses import replace
from fractions import Fraction
from typing import Any, NamedTuple, Optional

from ..certificates import certified
from ..errors import SolverError
from ..lines import Stop
from ..reports import Answer, Entries, Section, read_report
from ..statuses import OPTIMAL_INACCURATE
from . import CERTIFICATE, INTERVAL, PYTHON, asking
from .intervals import End, Interval

__all__ = ["Shown", "Wishes", "helps", "shown"]

_LONG = re.compile(r"\d{40,}")


class Wishes(NamedTuple):
    """What the user says of the exact solver: whether it is asked, whether its word is enough (`trust="python"`), the
    box of an interval, and how many seconds it is given."""

    exact: bool = True
    trust: Optional[str] = None
    box: Optional[Fraction] = None
    seconds: Optional[float] = None


class Shown(NamedTuple):
    """An answer, and on what it stands: one of the words of `dcx.shown`. `certificate` is the text that the program
    accepted, `interval` what is shown of the best value, None where there is none."""

    answer: Answer
    by: str
    certificate: Optional[str] = None
    interval: Optional[Interval] = None
    seconds: float = 0.0


def seconds_of(wishes: Wishes) -> float:
    """How long the exact solver may take."""
    return asking.SECONDS if wishes.seconds is None else wishes.seconds


def helps(stop: Optional[Stop], is_limited: bool) -> bool:
    """Whether the exact solver is asked behind a stop: one for numbers of the program's own, for its own limit of
    pivots, or for the size of what is solved."""
    if stop is None:
        return False
    if stop.number == 26:
        return stop.detail.where in ("pivot", "row", "map", "answer")
    return stop.number == 28 or (stop.number == 27 and not is_limited)


def shown(script: str, settings: str, maximized: bool, wishes: Wishes) -> Shown:
    """The answer to a script at its one line of settings.

    Raises `SolverError` where there is none, also where none can be shown, and `CertificateError`, with the line of
    the fault, where the program refuses what the exact solver says.
    """
    start = time.perf_counter()
    trusted = wishes.trust == "python"
    reply = asking.asked("answered", script, settings, wishes.box, not trusted, seconds=wishes.seconds)
    found = replace(reply["answer"], word="setting")
    if found.stop is not None:
        raise SolverError(f"the exact solver stops as well: {found.stop.text}", stop=found.stop)
    if reply["certificate"] is not None:
        text = reply["certificate"]
        certified(script, settings, text)
        (section,) = read_report(text).sections
        return Shown(_answer(section, maximized), CERTIFICATE, text, seconds=time.perf_counter() - start)
    if trusted:
        return Shown(found, PYTHON, seconds=time.perf_counter() - start)
    made = reply["made"]
    interval = None if made is None else checked(made, settings, maximized)
    told = (
        f"the exact solver finds the problem {found.status}, but the numbers that show it pass 128 bits "
        f"({_shortened(found.wide)}), so that the program can't check them"
    )
    if interval is None:
        raise SolverError(f'{told}; trust="python" takes the answer at Python\'s word')
    if interval.point is None:
        raise SolverError(f"{told}. {_without(made, interval)}")
    if not interval.is_narrow:
        why = f" ({made.why})" if made.why else ""
        reason = f"{told}. The interval that is shown is too wide for an answer: {interval}{why}. "
        raise SolverError(f'{reason}trust="python" takes the exact answer at Python\'s word')
    answer = _near(made, found)
    return Shown(answer, INTERVAL, interval=interval, seconds=time.perf_counter() - start)


def _shortened(text: str) -> str:
    """The text with the first digits of numbers that have more than 128 bits hold."""
    return _LONG.sub(lambda digits: f"{digits[0][:6]}.. of {len(digits[0])} digits", text)


def checked(made: Any, settings: str, maximized: bool) -> Interval:
    """The interval whose ends the program accepts. Raises `CertificateError` where it refuses one."""
    ends = [None if pair is None else End(pair[0], settings, pair[1]) for pair in (made.upper, made.lower)]
    for end in ends:
        if end is not None:
            end.check()
    low, high = (made.value, made.bound) if maximized else (made.bound, made.value)
    return Interval(low, high, *ends, made.box, made.boxed)


def _without(made: Any, interval: Interval) -> str:
    """What is told where no point is shown."""
    residues = ", ".join(
        f"{f'constraint {key}' if isinstance(key, int) else f'the sign or form of {key}'} by {float(residue):.3g}"
        for key, residue in made.residues.items()
    )
    told = f"A point of few digits near to it isn't feasible: it breaks {residues}. " if residues else f"{made.why}. "
    bound = "" if interval.bound is None else f"That nothing is better than {float(made.bound):.12g} is shown. "
    return f'{told}{bound}trust="python" takes the exact answer at Python\'s word'


def _answer(section: Section, maximized: bool) -> Answer:
    """The answer that a section of a certificate is; its numbers are those of the script's own objective."""
    side = -1 if maximized else 1
    value, bound = (None if v is None else side * v for v in (section.value, section.bound))
    return Answer(
        "setting", 1, section.status, value=value, gap=section.gap, bound=bound, slope=section.slope,
        variables=section.variables, ray=section.ray, duals=section.duals,
    )


def _near(made: Any, found: Answer) -> Answer:
    """The answer of an interval: the point of few digits, its value, and the multipliers of the bound."""
    variables = {
        name: Entries(array.shape, tuple(map(Fraction, entries)))
        for (name, array), entries in zip(found.variables.items(), made.point)
    }
    duals = {
        number: Entries(array.shape, tuple(entries))
        for (number, array), entries in zip(found.duals.items(), made.duals or ())
    }
    return Answer("setting", 1, OPTIMAL_INACCURATE, value=made.value, variables=variables, duals=duals)
