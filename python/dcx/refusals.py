"""Refusals and stops of the program as errors that are told at the user's own line."""

from __future__ import annotations

import re
from typing import Any, Optional

from . import messages
from .errors import DCPError, DCXError, LimitError, SolverError, UnsupportedError
from .lines import Refusal, Stop
from .program import Run
from .reports import Report, read_report
from .scripts import Script

__all__ = ["no_answer", "read", "refused", "stopped", "taken"]

# the refusals that tell a limit, and those of a word that doesn't take the problem
_LIMITS = (8, 18, 20)
_WHOLE, _RANGE, _RULES = 34, 35, 19
_WIDE = 26
_LONG = re.compile(r"\d[\d.]{13}")  # a number with more digits than data have
_ROUND = (
    " Sums and products of floats have errors in their last digits: dcx.float_digits(decimals=12), or `python3 -m dcx "
    "run --decimals 12`, reads each float to twelve decimals."
)


def read(run: Run, script: Script) -> Report:
    """The report of a run over this script.

    Raises `DCPError` where the rules refuse the problem, `LimitError` where it passes a limit of the language,
    `UnsupportedError` where the word isn't for such a problem, and `SolverError` where there is no answer for want of
    memory.
    """
    return taken(read_report(run.report), script)


def taken(report: Report, script: Script) -> Report:
    """The report itself, where it has answers; else it raises as `read` does."""
    if report.refusal is not None:
        raise refused(report.refusal, script)
    if report.kind in ("usage", "fault", "memory"):
        raise no_answer(report)
    return report


def no_answer(report: Report) -> SolverError:
    """What is told where the program has no answer at all."""
    if report.kind == "memory":
        return SolverError(
            "the program has no answer for want of memory; the variable DCX_MEMORY of the environment says how many "
            "MiB it may use, 4096 by itself"
        )
    return SolverError(f"the program has no answer: {report.text.strip()}")


def refused(refusal: Refusal, script: Script) -> DCXError:
    """The error of a refusal, at the line of the user's file that made what stands at its place."""
    message = messages.refusal(refusal)
    if refusal.of != "script":
        return DCXError(f"the program refused the {refusal.of} that it was handed: {refusal.text}. {message.sentence}")
    found = script.at(refusal.line, refusal.column)
    site = getattr(found, "site", None)
    if refusal.number == _RULES:
        reason = f"Problem does not follow DCP rules{_shown(found)}. {message.sentence} {message.advice}"
        return DCPError(reason, site)
    reason = f"{message.sentence} {message.advice}"
    if refusal.number in _LIMITS:
        return LimitError(reason, site)
    if refusal.number in (_WHOLE, _RANGE):
        return UnsupportedError(reason, site)
    return DCXError(f"the program doesn't take the script that was written for it: {refusal.text}. {reason}", site)


def stopped(stop: Stop, script: Script) -> SolverError:
    """The error of a stop, with its number, its name and its numbers, at the line of the user's file that it is
    about, if there is one."""
    message = messages.stop(stop)
    found = _about(stop, script)
    reason = f"{stop.number} {stop.name}{_shown(found)}: {message.sentence} {message.advice}"
    inner = stop.detail.stop or stop
    if inner.detail.place is not None:
        reason += " Places are those of problem.script()."
    if inner.number == _WIDE and _LONG.search(script.text):
        reason += _ROUND
    if stop.number == 28:
        largest = max(script.constraints.values(), key=lambda constraint: constraint.size, default=None)
        if largest is not None:
            reason += f" The largest constraint, of {largest.size:,} rows, is the one that is shown."
            found = largest
    return SolverError(reason, getattr(found, "site", None), stop)


def _about(stop: Stop, script: Script) -> Any:
    """The expression or the constraint that a stop is about, None where it is about none alone."""
    detail = (stop.detail.stop or stop).detail
    if detail.place is not None:
        return script.at(*detail.place)
    if detail.row is not None and detail.where in ("row", "map", "answer") and stop.number != 37:
        return _of_row(detail.row, script)  # the rows of a step are others
    return None


def _of_row(row: int, script: Script) -> Optional[Any]:
    """The constraint that a row of the reduced program is an entry of: rows count through the constraints' entries
    first."""
    for constraint in script.constraints.values():
        if row < constraint.size:
            return constraint
        row -= constraint.size
    return None


def _shown(found: Any) -> str:
    """Where something is told, in the user's words."""
    return "" if found is None else f" at `{found}`"

