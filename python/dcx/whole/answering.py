"""The answer of a problem in whole numbers where the program's own branch and bound has none in time."""
from __future__ import annotations

import time
from dataclasses import replace
from typing import Callable, NamedTuple, Optional

from .. import program
from ..errors import SolverError
from ..exact.faults import Refused
from ..lines import Stop
from ..reports import Answer, read_report
from ..statuses import USER_LIMIT
from . import EVIDENCE, POINT
from .boxes import Unfit
from .checking import EvidenceError
from .evidence import Evidence, evidence, point_of
from .rows import Rows, rows_of
from .search import Over, Progress, Search, Unbounded
from .steps import step_of

__all__ = ["FIRST", "SECONDS", "Shown", "helps", "shown"]

FIRST = 5.0  # seconds that the program has for its own branch and bound
SECONDS = 600.0  # that a search has, where no limit is given
_STOPS = (26, 27, 28, 32, 33)
_WHY = {
    "time": "its time passed",
    "nodes": "as many boxes were solved as max_nodes lets it",
    "interrupted": "it was interrupted",
    "numbers": "a box has no answer that can be shown",
}


class Shown(NamedTuple):
    """An answer, on what it stands, the evidence where it is complete, and how far the search came. `why` says why it
    isn't complete: `time`, `nodes`, `interrupted` or `numbers`."""

    answer: Answer
    by: str
    progress: Progress
    evidence: Optional[Evidence] = None
    why: Optional[str] = None
    certificate: None = None
    interval: None = None
    seconds: float = 0.0


def helps(stop: Optional[Stop], is_limited: bool) -> bool:
    """Whether there is a search behind a stop of the program: one of its limits, and not one that the user set."""
    return stop is not None and stop.number in _STOPS and not (is_limited and stop.number in (27, 33))


def shown(
    script: str,
    settings: str,
    seconds: Optional[float] = None,
    most: Optional[int] = None,
    told: Optional[Callable[[Progress], object]] = None,
) -> Shown:
    """The answer to a script at its line of settings, with evidence that the program and the checker accept.

    Where `seconds` or `most` boxes are passed, or Python is interrupted, it is the best point so far, which the program
    finds feasible, with the status `user_limit`. Raises `SolverError` where there is none, where the relaxation is
    unbounded, or where the evidence isn't accepted.
    """
    begun = time.monotonic()
    try:
        rows = rows_of(script, settings)
    except Unfit as error:
        raise SolverError(f"there is no search for whole numbers in this script: {error}") from None
    except Refused as refused:
        why = refused.text("script").strip()
        raise SolverError(f"with parameters for bounds the script passes what the language holds: {why}") from None
    search = Search(rows, step_of(script, settings), seconds, most, told)
    try:
        search.run()
        found = evidence(search, script, settings)
        checked = found.check()
    except Unbounded:
        raise SolverError(
            "without its marks the problem is unbounded, so that nothing is told of its whole points; bounds of its "
            "variables help"
        ) from None
    except EvidenceError as error:
        raise SolverError(f"the evidence of the answer isn't accepted: {error}") from None
    except Over as over:
        return _so_far(search, over.reason, begun)
    answer = Answer("setting", 1, checked.status, whole=True, nodes=search.nodes, value=checked.value)
    if checked.status == "optimal":
        answer = _at(answer, found.files["point.cert"], rows)
    return Shown(answer, EVIDENCE, search.progress(), found, seconds=time.monotonic() - begun)


def _so_far(search: Search, reason: str, begun: float) -> Shown:
    """The best point of a search that has no end."""
    progress = search.progress()
    if search.best is None:
        if reason == "interrupted":
            raise KeyboardInterrupt
        bound = "" if progress.bound is None else f"; none has a value better than {progress.bound:.10g}, about"
        raise SolverError(
            f"the search for whole numbers ended without a feasible point after {progress.nodes:,} boxes and "
            f"{progress.seconds:.0f} s, since {_WHY[reason]}{bound}; time_limit and max_nodes give it more"
        )
    line, certificate = point_of(search)
    said = program.run("certify", search.rows.relaxation.text, line, certificate).report.decode().strip()
    if said != "certified 1":
        raise SolverError(f"the best point so far isn't accepted: {said}")
    answer = Answer("setting", 1, USER_LIMIT, whole=True, nodes=search.nodes, value=progress.best)
    answer = _at(answer, certificate, search.rows)
    return Shown(answer, POINT, progress, why=reason, seconds=time.monotonic() - begun)


def _at(answer: Answer, certificate: str, rows: Rows) -> Answer:
    """The answer with the point of a certificate."""
    found = dict(read_report(certificate).sections[0].variables)
    found.pop(rows.relaxation.sums_name, None)
    return replace(answer, variables=found)
