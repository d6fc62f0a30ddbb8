"""`python3 -m dcx table SCRIPT [SETTINGS]`: answers a script of the program's language, and shows that as tables."""
from __future__ import annotations

import argparse
import os
import shutil
import sys
from dataclasses import replace

from ..certificates import CertificateError
from ..errors import SolverError
from ..grids import Look
from ..messages import status as status_message
from ..program import ProgramError
from ..reports import Report
from ..shown import PROGRAM
from ..shown.fallback import Wishes
from ..shown.stops import behind
from ..tables import Tables
from . import put, whole
from .asking import NOT_FOUND, STOPPED, Ended, add_files, asked, handed_over

REFUSED = 7


def add_arguments(parser: argparse.ArgumentParser) -> None:
    """The files, and how they are answered and shown."""
    add_files(parser)
    parser.add_argument("--digits", metavar="N", type=whole(1, 40), default=6, help="digits of decimals; 6 without it")
    parser.add_argument("--no-color", action="store_true", help="no colours, also on a terminal")
    parser.add_argument("--json", action="store_true", help="the answers as JSON, and no tables")
    parser.add_argument("--no-exact", action="store_true", help="leave a stop a stop: the exact solver isn't asked")
    parser.add_argument("--trust", choices=["python"], help="take what the exact solver finds, where nothing shows it")
    parser.add_argument("--box", metavar="N", type=whole(1, 10**9), help="the box of an interval; 1000000 without it")
    parser.add_argument("--time-limit", metavar="N", type=whole(1, 10**6), help="seconds of the exact solver; or 120")
    parser.add_argument("--sort", choices=["multiplier"], help="constraints with the greatest multipliers first")


def run(arguments: argparse.Namespace) -> int:
    """Prints the tables, and ends with the program's own status."""
    try:
        files, options = handed_over(arguments)
    except Ended as ended:
        return ended.status
    try:
        report, status = asked(files, options, is_shown=sys.stderr.isatty())
    except ProgramError as error:
        print(f"dcx: {error}", file=sys.stderr)
        return NOT_FOUND
    if report.kind not in ("solved", "refused"):
        print(f"dcx: {report.text.rstrip()}\n{' '.join(status_message(status))}", file=sys.stderr)
        return status
    names = (arguments.script, arguments.settings or "")
    settings = files[1] if len(files) > 1 else None
    tables = Tables(files[0], settings, names, look(arguments), by_multiplier=arguments.sort == "multiplier")
    if report.kind == "solved":
        try:
            report, status = with_others(report, status, tables, files[0], arguments)
        except CertificateError as error:
            print(f"dcx: what the exact solver found is wrong, as the program says: {error}", file=sys.stderr)
            return REFUSED
    put(report.to_json() + "\n" if arguments.json else tables.text(report))
    return status


def with_others(
    report: Report, status: int, tables: Tables, script: bytes, arguments: argparse.Namespace
) -> tuple[Report, int]:
    """The report with what the exact solver finds in the place of stops, and on what each answer stands."""
    wishes = Wishes(not arguments.no_exact, arguments.trust, arguments.box, arguments.time_limit)
    found = []
    for answer in report.answers:
        if answer.stop is None:
            found.append(replace(answer, shown_by=PROGRAM))
            continue
        try:
            found.append(behind(answer, tables, script, wishes, arguments.max_pivots is not None) or answer)
        except SolverError as error:
            print(f"dcx: {answer.word} {answer.index}: {error}", file=sys.stderr)
            found.append(answer)
    stopped = sum(answer.stop is not None for answer in found)
    if stopped < report.stopped:
        status = STOPPED if stopped else 0
    return replace(report, answers=tuple(found), answered=len(found) - stopped, stopped=stopped), status


def look(arguments: argparse.Namespace) -> Look:
    """How the tables look on this output."""
    is_terminal = sys.stdout.isatty()
    width = shutil.get_terminal_size((120, 24)).columns if is_terminal else 120
    is_coloured = is_terminal and not arguments.no_color and "NO_COLOR" not in os.environ
    return Look(arguments.digits, width, is_coloured)
