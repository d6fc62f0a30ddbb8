"""What `json` and `csv` share: a report that is read from a file or from standard input."""
from __future__ import annotations

import argparse
import sys
from typing import Callable

from ..reports import Report, ReportError, read_report
from . import put


def add_arguments(parser: argparse.ArgumentParser) -> None:
    """A report's file, which may be left out."""
    parser.add_argument("report", nargs="?", default="-", metavar="REPORT", help="a file; standard input without it")


def rewritten(arguments: argparse.Namespace, form: Callable[[Report], str]) -> int:
    """Writes the report in another form. The status is 1 where it is none, 3 where it can't be read, else 0. Raises as
    `put` does."""
    name = "standard input" if arguments.report == "-" else arguments.report
    try:
        if arguments.report == "-":
            data = sys.stdin.buffer.read()
        else:
            with open(arguments.report, "rb") as file:
                data = file.read()
    except OSError as error:
        print(f"dcx: {name} can't be read: {error.strerror}", file=sys.stderr)
        return 3
    try:
        text = form(read_report(data))
    except ReportError as error:
        print(f"dcx: {name} is {error}", file=sys.stderr)
        return 1
    put(text)
    return 0
