"""`python3 -m dcx whole-check FOLDER`: checks the evidence of an answer in whole numbers."""
from __future__ import annotations

import argparse
import sys

from ..program import ProgramError
from . import put

WRONG, READ_FAULT, NOT_FOUND = 7, 3, 70


def add_arguments(parser: argparse.ArgumentParser) -> None:
    """The folder."""
    parser.add_argument("folder", metavar="FOLDER", help="a folder that `problem.evidence.write(FOLDER)` wrote")


def run(arguments: argparse.Namespace) -> int:
    """Says what the evidence shows. The status is 7 where it shows nothing, 3 where a file can't be read, else 0."""
    from ..whole.checking import EvidenceError, checked

    try:
        shown = checked(arguments.folder)
    except EvidenceError as error:
        put(f"refused: {error}\n")
        return WRONG
    except ProgramError as error:
        print(f"dcx: {error}", file=sys.stderr)
        return NOT_FOUND
    except OSError as error:
        print(f"dcx: {error.filename} can't be read: {error.strerror}", file=sys.stderr)
        return READ_FAULT
    lines = [f"{shown.leaves:,} boxes have all whole points, and the program accepts what is said of each"]
    if shown.step is not None:
        lines.append(f"values are multiples of {shown.step}: none lies between the goal of the boxes and the value")
    if shown.status == "infeasible":
        lines.append("shown: infeasible, no whole point keeps the constraints of model.py")
    else:
        lines.append(f"shown: optimal, value {shown.value}, at the whole point")
    put("".join(f"{line}\n" for line in lines) + shown.point)
    return 0
