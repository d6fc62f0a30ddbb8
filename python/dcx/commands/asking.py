"""What `table` and `view` share: the files of a script and its settings, and the report of the program's run over them.
"""
from __future__ import annotations

import argparse
import sys
import time
from dataclasses import replace
from typing import Sequence

from ..exact.settings import MOST_SETTINGS
from ..program import run as run_program
from ..reports import Report, read_report
from ..sources import read_settings
from . import whole

USAGE, READ_FAULT, MEMORY, STOPPED, NOT_FOUND = 2, 3, 5, 6, 70
SECONDS = 0.3  # how long a part of the settings takes, where that can be chosen


class Ended(Exception):
    """The command ends with this status; why stands on standard error."""

    def __init__(self, status: int):
        super().__init__(status)
        self.status = status


def add_files(parser: argparse.ArgumentParser) -> None:
    """The files, and the program's options."""
    parser.add_argument("script", metavar="SCRIPT", help="a script of the program's language")
    parser.add_argument("settings", nargs="?", metavar="SETTINGS", help="a file with a setting of parameters a line")
    parser.add_argument("--warm", action="store_true", help="begin each setting at the answer before it")
    parser.add_argument("--max-pivots", metavar="N", type=whole(1, 10**9), help="how many pivots a solve may take")


def handed_over(arguments: argparse.Namespace) -> tuple[list[bytes], list[str]]:
    """The contents of the files, and the program's options. Raises `Ended` where a file can't be read, or an option
    doesn't fit."""
    if arguments.warm and arguments.settings is None:
        print("dcx: --warm goes with a file of settings", file=sys.stderr)
        raise Ended(USAGE)
    files = []
    for name in filter(None, (arguments.script, arguments.settings)):
        try:
            with open(name, "rb") as file:
                files.append(file.read())
        except OSError as error:
            print(f"dcx: {name} can't be read: {error.strerror}", file=sys.stderr)
            raise Ended(READ_FAULT) from None
    options = ["--warm"] * arguments.warm
    if arguments.max_pivots is not None:
        options.append(f"--max-pivots={arguments.max_pivots}")
    return files, options


def asked(files: Sequence[bytes], options: Sequence[str], is_shown: bool) -> tuple[Report, int]:
    """The report of the files and the program's status; how far it is goes to standard error, where that is shown.

    A setting is answered as if no other one were asked, so settings may be handed over in parts, each of which has its
    own report. Where each begins at the answer before it, they are handed over together.
    """
    if len(files) == 1:
        done = run_program("solve", *files, options=options)
        return read_report(done.report), done.status
    settings = read_settings(files[1]) if is_shown and "--warm" not in options else None
    if settings is None or not 2 <= len(settings) <= MOST_SETTINGS:
        done = run_program("resolve", *files, options=options)
        return read_report(done.report), done.status
    return in_parts(files[0], [setting.text for setting in settings], options)


def in_parts(script: bytes, settings: Sequence[str], options: Sequence[str]) -> tuple[Report, int]:
    """The report of settings that are handed over in parts, told on standard error."""
    reports, statuses, done, count = [], [], 0, 1
    try:
        while done < len(settings):
            show(f"setting {done + 1} of {len(settings)}")
            part = settings[done : done + count]
            began = time.monotonic()
            run = run_program("resolve", script, "".join(f"{text}\n" for text in part), options=options)
            report = read_report(run.report)
            if report.kind != "solved":
                return report, run.status
            reports.append(report)
            statuses.append(run.status)
            done += len(part)
            count = max(1, min(100, int(len(part) * SECONDS / max(time.monotonic() - began, 0.001))))
    finally:
        show("")
    return together(reports), MEMORY if MEMORY in statuses else STOPPED if STOPPED in statuses else 0


def together(reports: Sequence[Report]) -> Report:
    """One report of those of parts, its settings numbered through."""
    answers = [answer for report in reports for answer in report.answers]
    numbered = tuple(replace(answer, index=index) for index, answer in enumerate(answers, 1))
    answered = sum(report.answered for report in reports)
    return Report("solved", answers=numbered, answered=answered, stopped=len(answers) - answered)


def show(text: str) -> None:
    """Shows how far it is, in place of what was shown before."""
    sys.stderr.write(f"\r\x1b[K{text}")
    sys.stderr.flush()
