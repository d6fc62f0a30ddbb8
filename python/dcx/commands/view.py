"""`python3 -m dcx view SCRIPT [SETTINGS]`: answers a script of the program's language, and writes a page that shows it.
"""
from __future__ import annotations

import argparse
import os
import sys
import webbrowser
from pathlib import Path

from ..messages import status as status_message
from ..program import ProgramError
from ..view import found, page
from . import put, whole
from .asking import NOT_FOUND, Ended, add_files, asked, handed_over

WRITE_FAULT = 4


def add_arguments(parser: argparse.ArgumentParser) -> None:
    """The files, how they are answered, and where the page goes."""
    add_files(parser)
    parser.add_argument("-o", "--output", metavar="FILE", help="the page; beside the script, with .html, without it")
    parser.add_argument("--range", metavar="P", dest="parameter", help="also the value over the parameter P")
    chosen = "whose answer stands in the script; 1 without it"
    parser.add_argument("--setting", metavar="N", type=whole(1, 1000), default=1, help=chosen)
    parser.add_argument("--sort", choices=["multiplier"], help="the constraints' table: the greatest multipliers first")
    parser.add_argument("--open", action="store_true", help="open the page in a browser")


def run(arguments: argparse.Namespace) -> int:
    """Writes the page, tells its name, and ends with the program's own status."""
    try:
        files, options = handed_over(arguments)
    except Ended as ended:
        return ended.status
    names = (arguments.script, arguments.settings or "")
    try:
        answered = asked(files, options, is_shown=sys.stderr.isatty())
        settings = files[1] if len(files) > 1 else None
        shown = found(files[0], settings, names, options, arguments.parameter, arguments.setting, answered)
    except ProgramError as error:
        print(f"dcx: {error}", file=sys.stderr)
        return NOT_FOUND
    report, status = answered
    if report.kind not in ("solved", "refused"):
        print(f"dcx: {report.text.rstrip()}\n{' '.join(status_message(status))}", file=sys.stderr)
        return status
    text = page(shown, arguments.parameter, arguments.setting, arguments.sort == "multiplier")
    output = arguments.output or os.path.splitext(arguments.script)[0] + ".html"
    try:
        with open(output, "w", encoding="utf-8", newline="\n") as file:
            file.write(text)
    except OSError as error:
        print(f"dcx: {output} can't be written: {error.strerror}", file=sys.stderr)
        return WRITE_FAULT
    put(f"{output}\n")
    if arguments.open:
        webbrowser.open(Path(output).resolve().as_uri())
    return status
