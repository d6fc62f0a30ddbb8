"""The second reading as a command.

    python3 -m dcx.exact WORDS..           runs the words of dcx over files, with the report and the status that dcx
                                           has; `--no-limits` in front of them lets numbers and programs be as large
                                           as they get
    python3 -m dcx.exact --cases FILE..    runs files of worked cases, tells each one that differs, and last how many
                                           there were; of a folder with an `index.txt` it runs the files that this lists
"""
from __future__ import annotations

import os
import sys

from .cases import run_file
from .commands import ReadFault, run
from .limits import NONE, OF_PROGRAM

# Brackets in brackets, as deep as the language has them, and long chains behind them.
MOST_CALLS = 10_000


def fetch(name: str) -> bytes:
    """The bytes of a file; ReadFault where it can't be read."""
    try:
        with open(name, "rb") as file:
            return file.read()
    except OSError:
        raise ReadFault from None


def listed(path: str) -> list[str]:
    """The files that a path stands for."""
    if not os.path.isdir(path):
        return [path]
    with open(os.path.join(path, "index.txt"), encoding="utf-8") as index:
        return [os.path.join(path, name) for name in index.read().split()]


def run_cases(paths: list[str]) -> int:
    counts = [run_file(file) for path in paths for file in listed(path)]
    count, met = sum(c for c, _ in counts), sum(m for _, m in counts)
    print(f"{count} cases, {count - met} differ")
    return 0 if count == met else 1


def main(words: list[str]) -> int:
    sys.setrecursionlimit(MOST_CALLS)
    if not words or words[0] in ("-h", "--help"):
        sys.stdout.write(__doc__)
        return 0 if words else 2
    if words[0] == "--cases":
        return run_cases(words[1:])
    limits = OF_PROGRAM
    if words[0] == "--no-limits":
        words, limits = words[1:], NONE
    status, text = run(words, fetch, limits)
    sys.stdout.write(text)
    return status


if __name__ == "__main__":
    sys.exit(main(sys.argv[1:]))
