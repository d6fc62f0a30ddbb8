"""The commands of `python3 -m dcx`, a module each, how they read numbers, and how they write."""
from __future__ import annotations

import argparse
import sys
from typing import Callable


class Unwritten(Exception):
    """Standard output can't be written."""


def put(text: str) -> None:
    """Writes the text to standard output; a character that its encoding lacks is written as its number.

    Raises `Unwritten` where that fails, as on a full disk, and `BrokenPipeError` where whoever reads it has closed it.
    """
    encoding = sys.stdout.encoding or "ascii"
    try:
        sys.stdout.write(text.encode(encoding, "backslashreplace").decode(encoding))
        sys.stdout.flush()
    except BrokenPipeError:
        raise
    except OSError as error:
        raise Unwritten(f"standard output can't be written: {error.strerror}") from None


def whole(least: int, most: int) -> Callable[[str], int]:
    """Reads a whole number within these limits from the command line."""

    def read(text: str) -> int:
        if not (text.isascii() and text.isdigit() and len(text) <= 10 and least <= int(text) <= most):
            raise argparse.ArgumentTypeError(f"a whole number from {least} to {most}, and not {text!r}")
        return int(text)

    return read
