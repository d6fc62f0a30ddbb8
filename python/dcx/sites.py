"""Where in the user's own files an expression or a constraint was made."""
from __future__ import annotations

import linecache
import os
import sys
from typing import NamedTuple

_PACKAGE = os.path.dirname(os.path.abspath(__file__)) + os.sep
_INNER = ("<frozen", "<__array_function__")
_FOREIGN = tuple(os.sep + name + os.sep for name in ("numpy", "scipy", "pandas"))


class Site(NamedTuple):
    """A line of a file, counted from 1."""

    file: str
    line: int

    @property
    def text(self) -> str:
        """The line itself without the blanks around it; empty where the file can't be read."""
        return linecache.getline(self.file, self.line).strip()

    def __str__(self) -> str:
        return f"{self.file}:{self.line}"


# whether a frame of this file belongs to the package, or to a library that only passes a call on
_passed: dict = {}


def _is_passed(file: str) -> bool:
    path = os.path.abspath(file)
    return path.startswith(_PACKAGE) or file.startswith(_INNER) or any(part in path for part in _FOREIGN)


def here() -> Site:
    """The line that the caller's caller, or whoever called it, stands at: the innermost one outside of the package."""
    frame = sys._getframe(1)
    while frame is not None:
        file = frame.f_code.co_filename
        passed = _passed.get(file)
        if passed is None:
            passed = _passed[file] = _is_passed(file)
        if not passed:
            return Site(file, frame.f_lineno)
        frame = frame.f_back
    return Site("<unknown>", 0)
