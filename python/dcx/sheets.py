"""The lines of a script while they are written, and what stands where in them. Lines and columns count from 1, columns
in bytes, as the program counts them."""

from __future__ import annotations

import os
from contextlib import contextmanager
from typing import Any, Iterator, NamedTuple

__all__ = ["Places", "Sheet"]


class Span(NamedTuple):
    """A part of a line, from its first column to the one behind it, and what stands there."""

    first: int
    behind: int
    of: Any

    @property
    def length(self) -> int:
        """How many bytes it has."""
        return self.behind - self.first


class Places:
    """What stands where in a script: at the places by which the program tells of something, and around them."""

    def __init__(self):
        self.marks: dict[tuple[int, int], Any] = {}
        self.spans: dict[int, list[Span]] = {}

    def at(self, line: int, column: int) -> Any:
        """What is told of at a place: what is marked there, else the innermost that stands around it, else what the
        line is about; None where that is nothing."""
        if (line, column) in self.marks:
            return self.marks[line, column]
        spans = self.spans.get(line, [])
        around = [span for span in spans if span.first <= column < span.behind]
        if around:
            return min(around, key=lambda span: span.length).of
        return max(spans, key=lambda span: span.length).of if spans else None


class Sheet:
    """The lines that are written so far, and the one that is being written."""

    def __init__(self):
        self.lines: list[str] = []
        self.places = Places()
        self.column = 1
        self._pieces: list[str] = []

    def put(self, text: str) -> None:
        """Writes on in the line."""
        self._pieces.append(text)
        self.column += len(text) if text.isascii() else len(text.encode())

    def line(self, text: str = "") -> None:
        """Ends the line, with this text."""
        self.lines.append("".join(self._pieces) + text)
        self._pieces.clear()
        self.column = 1

    def end(self, site: Any) -> None:
        """Ends the line, with the file and the line of a site behind it."""
        name = "".join(letter if letter.isprintable() else "?" for letter in os.path.basename(site.file))
        self.line(f"  # {name}:{site.line}")

    def mark(self, of: Any) -> None:
        """Says what the program tells of by the place that is written next."""
        self.places.marks.setdefault((len(self.lines) + 1, self.column), of)

    def close(self, first: int, of: Any) -> None:
        """Says what stands in the line from a column up to what is written next."""
        self.places.spans.setdefault(len(self.lines) + 1, []).append(Span(first, self.column, of))

    @contextmanager
    def span(self, of: Any) -> Iterator[None]:
        """What is written in the line within a `with` stands for something."""
        first = self.column
        yield
        self.close(first, of)

    def text(self) -> str:
        """All lines that are ended."""
        return "\n".join(self.lines) + "\n"
