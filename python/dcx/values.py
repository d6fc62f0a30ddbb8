"""The values that stand in the report's lines: counts, numbers, shapes, places, arrays; each read strictly and written
again.
"""
from __future__ import annotations

import re
from dataclasses import dataclass
from fractions import Fraction
from functools import lru_cache
from typing import Callable, NamedTuple, Optional

from .arrays import size_of
from .numbers import GREATEST

# No number has more than 39 digits, and no count, side, line or column more than ten.
COUNT = re.compile(r"0|[1-9][0-9]{0,9}")
NUMBER = re.compile(r"0|(-?[1-9][0-9]{0,38})(?:/([1-9][0-9]{0,38}))?")
SHAPE = re.compile(r"\((?:([1-9][0-9]{0,9})(?:,([1-9][0-9]{0,9}))?)?\)")
PLACE = re.compile(r"([1-9][0-9]{0,9}):([1-9][0-9]{0,9})")


class Misread(ValueError):
    """A text that isn't what is wanted there; its message says what was wanted."""


class Place(NamedTuple):
    """A place in a script or a settings file, both counted from 1, columns in bytes."""

    line: int
    column: int


@dataclass(frozen=True)
class Entries:
    """An array: its shape, of at most two sides, and its entries in row-major order."""

    shape: tuple[int, ...]
    entries: tuple[Fraction, ...]


def read_count(text: str) -> int:
    """A whole number from 0 on, without leading zeros."""
    if not COUNT.fullmatch(text):
        raise Misread(f"a count, and not {text!r}")
    return int(text)


@lru_cache(maxsize=1 << 14)  # a report says most of its numbers more than once
def read_number(text: str) -> Fraction:
    """A fraction in lowest terms, both parts of at most 127 bits."""
    match = NUMBER.fullmatch(text)
    if match is None:
        raise Misread(f"a number, and not {text!r}")
    over, under = match.groups()
    if over is None:
        return Fraction(0)
    numerator = int(over)
    if under is None:
        value = Fraction(numerator)
    else:
        denominator = int(under)
        value = Fraction(numerator, denominator)
        if value.denominator != denominator or denominator == 1:
            raise Misread(f"a number in lowest terms, and not {text!r}")
    if abs(value.numerator) > GREATEST or value.denominator > GREATEST:
        raise Misread(f"a number of 128 bits, and not {text!r}")
    return value


def number_text(value: Fraction) -> str:
    """`n` or `n/d` in lowest terms."""
    return str(value)


def read_end(text: str) -> Optional[Fraction]:
    """The end of a span, None where there is none."""
    return None if text == "none" else read_number(text)


def end_text(value: Optional[Fraction]) -> str:
    """A number, or `none`."""
    return "none" if value is None else number_text(value)


def read_shape(text: str) -> tuple[int, ...]:
    """The sides of `()`, `(n)` or `(m,n)`, each at least 1."""
    match = SHAPE.fullmatch(text)
    if match is None:
        raise Misread(f"a shape, and not {text!r}")
    return tuple(int(side) for side in match.groups() if side is not None)


def shape_text(shape: tuple[int, ...]) -> str:
    """`()`, `(n)` or `(m,n)`."""
    return f"({','.join(str(side) for side in shape)})"


def read_place(text: str) -> Place:
    """`LINE:COLUMN`."""
    match = PLACE.fullmatch(text)
    if match is None:
        raise Misread(f"a place, and not {text!r}")
    return Place(int(match.group(1)), int(match.group(2)))


def place_text(place: Place) -> str:
    """`LINE:COLUMN`."""
    return f"{place[0]}:{place[1]}"


def read_name(text: str) -> str:
    """A name of the script."""
    if not text or not text.isprintable():
        raise Misread(f"a name, and not {text!r}")
    return text


def one_of(*words: str) -> Callable[[str], str]:
    """Reads one of these words."""

    def read(text: str) -> str:
        if text not in words:
            raise Misread(f"one of {', '.join(words)}, and not {text!r}")
        return text

    return read


COUNTS = (read_count, str)
NUMBERS = (read_number, number_text)
SHAPES = (read_shape, shape_text)
KINDS = {
    "what": (one_of("nodes", "entries", "items", "steps", "events"), str),
    "rule": (one_of("composition", "minimize", "maximize", "equal", "at_most"), str),
    "reason": (one_of("unknown", "shape", "map", "coefficient"), str),
    "op": (one_of("add", "sub", "mul", "div", "lcm"), str),
    "of": (one_of("script", "settings", "certificate"), str),
    "name": (read_name, str),
    "place": (read_place, place_text),
    "low": (read_end, end_text),
    "high": (read_end, end_text),
    "sense": (one_of("minimize", "maximize"), str),
    "sign": (one_of("nonneg", "nonpos", "zero", "unknown"), str),
    "curvature": (one_of("constant", "affine", "convex", "concave"), str),
    "dpp": (lambda text: one_of("yes", "no")(text) == "yes", lambda value: "yes" if value else "no"),
    **dict.fromkeys(("declared", "given", "shape"), SHAPES),
    **dict.fromkeys(("value", "left", "right", "stated", "found", "slope", "number"), NUMBERS),
    **dict.fromkeys(
        (
            "count", "entry", "entries", "row", "column", "pivots", "rows", "columns", "node", "step", "line",
            "parameter", "variable", "constraint", "section", "index", "answered", "stopped", "size",
        ),
        COUNTS,
    ),
}


class Named(NamedTuple):
    """A line of an array: its word, the name or number behind that, and the array."""

    word: str
    name: str
    array: Entries


def read_array(line: str) -> Named:
    """`WORD NAME S = F F ..`, with as many numbers as the shape has entries."""
    words = line.split(" ")
    if len(words) < 4 or words[3] != "=":
        raise Misread(f"a line of numbers, and not {line!r}")
    shape = read_shape(words[2])
    entries = tuple([read_number(word) for word in words[4:]])
    if len(entries) != size_of(shape):
        raise Misread(f"{size_of(shape)} numbers behind {words[2]}, and not {len(entries)}")
    return Named(words[0], read_name(words[1]), Entries(shape, entries))


def array_line(word: str, name: object, array: Entries) -> str:
    """`WORD NAME S = F F ..`."""
    return " ".join([word, str(name), shape_text(array.shape), "="] + [number_text(entry) for entry in array.entries])
