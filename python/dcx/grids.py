"""Numbers as a person reads them: decimals in columns, fractions beside them, matrices as matrices."""
from __future__ import annotations

from decimal import Decimal, localcontext
from fractions import Fraction
from typing import NamedTuple, Sequence

from .values import Entries, number_text, shape_text

GAP = "  "


class Look(NamedTuple):
    """How tables look: significant digits of decimals, the width of a line, and whether colours are used."""

    digits: int = 6
    width: int = 120
    is_coloured: bool = False

    def bold(self, text: str) -> str:
        """A head."""
        return self.coloured("1", text)

    def dim(self, text: str) -> str:
        """What matters less."""
        return self.coloured("2", text)

    def red(self, text: str) -> str:
        """What is wrong."""
        return self.coloured("31", text)

    def coloured(self, code: str, text: str) -> str:
        """The text in a terminal's colour."""
        return f"\x1b[{code}m{text}\x1b[0m" if self.is_coloured and text.strip() else text


def decimals(value: Fraction, digits: int) -> str:
    """A whole number as it is, any other one rounded to significant digits, half to even.

    A tiny or a huge one has an exponent, as `1.5e-09`.
    """
    if value.denominator == 1:
        return str(value.numerator)
    with localcontext() as context:
        # One rounding alone: the quotient of both parts.
        context.prec = digits
        rounded = Decimal(value.numerator) / Decimal(value.denominator)
    if -5 <= rounded.adjusted() < max(digits, 1) + 9:
        text = f"{rounded:f}"
        return text.rstrip("0").rstrip(".") if "." in text else text
    mantissa, _, exponent = f"{rounded:E}".partition("E")
    mantissa = mantissa.rstrip("0").rstrip(".") if "." in mantissa else mantissa
    return f"{mantissa}e{int(exponent):+03d}"


def both(value: Fraction, digits: int) -> str:
    """A number in a sentence: its fraction, and its decimals in brackets where it is none that is whole."""
    return number_text(value) if value.denominator == 1 else f"{number_text(value)} ({decimals(value, digits)})"


def at_points(texts: Sequence[str]) -> list[str]:
    """Texts of decimals, filled with blanks so that their points stand below each other."""
    split = [text.partition(".") for text in texts]
    before = max((len(part[0]) for part in split), default=0)
    behind = max((len(part[1] + part[2]) for part in split), default=0)
    return [part[0].rjust(before) + (part[1] + part[2]).ljust(behind) for part in split]


def to_right(texts: Sequence[str]) -> list[str]:
    """Texts, filled with blanks in front."""
    width = max(map(len, texts), default=0)
    return [text.rjust(width) for text in texts]


def to_left(texts: Sequence[str]) -> list[str]:
    """Texts, filled with blanks behind."""
    width = max(map(len, texts), default=0)
    return [text.ljust(width) for text in texts]


def number_columns(values: Sequence[Fraction], digits: int) -> list[list[str]]:
    """The columns of a list of numbers: decimals, and the fractions of those that aren't whole, where there are any."""
    columns = [at_points([decimals(value, digits) for value in values])]
    if any(value.denominator != 1 for value in values):
        columns.append(to_left(["" if value.denominator == 1 else number_text(value) for value in values]))
    return columns


def joined(columns: Sequence[Sequence[str]]) -> list[str]:
    """Rows of columns that are filled already."""
    return [GAP.join(row).rstrip() for row in zip(*columns)]


def is_whole(values: Sequence[Fraction]) -> bool:
    """Whether no number is a fraction."""
    return all(value.denominator == 1 for value in values)


def array_rows(arrays: Sequence[Entries], look: Look, width: int) -> list[str]:
    """The rows of a vector or a matrix, or of several of one shape beside each other, with the indices in front."""
    shape = arrays[0].shape
    if len(shape) == 2:
        return matrix_rows(arrays, look, width)
    if len(arrays) == 1 and is_whole(arrays[0].entries):
        return wrapped_rows(arrays[0].entries, look, width)
    columns = [to_right([f"[{at}]" for at in range(shape[0])])]
    for array in arrays:
        columns.extend(number_columns(array.entries, look.digits))
    return joined(columns)


def wrapped_rows(entries: Sequence[Fraction], look: Look, width: int) -> list[str]:
    """Whole numbers one behind the other, each row with the index of its first."""
    cells = to_right([decimals(entry, look.digits) for entry in entries])
    label = len(f"[{len(cells) - 1}]")
    count = max(1, (width - label) // (len(cells[0]) + len(GAP)))
    rows = range(0, len(cells), count)
    return [GAP.join([f"[{at}]".rjust(label), *cells[at : at + count]]) for at in rows]


def grids_of(array: Entries, look: Look) -> list[list[list[str]]]:
    """The columns of a matrix in decimals, each filled by itself, and those of its fractions, where it has any."""
    rows, columns = array.shape
    entries = [[array.entries[i * columns + j] for i in range(rows)] for j in range(columns)]
    grids = [[at_points([decimals(value, look.digits) for value in column]) for column in entries]]
    if not is_whole(array.entries):
        grids.append([to_right([number_text(value) for value in column]) for column in entries])
    return grids


def in_brackets(columns: Sequence[Sequence[str]]) -> list[str]:
    """The rows of a matrix of these columns."""
    rows = len(columns[0])
    return joined([["["] * rows, *columns, ["]"] * rows])


def matrix_rows(arrays: Sequence[Entries], look: Look, width: int) -> list[str]:
    """Matrices as decimals, each with its fractions beside it; below it where the line is too short for that.

    Where it is too short for a matrix alone, its columns stand in parts, one below the other.
    """
    grids = [grid for array in arrays for grid in grids_of(array, look)]
    whole = [in_brackets(grid) for grid in grids]
    beside = joined([to_left(rows) for rows in whole])
    if max(map(len, beside)) <= width:
        return beside
    if max(len(row) for rows in whole for row in rows) <= width:
        return [row for rows in whole for row in rows]
    rows, first = [], 0
    while first < len(grids[0]):
        last = first + 1
        while last < len(grids[0]) and in_width(grids, first, last + 1, width):
            last += 1
        columns = f"column {first}" if last == first + 1 else f"columns {first} to {last - 1}"
        rows += [columns, *joined([to_left(in_brackets(grid[first:last])) for grid in grids])]
        first = last
    return rows


def in_width(grids: Sequence[Sequence[Sequence[str]]], first: int, last: int, width: int) -> bool:
    """Whether these columns of all grids have room beside each other."""
    parts = [sum(len(column[0]) + len(GAP) for column in grid[first:last]) + len("[  ]") for grid in grids]
    return sum(parts) <= width


def named_rows(named: Sequence[tuple[str, Sequence[Entries]]], look: Look, heads: Sequence[str] = ()) -> list[str]:
    """The rows of named arrays, in order: numbers in columns, others below their names.

    Where there are heads, each name has as many arrays of one shape.
    """
    scalars = scalar_rows([(name, arrays) for name, arrays in named if not arrays[0].shape], look, heads)
    rows = scalars[: len(scalars) - sum(not arrays[0].shape for _, arrays in named)]
    scalars = scalars[len(rows) :]
    for name, arrays in named:
        if not arrays[0].shape:
            rows.append(scalars.pop(0))
            continue
        behind = f"{GAP}({', '.join(heads)})" if heads else ""
        rows.append(f"{name} {shape_text(arrays[0].shape)}{behind}")
        rows.extend(GAP + row for row in array_rows(arrays, look, look.width - len(GAP) * 3))
    return rows


def scalar_rows(named: Sequence[tuple[str, Sequence[Entries]]], look: Look, heads: Sequence[str]) -> list[str]:
    """The rows of named numbers, behind one of the heads where there are any."""
    if not named:
        return []
    columns = [to_left([*[""] * bool(heads), *[name for name, _ in named]])]
    for place in range(len(named[0][1])):
        numbers = joined(number_columns([arrays[place].entries[0] for _, arrays in named], look.digits))
        columns.append(to_left([heads[place], *numbers] if heads else numbers))
    return joined(columns)
