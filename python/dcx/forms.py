"""How each form of the language is written: numbers, arrays, declarations, operators with their brackets, indices,
calls."""

from __future__ import annotations

from fractions import Fraction
from typing import Any, Iterator, Mapping, Sequence

from .arrays import Array
from .graph import Part
from .numbers import text as number_text

__all__ = [
    "ATOM", "INFIX", "SIGN", "SUM", "array_lines", "brackets", "call", "constant", "declaration", "holds", "index",
    "is_light", "nested",
]

# How close an operator holds its operands together; a bracket is wanted around what holds less.
SUM, TERM, SIGN, ATOM = 1, 2, 3, 4
INFIX = {"+": SUM, "-": SUM, "*": TERM, "/": TERM, "@": TERM}
WIDTH = 110  # of a line of numbers


# ---- brackets


def holds(part: Part) -> int:
    """How close what stands outermost in a part holds its operands together."""
    if part.kind == "constant" and not part.shape:
        number = part.array.entries[0]
        return TERM if number.denominator != 1 else SIGN if number < 0 else ATOM
    return SIGN if part.kind == "minus" else INFIX.get(part.kind, ATOM)


def brackets(part: Part, open_in: Mapping[int, int]) -> int:
    """How many brackets are open together, at most, where a part is written out; `open_in` has it of its arguments, by
    their ids, which is 0 of what has a name."""
    kind, args = part.kind, part.args
    if not args:
        return 0
    if kind not in INFIX and kind not in ("minus", "T", "index"):
        return max(open_in[id(arg)] for arg in args) + (2 if kind in ("hstack", "vstack") else 1)
    least = INFIX.get(kind, SIGN if kind == "minus" else ATOM)
    most = max(open_in[id(arg)] + (holds(arg) < wanted) for arg, wanted in zip(args, (least, least + 1)))
    return max(most, 1) if kind == "index" else most


def is_light(part: Part) -> bool:
    """Whether a part is no more than an entry, a slice, a transpose or a multiple of something, so that it needs no
    name where it stands twice."""
    if part.kind in ("index", "T"):
        return True
    return part.kind == "*" and any(arg.kind == "constant" and not arg.shape for arg in part.args)


# ---- numbers and arrays


def constant(array: Array, least: int) -> str:
    """A number, in brackets where it holds less than `least`, or an array of one entry."""
    if array.shape:
        return array_lines(array, 0)[0]
    text = number_text(array.entries[0])
    found = TERM if "/" in text else SIGN if text.startswith("-") else ATOM
    return f"({text})" if found < least else text


def nested(array: Array) -> str:
    """The numbers of an array as a list, rows as lists in it, a single one by itself."""
    numbers = [number_text(entry) for entry in array.entries]
    if not array.shape:
        return numbers[0]
    if len(array.shape) == 1:
        return f"[{', '.join(numbers)}]"
    return "[" + ", ".join(f"[{', '.join(row)}]" for row in _rows(numbers, array.shape[1])) + "]"


def array_lines(array: Array, indent: int) -> list[str]:
    """The lines of a NumPy array, of which the first one stands behind `indent` blanks."""
    shape, entries = array.shape, array.entries
    if len(entries) > 1:
        if not any(entries):
            return [f"np.zeros({_shape(shape)})"]
        if all(entry == 1 for entry in entries):
            return [f"np.ones({_shape(shape)})"]
        if len(shape) == 2 and shape[0] == shape[1] and _is_identity(entries, shape[0]):
            return [f"np.eye({shape[0]})"]
    text = f"np.array({nested(array)})"
    if len(text) + indent <= WIDTH or len(entries) == 1:
        return [text]
    numbers = [number_text(entry) for entry in entries]
    width = WIDTH - indent - len("np.array([")
    if len(shape) == 1:
        return _bracketed("np.array([", list(_wrapped(numbers, width)), "])")
    rows = [_bracketed("[", list(_wrapped(row, width - 1)), "]") for row in _rows(numbers, shape[1])]
    for row in rows[:-1]:
        row[-1] += ","
    return _bracketed("np.array([", [line for row in rows for line in row], "])")


def _rows(numbers: list[str], width: int) -> Iterator[list[str]]:
    """The rows of a matrix of this width."""
    return (numbers[start : start + width] for start in range(0, len(numbers), width))


def _is_identity(entries: Sequence[Fraction], side: int) -> bool:
    return all(entry == (place % (side + 1) == 0) for place, entry in enumerate(entries))


def _wrapped(words: list[str], width: int) -> Iterator[str]:
    """Words with commas between, in lines of about this width; each line but the last ends with a comma."""
    line: list[str] = []
    length = 0
    for word in words:
        if line and length + len(word) > width:
            yield ", ".join(line) + ","
            line, length = [], 0
        line.append(word)
        length += len(word) + 2
    yield ", ".join(line)


def _bracketed(start: str, lines: list[str], end: str) -> list[str]:
    """Lines between brackets, those behind the first one under it."""
    body = [start + lines[0], *(" " * len(start) + line for line in lines[1:])]
    body[-1] += end
    return body


# ---- declarations, indices, calls


def _shape(shape: Sequence[int]) -> str:
    """A shape as an argument: a number for a vector, else a tuple."""
    return str(shape[0]) if len(shape) == 1 else f"({', '.join(map(str, shape))})"


def declaration(leaf: Any) -> str:
    """The call that declares a variable or a parameter."""
    words = [_shape(leaf.shape)] if leaf.shape else []
    words += [f"{word}=True" for word in leaf.language_attributes()]
    return f"cp.{'Variable' if leaf.kind == 'variable' else 'Parameter'}({', '.join(words)})"


def index(options: Sequence[Any], shape: Sequence[int]) -> str:
    """Indices in their brackets: whole numbers, and slices without what a slice has by itself."""
    words = []
    for option, side in zip(options, shape):
        if isinstance(option, int):
            words.append(str(option))
            continue
        _, start, stop, step = option
        first, last = (0, side) if step > 0 else (side - 1, None)
        word = "" if start is None or start == first else str(start)
        word += ":" + ("" if stop is None or stop == last else str(stop))
        words.append(word + (f":{step}" if step != 1 else ""))
    return f"[{', '.join(words)}]"


def call(part: Part) -> list:
    """A call in pieces: texts, and each argument with what it has to hold."""
    kind, args, options = part.kind, part.args, part.options
    items: list = []
    for arg in args:
        items += [", ", (arg, SUM)]
    items = items[1:]
    if kind in ("hstack", "vstack"):
        return [f"cp.{kind}([", *items, "])"]
    return [f"cp.{kind}(", *items, _options(kind, options), ")"]


def _options(kind: str, options: Sequence[Any]) -> str:
    """What stands behind the arguments of a call."""
    if kind in ("sum_largest", "sum_smallest"):
        return f", {options[0]}"
    if kind == "diff":
        return f", {options[0]}" if options[0] != 1 else ""
    if kind == "reshape":
        shape, order = options
        return f", {_shape(shape)}" + (', order="C"' if order == "C" else "")
    if options and options[0] is not None:
        return f", axis={options[0]}"
    return ""
