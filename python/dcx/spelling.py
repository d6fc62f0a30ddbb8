"""Expressions as text for people: short, and cut where they are long."""
from __future__ import annotations

from fractions import Fraction

from .errors import LimitError
from .expressions import Expression
from .numbers import text
from .trees import postorder

_LONGEST = 120
_SIGNS = {"+": 1, "-": 1, "*": 2, "/": 2, "@": 2}


def text_of(expression: Expression) -> str:
    """The expression in one line."""
    known: dict = {}
    for item in postorder([expression]):
        known[id(item)] = _cut(_of_one(item, [known[id(arg)] for arg in item.args]))
    return known[id(expression)][0]


def _cut(found: tuple) -> tuple:
    words, level = found
    return (words, level) if len(words) <= _LONGEST else (words[:_LONGEST - 2] + "..", level)


def _bracketed(found: tuple, least: int) -> str:
    return found[0] if found[1] >= least else f"({found[0]})"


def _of_one(item: Expression, args: list) -> tuple:
    """The text, and how strongly it holds together: 1 as a sum, 2 as a product, 3 behind a sign, 4 as a name."""
    kind = item.kind
    if kind == "constant":
        return _of_constant(item), 4
    if not item.args:
        return item.name(), 4
    if kind in _SIGNS:
        level = _SIGNS[kind]
        return f"{_bracketed(args[0], level)} {kind} {_bracketed(args[1], level + (kind != '+'))}", level
    if kind == "minus":
        return f"-{_bracketed(args[0], 3)}", 1
    if kind == "T":
        return f"{_bracketed(args[0], 4)}.T", 4
    if kind == "index":
        return f"{_bracketed(args[0], 4)}[{', '.join(map(_side, item.options))}]", 4
    options = [str(option) for option in item.options if option is not None]
    listed = ", ".join(arg[0] for arg in args)
    if kind in ("hstack", "vstack"):
        listed = f"[{listed}]"
    return f"{kind}({', '.join([listed] + options)})", 4


def _side(side) -> str:
    if not isinstance(side, tuple):
        return str(side)
    _, start, stop, step = side
    return f"{start}:{'' if stop is None else stop}" + ("" if step == 1 else f":{step}")


def _of_constant(item) -> str:
    if item.given_name is not None:
        return item.given_name
    if item.size > 8:
        return f"array of shape {item.shape}"
    entries = [number_text(number) for number in item.array.dense().entries]
    if not item.shape:
        return entries[0] if not entries[0].startswith("-") and "/" not in entries[0] else f"({entries[0]})"
    if item.ndim == 1:
        return f"[{', '.join(entries)}]"
    width = item.shape[1]
    rows = (", ".join(entries[row * width:(row + 1) * width]) for row in range(item.shape[0]))
    return "[" + ", ".join(f"[{row}]" for row in rows) + "]"


def number_text(number: Fraction) -> str:
    """A number as the program's language writes it, or near to it where that has no such number."""
    try:
        return text(number)
    except LimitError:
        return f"{float(number):.6g}"
