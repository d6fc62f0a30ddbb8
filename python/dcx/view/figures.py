"""Numbers, vectors and matrices in HTML: decimals, with the fraction that they are rounded from."""
from __future__ import annotations

from fractions import Fraction
from typing import Sequence

from ..grids import decimals
from ..values import Entries, number_text
from .markup import Markup, el, text

DIGITS = 6
MOST_SHOWN = 60  # entries of an array that stand open


def number(value: Fraction) -> Markup:
    """A number: its decimals, and its fraction where it isn't whole, with a sign that tells whether both are equal.

    A page may have thousands of them, and so one element for each: nothing is around the two.
    """
    if value.denominator == 1:
        return text(number_text(value))
    told = decimals(value, DIGITS)
    sign = "=" if Fraction(told) == value else "≈"
    return text([told, " ", el("small", f"{sign} {number_text(value)}")])


def entry_text(shape: Sequence[int], entry: int) -> str:
    """The indices of an entry, as `[2]` or `[0, 1]`; nothing of a single number."""
    if not shape:
        return ""
    return f"[{entry}]" if len(shape) == 1 else f"[{entry // shape[1]}, {entry % shape[1]}]"


def sides_text(shape: Sequence[int]) -> str:
    """How many entries there are, as a person says it."""
    return f"{shape[0]} entries" if len(shape) == 1 else f"{shape[0]} × {shape[1]} entries"


def array(values: Entries, label: str) -> Markup:
    """A number, a vector as a list of entries, a matrix as a table. The label tells what it is to who can't see it."""
    if not values.shape:
        return number(values.entries[0])
    if len(values.shape) == 1:
        cells = (el("li", el("span", f"[{at}]", class_="k"), number(entry)) for at, entry in enumerate(values.entries))
        return el("ol", list(cells), class_="vector", aria_label=label)
    rows, columns = values.shape
    head = el("tr", el("td"), [el("th", f"[:, {j}]", scope="col") for j in range(columns)])
    body = []
    for i in range(rows):
        entries = values.entries[i * columns : (i + 1) * columns]
        body.append(el("tr", el("th", f"[{i}]", scope="row"), [el("td", number(entry)) for entry in entries]))
    table = el("table", el("thead", head), el("tbody", body), class_="matrix")
    return el("div", table, class_="wide", tabindex=0, role="region", aria_label=label)


def named(name: str, values: Entries, more: str = "") -> Markup:
    """An array with its name before it; a long one is folded up."""
    told = f"{name}{more}"
    head = [el("code", name), more]
    if not values.shape:
        return el("p", head, " = ", number(values.entries[0]), class_="named")
    inner = array(values, told)
    sides = el("span", sides_text(values.shape), class_="quiet")
    if len(values.entries) > MOST_SHOWN:
        return el("details", el("summary", head, " ", sides), inner, class_="named")
    return el("div", el("p", head, " ", sides), inner, class_="named")
