"""The value over a parameter: its pieces, their breakpoints, and what is beyond."""
from __future__ import annotations

from fractions import Fraction
from typing import Optional

from ..values import number_text
from . import plots
from .asking import Found
from .course import Course, told
from .figures import number
from .markup import Markup, Part, el
from .notes import OBJECTIVE


def course(found: Found, parameter: str) -> Markup:
    """The section on a parameter."""
    title = el("h2", "The value over ", el("code", parameter))
    if found.course is None:
        return el("section", title, el("p", found.refused_range, class_="message"), id="range")
    one = found.course
    if one.refused is not None:
        why = f"At {parameter} = {number_text(one.start)} there is no range to begin with: {told(one.refused)}."
        return el("section", title, el("p", why, class_="message"), id="range")
    value = OBJECTIVE[found.tables.sources.sense]
    drawing = plots.course(one, on_course(found, one), value, caption(found, one, value))
    return el("section", title, el("p", lead(one, value)), drawing, pieces(one), notes(found, one), id="range")


def lead(one: Course, value: str) -> str:
    """What is seen, in a sentence."""
    count = len(one.pieces)
    corners = count - 1
    bends = f"bends at {corners} " + ("place" if corners == 1 else "places") if corners else "bends nowhere"
    return f"The {value} is made of {count} straight " + ("piece" if count == 1 else "pieces") + f" and {bends}."


def caption(found: Found, one: Course, value: str) -> Part:
    """What the plot shows."""
    which = "setting" if found.given is not None else "solve"
    told = f"The {value} over {one.name}; a ring stands where a piece ends, a dot at an answer."
    if len(found.values(found.course_of)) > 1:
        told += f" The other parameters have their values of {which} {found.course_of}."
    return told


def on_course(found: Found, one: Course) -> list[plots.Point]:
    """The answers whose other parameters are those of the course."""
    base = others(found, found.course_of, one.name)
    points = []
    for answer in found.answers:
        if answer.value is not None and others(found, answer.index, one.name) == base:
            place = found.values(answer.index)[one.name].entries[0]
            label = f"{answer.word} {answer.index}: {number_text(answer.value)}"
            points.append(plots.Point(place, answer.value, label))
    return points


def others(found: Found, index: int, name: str) -> dict:
    """The values of the other parameters at an answer."""
    return {key: array for key, array in found.values(index).items() if key != name}


def pieces(one: Course) -> Markup:
    """A row for each piece."""
    heads = [("from", "num"), ("to", "num"), ("the value is", None)]
    heads += [("at the low end", "num"), ("at the high end", "num")]
    body = []
    for piece in one.pieces:
        ends = (piece.low, piece.high)
        cells = [el("td", end(place), class_="num") for place in ends]
        cells.append(el("td", formula(piece, one.name)))
        cells += [el("td", None if place is None else number(piece.at(place)), class_="num") for place in ends]
        body.append(el("tr", cells))
    head = el("tr", [el("th", text, scope="col", class_=kind) for text, kind in heads])
    table = el("table", el("thead", head), el("tbody", body), class_="rows")
    return el("div", table, class_="wide", tabindex=0, role="region", aria_label="pieces of the value")


def end(place: Optional[Fraction]) -> Part:
    """The end of a piece."""
    return el("span", "without end", class_="quiet") if place is None else number(place)


def formula(piece, name: str) -> Part:
    """The line of a piece."""
    if not piece.slope:
        return number(piece.value)
    product: Part = [number(abs(piece.slope)), " × ", el("code", name)]
    if not piece.value:
        return ["-" if piece.slope < 0 else "", product]
    return [number(piece.value), " - " if piece.slope < 0 else " + ", product]


def notes(found: Found, one: Course) -> Markup:
    """What is beyond the ends, and how all this is known."""
    lines: list[Part] = []
    for side, piece, beyond in (("low", one.pieces[0], "below"), ("high", one.pieces[-1], "above")):
        place = piece.low if side == "low" else piece.high
        kind = one.ends[side]
        if kind == "infeasible":
            shown = ", which multipliers of a certificate show."
            lines.append(["There is no point ", beyond, " ", number(place), shown])
        elif kind == "sign":
            lines.append(["The parameter's sign ends it at ", number(place), "."])
        elif kind == "open":
            known = [f"What is {beyond} ", number(place), " isn't told"] if place is not None else ["More isn't told"]
            lines.append([known, f": {one.reasons[side]}."])
    lines.append(
        f"Followed from {one.name} = {number_text(one.start)} by the program's word range, asked {one.steps} "
        + ("time. " if one.steps == 1 else "times. ")
        + "Where two ranges leave a gap, the program was asked where their lines meet; the value is "
        + ("convex" if found.tables.sources.sense == "minimize" else "concave")
        + " over such a parameter, so that nothing else stands between."
    )
    return el("div", [el("p", line) for line in lines], class_="quiet")
