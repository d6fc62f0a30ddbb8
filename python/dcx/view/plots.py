"""Plots as SVG: points, and lines of pieces, between axes whose ticks are round numbers. All text in them is text."""
from __future__ import annotations

from fractions import Fraction
from typing import NamedTuple, Optional, Sequence

from ..grids import decimals
from ..values import number_text
from .course import Course
from .markup import Markup, Part, el

WIDTH, HEIGHT = 720, 320
LEFT, RIGHT, TOP, BOTTOM = 84, 20, 28, 56
MANY = 200  # points: where there are more they are small, and the page's script writes what is told of each


class Point(NamedTuple):
    """A point with what is told of it."""

    x: Fraction
    y: Fraction
    label: str


class Axes:
    """The map from numbers to the places of a plot."""

    def __init__(self, xs: Sequence[Fraction], ys: Sequence[Fraction], whole: bool = False):
        self.x, self.y = ends(xs), ends(ys)
        self.least_step = Fraction(whole)  # of the ticks across

    def at(self, x: Fraction, y: Fraction) -> tuple[float, float]:
        """The place of a point, rounded to hundredths."""
        across = LEFT + (x - self.x[0]) / (self.x[1] - self.x[0]) * (WIDTH - LEFT - RIGHT)
        down = HEIGHT - BOTTOM - (y - self.y[0]) / (self.y[1] - self.y[0]) * (HEIGHT - TOP - BOTTOM)
        return float(round(across, 2)), float(round(down, 2))

    def drawn(self, x_label: str, y_label: str) -> Part:
        """Ticks, lines and labels."""
        parts: list[Part] = []
        right, bottom = WIDTH - RIGHT, HEIGHT - BOTTOM
        for value in ticks(*self.y):
            _, y = self.at(self.x[0], value)
            parts.append(el("line", x1=LEFT, x2=right, y1=y, y2=y, class_="grid"))
            parts.append(el("text", decimals(value, 6), x=LEFT - 8, y=y + 5, text_anchor="end"))
        for value in ticks(*self.x, self.least_step):
            x, _ = self.at(value, self.y[0])
            parts.append(el("line", x1=x, x2=x, y1=bottom, y2=bottom + 5, class_="axis"))
            parts.append(el("text", decimals(value, 6), x=x, y=bottom + 21, text_anchor="middle"))
        parts.append(el("line", x1=LEFT, x2=right, y1=bottom, y2=bottom, class_="axis"))
        parts.append(el("text", x_label, x=(LEFT + right) // 2, y=HEIGHT - 6, text_anchor="middle", class_="label"))
        parts.append(el("text", y_label, x=LEFT, y=14, text_anchor="start", class_="label"))
        return parts


def ends(values: Sequence[Fraction]) -> tuple[Fraction, Fraction]:
    """From where to where an axis goes, with some room around the values."""
    least, most = min(values), max(values)
    room = (most - least) / 16 or max(abs(least), Fraction(1)) / 2
    return least - room, most + room


def ticks(least: Fraction, most: Fraction, least_step: Fraction = Fraction(0)) -> list[Fraction]:
    """Some round numbers between two, seven at most."""
    rough = max((most - least) / 7, least_step)
    power = Fraction(10) ** (len(str(int(rough))) - 1) if rough >= 1 else Fraction(1)
    while power > rough:
        power /= 10
    step = next(power * factor for factor in (1, 2, 5, 10) if power * factor >= rough)
    first = -(-least // step)
    return [step * at for at in range(int(first), int(most // step) + 1)]


def figure(axes_parts: Part, parts: Part, caption: Part, label: str) -> Markup:
    """The plot with its caption."""
    svg = el("svg", axes_parts, parts, viewBox=f"0 0 {WIDTH} {HEIGHT}", role="group", aria_label=label)
    return el("figure", svg, el("figcaption", caption))


def dot(
    axes: Axes, point: Point, class_: Optional[str] = "dot", radius: str = "3.5", has_title: bool = True
) -> Markup:
    """A point, with its numbers."""
    x, y = axes.at(point.x, point.y)
    title = el("title", point.label) if has_title else None
    exact = {"data_x": number_text(point.x), "data_y": number_text(point.y)}
    return el("circle", title, cx=x, cy=y, r=radius, class_=class_, **exact)


def points(
    shown: Sequence[Point], missing: Sequence[tuple[Fraction, str]], x_label: str, y_label: str, caption: Part,
    whole: bool = False,
) -> Optional[Markup]:
    """Points; where there is no value a cross stands on the axis. None where there are fewer than two. With `whole`
    only whole numbers are told below."""
    if len(shown) < 2:
        return None
    axes = Axes([point.x for point in shown] + [x for x, _ in missing], [point.y for point in shown], whole)
    is_many = len(shown) > MANY
    marks: list[Part] = []
    for at, label in missing:
        x, y = axes.at(at, axes.y[0])
        cross = f"M{x - 4:g} {y - 12:g}l8 8m0 -8l-8 8"
        marks.append(el("path", el("title", label), d=cross, class_="cross", data_x=number_text(at)))
    dots = el("g", [dot(axes, point, None, "2" if is_many else "3.5", not is_many) for point in shown], class_="dot")
    return figure(axes.drawn(x_label, y_label), [marks, dots], caption, f"{y_label} over {x_label}")


def course(found: Course, marked: Sequence[Point], y_label: str, caption: Part) -> Markup:
    """The pieces of a course, with a dot where one becomes another, and points on it."""
    corners = corners_of(found)
    xs = [x for x, _ in corners] + [point.x for point in marked] + [found.start]
    room = (max(xs) - min(xs)) / 4 or max(abs(xs[0]), Fraction(1)) / 2
    first, last = found.pieces[0], found.pieces[-1]
    line = list(corners)
    if first.low is None:
        line.insert(0, (min(xs) - room, first.at(min(xs) - room)))
    if last.high is None:
        line.append((max(xs) + room, last.at(max(xs) + room)))
    axes = Axes([x for x, _ in line], [y for _, y in line] + [point.y for point in marked])
    path = " ".join(f"{x:g},{y:g}" for x, y in (axes.at(*corner) for corner in line))
    parts: list[Part] = [el("polyline", points=path, class_="course")]
    for x, y in corners:
        told = f"{found.name} = {number_text(x)}: {number_text(y)}"
        parts.append(dot(axes, Point(x, y, told), "corner", "4.5"))
    parts.extend(dot(axes, point) for point in marked)
    return figure(axes.drawn(found.name, y_label), parts, caption, f"{y_label} over {found.name}")


def corners_of(found: Course) -> list[tuple[Fraction, Fraction]]:
    """The ends of the pieces, with the values there, from low to high."""
    corners = []
    for piece in found.pieces:
        for place in (piece.low, piece.high):
            if place is not None and (not corners or corners[-1][0] != place):
                corners.append((place, piece.at(place)))
    return corners
