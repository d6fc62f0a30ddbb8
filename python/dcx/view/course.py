"""The value of a problem over one of its parameters, from the ranges that the program tells.

A parameter that has a range moves the constants of constraints and of the objective alone. So a value's multipliers at
one place bound it everywhere: the value is convex over the parameter where it is minimized, concave where it is
maximized, and each line that the program prints is a bound that touches it. From this follows what stands between two
ranges, and where to ask next; where there is no point any more is shown by multipliers that a certificate has.
"""
from __future__ import annotations

from dataclasses import dataclass, field
from fractions import Fraction
from typing import Callable, NamedTuple, Optional

from ..exact.verify import bounded
from ..reports import Answer, Section
from ..sources import Sources
from ..values import Entries

MOST_STEPS = 300


class Piece(NamedTuple):
    """From `low` to `high` (None: without end) the value is `value` + `slope` times the parameter."""

    low: Optional[Fraction]
    high: Optional[Fraction]
    value: Fraction
    slope: Fraction

    def at(self, place: Fraction) -> Fraction:
        """The value at a place."""
        return self.value + self.slope * place


@dataclass
class Course:
    """The pieces over a parameter, from low to high, and how it ends on both sides.

    `steps` is how often the program was asked. An end is `None` where the last piece has none, else a sentence's word:
    `infeasible` (beyond it there is no point), `sign` (the parameter's sign), `open` (what is beyond isn't known, and
    `reasons` says why). `start` is where it was begun; where there is no range there, `refused` has the answer.
    """

    name: str
    start: Fraction
    pieces: list[Piece] = field(default_factory=list)
    ends: dict[str, Optional[str]] = field(default_factory=dict)
    reasons: dict[str, str] = field(default_factory=dict)
    steps: int = 0
    refused: Optional[Answer] = None


class Limit(Exception):
    """As many steps were taken as may be."""


class Follower:
    """Follows the ranges from a start. `ask` gives the program's answer of `range` at a value of the parameter, `shown`
    the section of a certificate there."""

    def __init__(
        self,
        name: str,
        sources: Sources,
        values: dict[str, Entries],
        ask: Callable[[Fraction], Answer],
        shown: Callable[[Fraction], Optional[Section]],
    ):
        self.sources, self.values, self.ask, self.shown = sources, values, ask, shown
        node = sources.problem.nodes[dict(sources.problem.parameters)[name]]
        self.least = Fraction(0) if node.call[2] == "nonneg" else None
        self.most = Fraction(0) if node.call[2] == "nonpos" else None
        self.course = Course(name, values[name].entries[0])

    def follow(self) -> Course:
        """The course, as far as the steps reach."""
        course = self.course
        first = self.asked(course.start)
        if first.range is None:
            course.refused = first
            return course
        pieces = [self.piece(first)]
        for side, sign in (("high", 1), ("low", -1)):
            try:
                self.go(pieces, side, sign)
            except Limit:
                course.ends[side] = "open"
                course.reasons[side] = f"the program was asked {MOST_STEPS} times, and not further"
        course.pieces = joined(pieces)
        return course

    def asked(self, place: Fraction) -> Answer:
        """The program's answer at a place."""
        if self.course.steps >= MOST_STEPS:
            raise Limit
        self.course.steps += 1
        return self.ask(place)

    def piece(self, answer: Answer) -> Piece:
        found = answer.range
        return Piece(found.low, found.high, found.value, found.slope)

    def go(self, pieces: list[Piece], side: str, sign: int) -> None:
        """Goes on from the last piece of a side to its end. The pieces are kept from low to high."""
        limit = self.most if sign > 0 else self.least
        stride = None
        while True:
            last = pieces[-1] if sign > 0 else pieces[0]
            end = last.high if sign > 0 else last.low
            if end is None:
                self.course.ends[side] = None
                return
            if limit is not None and end == limit:
                self.course.ends[side] = "sign"
                return
            if stride is None:
                # Beyond the end, by a small part of what is known; what lies between is filled in below.
                width = Fraction(0) if None in (last.low, last.high) else last.high - last.low
                stride = width / 8 or max(abs(end), Fraction(1)) / 64
            place = end + sign * stride
            if limit is not None and sign * (place - limit) > 0:
                place = limit
            answer = self.asked(place)
            while answer.status == "infeasible":
                place = self.nearer(place, end)
                if place == end:
                    self.course.ends[side] = "infeasible"
                    return
                if place is None:
                    break
                answer = self.asked(place)
            if place is None or answer.range is None:
                self.course.ends[side] = "open"
                self.course.reasons[side] = told(answer)
                return
            found = self.piece(answer)
            new = self.between(last, found) if sign > 0 else self.between(found, last)
            if sign > 0:
                pieces[-1:] = new
            else:
                pieces[:1] = new
            same = (found.value, found.slope) == (last.value, last.slope)
            stride = stride * 2 if same else None

    def between(self, left: Piece, right: Piece) -> list[Piece]:
        """The pieces from the left one to the right one, both among them, without a gap."""
        if left.high is None or right.low is None or right.low <= left.high:
            return [left, right]
        if (left.value, left.slope) == (right.value, right.slope):
            return [Piece(left.low, right.high, left.value, left.slope)]
        # The lines meet in the gap, since each bounds the value on one side and touches it in its own piece.
        meet = (right.value - left.value) / (left.slope - right.slope)
        answer = self.asked(meet)
        if answer.range is None:
            raise Limit
        middle = self.piece(answer)
        if middle.at(meet) == left.at(meet):
            return [left._replace(high=meet), right._replace(low=meet)]
        front = self.between(left, middle)
        return [*front[:-1], *self.between(front[-1], right)]

    def nearer(self, place: Fraction, end: Fraction) -> Optional[Fraction]:
        """Of a place without a point: the place, from it towards the end, up to which its multipliers show that there
        is none; None where there are none that do."""
        section = self.shown(place)
        if section is None or section.status != "infeasible":
            return None
        here, there = (self.gap(section, value) for value in (place, end))
        if here <= 0 or there > 0:
            return None
        return end + (place - end) * (-there) / (here - there)

    def gap(self, section: Section, place: Fraction) -> Fraction:
        """What the multipliers of a section show at a place: where it is above 0, there is no point."""
        values = {**self.values, self.course.name: Entries((), (place,))}
        problem = self.sources.problem
        weights = {node: list(found) for node, found in section.weights.items()}
        return bounded(problem, values, [dual.entries for dual in section.duals.values()], weights, False)


def joined(pieces: list[Piece]) -> list[Piece]:
    """The pieces with those of one line put together, and without those of no width beside others."""
    result: list[Piece] = []
    for piece in pieces:
        if result and (result[-1].value, result[-1].slope) == (piece.value, piece.slope):
            result[-1] = result[-1]._replace(high=piece.high)
        else:
            result.append(piece)
    if len(result) == 1:
        return result
    wide = [piece for piece in result if piece.low is None or piece.high is None or piece.low < piece.high]
    return wide or result[:1]


def told(answer: Answer) -> str:
    """Why there is no range at an answer."""
    if answer.stop is not None:
        from .. import messages

        return messages.stop(answer.stop).sentence
    return f"the problem is {answer.status} there"
