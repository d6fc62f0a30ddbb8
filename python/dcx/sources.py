"""Where in a script of the language its constraints, variables, parameters, objective and solves stand.

It is found by carrying the script out in Python, with the second reading that `dcx.exact` has. The program prints
constraints by number and variables by name; which lines made them is told here. Settings files are read here too.
"""
from __future__ import annotations

import unicodedata
from dataclasses import dataclass, replace
from fractions import Fraction
from typing import NamedTuple, Optional

from .arrays import size_of
from .exact.elaborate import Script
from .exact.faults import Refused
from .exact.grammar import parse
from .exact.settings import parse_settings
from .exact.tokens import text_of, tokens_of
from .exact.values import List, Text
from .values import Entries, Place, number_text

EDGES = {",", "=", "+=", ":", ";"}
OPENING, CLOSING = {"(", "[", "{"}, {")", "]", "}"}
UNWRITTEN = ("newline", "indent", "dedent", "end")


@dataclass(frozen=True)
class Source:
    """What made a constraint, a variable, a parameter, the objective or a solve.

    `place` counts from 1, columns in bytes; `line` is the text of that line, `text` the expression alone, on one line.
    `turn` has the names and values of the loops around it, as far as these are numbers, texts or lists of numbers.
    """

    place: Place
    line: str
    text: str
    turn: tuple[tuple[str, str], ...] = ()


@dataclass(frozen=True)
class Sources:
    """What made the parts of a script's problem: constraints by number from 1, variables and parameters by name.

    `solves` are the calls of `solve` in the order in which they are carried out, and `values` the parameters' values
    there; a script without a call is solved once, at its end, and has one item in `values` alone. `last` are those at
    the end, over which a setting is laid, and `problem` is what the second reading makes of the script.
    """

    sense: str
    objective: Source
    constraints: dict[int, Source]
    shapes: dict[int, tuple[int, ...]]
    variables: dict[str, Source]
    parameters: dict[str, Source]
    solves: tuple[Source, ...]
    values: tuple[dict[str, Entries], ...]
    last: dict[str, Entries]
    problem: object

    def of_row(self, row: int) -> Optional[tuple[int, int]]:
        """The constraint, from 1, and the entry, from 0, that a row of the reduced program is; None of another row."""
        for number, shape in self.shapes.items():
            if row < size_of(shape):
                return number, row
            row -= size_of(shape)
        return None


class Setting(NamedTuple):
    """A setting of a settings file: its place, its text, the places of its names, and the values that it gives them."""

    place: Place
    text: str
    names: dict[str, Place]
    values: dict[str, Entries]


class Lines:
    """The lines of a file, of any bytes."""

    def __init__(self, data: bytes):
        self.lines = [line[:-1] if line.endswith(b"\r") else line for line in data.split(b"\n")]

    def text(self, number: int) -> str:
        """The text of a line, from 1; an empty one behind the last."""
        return printable(self.lines[number - 1].decode("utf-8", "replace")) if number <= len(self.lines) else ""

    def caret(self, place: Place) -> str:
        """Blanks up to a place of a line, as wide as what stands there, and a caret."""
        line = self.lines[place.line - 1] if place.line <= len(self.lines) else b""
        before = line[: place.column - 1].decode("utf-8", "replace")
        return "".join("\t" if char == "\t" else " " * width(char) for char in before) + "^"


def printable(text: str) -> str:
    """The text with a sign in place of each character that a terminal would take as a command."""
    return "".join(char if char.isprintable() or char == "\t" else "\ufffd" for char in text)


def width(char: str) -> int:
    """How many columns of a terminal a character takes."""
    if unicodedata.combining(char):
        return 0
    return 2 if unicodedata.east_asian_width(char) in "WF" else 1


def read_sources(script: bytes) -> Optional[Sources]:
    """What made the parts of a script's problem, or None where the script is refused."""
    try:
        text = text_of(script)
        tokens = tokens_of(text)
        followed = Followed()
        followed.run(parse(tokens))
        problem, events, last = followed.finish()
    except (Refused, RecursionError):
        return None
    finder = Finder(script, text, tokens)
    constraints = {
        number: finder.source(constraint.place, followed.turns_of.get(id(constraint), ()))
        for number, constraint in enumerate(followed.stated, 1)
    }
    return Sources(
        sense=problem.sense,
        objective=finder.source(problem.objective_place),
        constraints=constraints,
        shapes={number: tuple(constraint.shape) for number, constraint in enumerate(problem.constraints, 1)},
        variables={name: finder.source(problem.nodes[node].place) for name, node in problem.variables},
        parameters={name: finder.source(problem.nodes[node].place) for name, node in problem.parameters},
        solves=tuple(finder.source(place, turn) for place, turn in followed.solves),
        values=tuple({name: entries_of(array) for name, array in event.items()} for event in events),
        last={name: entries_of(array) for name, array in last.items()},
        problem=problem,
    )


def read_settings(settings: bytes) -> Optional[tuple[Setting, ...]]:
    """The settings of a file, or None where the file is refused."""
    try:
        text = text_of(settings)
        values = parse_settings(settings)
        tokens = tokens_of(text, is_settings=True)
    except (Refused, RecursionError):
        return None
    found, first = [], 0
    for at, token in enumerate(tokens):
        if token.kind == "newline":
            part = tokens[first:at]
            names = {one.text: Place(*one.place) for one in part if one.kind == "name"}
            listed = values[len(found)]
            given = {name: Entries(tuple(shape), tuple(map(Fraction, entries))) for name, (shape, entries) in listed}
            found.append(Setting(Place(*part[0].place), text[start_of(part[0]) : part[-1].end], names, given))
            first = at + 1
    return tuple(found)


def entries_of(array: object) -> Entries:
    """An array of the second reading."""
    return Entries(tuple(array.shape), tuple(Fraction(entry) for entry in array.entries))


def start_of(token: object) -> int:
    """Where the token begins in the text."""
    return token.end - len(token.text)


class Followed(Script):
    """A script that is carried out, with the turns of the loops in which constraints and solves are made."""

    def __init__(self):
        super().__init__()
        self.loops: list[str] = []
        self.made: list[object] = []
        self.turns_of: dict[int, tuple[tuple[str, str], ...]] = {}
        self.stated: list[object] = []
        self.solves: list[tuple[tuple[int, int], tuple[tuple[str, str], ...]]] = []

    def line_for(self, place, name, tree, lines):
        self.loops.append(name)
        super().line_for(place, name, tree, lines)
        self.loops.pop()

    def turn(self, name, item, element, place):
        self.loops.append(name)
        value = super().turn(name, item, element, place)
        self.loops.pop()
        return value

    def comparison(self, sign, a, b, place):
        constraint = super().comparison(sign, a, b, place)
        self.made.append(constraint)  # held, so that no other one gets its id
        self.turns_of[id(constraint)] = self.values_of_loops()
        return constraint

    def state(self, objective, constraints):
        self.stated = list(constraints)
        return super().state(objective, constraints)

    def solve(self, place, args):
        result = super().solve(place, args)
        self.solves.append((place, self.values_of_loops()))
        return result

    def values_of_loops(self) -> tuple[tuple[str, str], ...]:
        """The names and values of the loops that go on, the outermost first."""
        values = ((name, value_text(self.names.get(name))) for name in dict.fromkeys(self.loops))
        return tuple((name, text) for name, text in values if text is not None)


def value_text(value: object) -> Optional[str]:
    """A number, a text or a list of numbers as it is written; None of anything else."""
    if isinstance(value, (int, Fraction)) and not isinstance(value, bool):
        return number_text(Fraction(value))
    if isinstance(value, Text):
        return repr(value.text)
    if isinstance(value, List):
        items = [value_text(item) for item in value.items]
        return None if None in items else f"[{', '.join(items)}]"
    return None


class Finder:
    """Finds the expressions around places of a script."""

    def __init__(self, script: bytes, text: str, tokens: list):
        self.lines = Lines(script)
        self.text = text
        self.tokens = [token for token in tokens if token.kind != "indent" and token.kind != "dedent"]
        self.at = {token.place: at for at, token in enumerate(self.tokens) if token.kind not in UNWRITTEN}
        self.known: dict[tuple[int, int], Source] = {}

    def source(self, place: tuple[int, int], turn: tuple[tuple[str, str], ...] = ()) -> Source:
        """What stands at a place, up to the brackets, commas and line ends around it."""
        if place not in self.known:
            at = Place(*place)
            first = self.edge(self.at[place], -1, CLOSING, OPENING)
            last = self.edge(self.at[place], 1, OPENING, CLOSING)
            self.known[place] = Source(at, self.lines.text(at.line), self.between(first, last))
        return replace(self.known[place], turn=turn)

    def between(self, first: int, last: int) -> str:
        """What these tokens say, on one line, with a blank for the blanks, line ends and comments between two."""
        text, end = "", start_of(self.tokens[first])
        for token in self.tokens[first : last + 1]:
            text += " " * (start_of(token) > end) + token.text
            end = token.end
        return printable(text)

    def edge(self, at: int, step: int, deeper: set[str], higher: set[str]) -> int:
        """The last token in this direction that belongs to the expression."""
        depth = 0
        if step > 0 and self.is_sign(at, deeper):
            depth = 1
        while 0 <= at + step < len(self.tokens):
            token = self.tokens[at + step]
            if self.is_sign(at + step, deeper):
                depth += 1
            elif self.is_sign(at + step, higher):
                if depth == 0:
                    break
                depth -= 1
            elif depth == 0 and self.is_edge(token):
                break
            at += step
        return at

    def is_sign(self, at: int, texts: set[str]) -> bool:
        return self.tokens[at].kind == "sign" and self.tokens[at].text in texts

    def is_edge(self, token: object) -> bool:
        """Whether no expression goes over this token outside of brackets."""
        if token.kind in UNWRITTEN:
            return True
        return token.text in EDGES if token.kind == "sign" else token.kind == "keyword" and token.text in ("for", "in")
