"""The forms of the report's lines: words and fields apart by one blank, each form read and written from one template.

A template is the line with a field's name in braces where its value stands. What kind of value a field has stands in
`KINDS`, once for all lines.
"""
from __future__ import annotations

from dataclasses import dataclass
from fractions import Fraction
from typing import Optional

from .exact.faults import REFUSALS, STOPS
from .values import KINDS, Misread, Place, read_count


@dataclass(frozen=True)
class Detail:
    """What a refusal, a stop or a fault of a certificate carries. A field that it doesn't carry is None.

    Places count from 1. Entries, rows, columns, parameters, variables, constraints and nodes of a problem count from 0,
    row by row; steps of `iis` are the numbers of constraints, from 1 on, and 0 where all are there; nodes of branch and
    bound count from 1.
    """

    what: Optional[str] = None  # of 18: nodes, entries, items, steps or events
    count: Optional[int] = None  # of 18 what was counted; of 27 and 32 the limit
    rule: Optional[str] = None  # of 19: composition, minimize, maximize, equal or at_most
    reason: Optional[str] = None  # of 35: unknown, shape, map or coefficient
    name: Optional[str] = None  # of a parameter
    declared: Optional[tuple[int, ...]] = None  # the parameter's shape
    given: Optional[tuple[int, ...]] = None  # the value's shape
    where: Optional[str] = None  # of 26: entry, row, map, pivot or answer
    place: Optional[Place] = None  # of an expression
    entry: Optional[int] = None
    value: Optional[Fraction] = None
    row: Optional[int] = None  # of the reduced program
    column: Optional[int] = None
    pivots: Optional[int] = None  # how many were done
    rows: Optional[int] = None  # of 28: how many the program would have
    columns: Optional[int] = None
    op: Optional[str] = None  # the operation that passes 128 bits: add, sub, mul, div or lcm
    left: Optional[Fraction] = None  # its operands; of a fault also what stands on both sides
    right: Optional[Fraction] = None
    node: Optional[int] = None  # of branch and bound; of a fault that of an expression
    step: Optional[int] = None  # of 37
    stop: Optional[Stop] = None  # of 33 and 37: the stop of the node or the step; of the fault Fit that of the setting
    line: Optional[int] = None  # of the fault Form
    parameter: Optional[int] = None
    variable: Optional[int] = None
    constraint: Optional[int] = None
    stated: Optional[Fraction] = None  # what the certificate says
    found: Optional[Fraction] = None  # what the check forms

    def fields(self) -> dict[str, object]:
        """The fields that are carried, by name."""
        return {name: value for name, value in vars(self).items() if value is not None}


@dataclass(frozen=True)
class Stop:
    """Why a setting has no answer."""

    number: int
    detail: Detail = Detail()

    @property
    def name(self) -> str:
        """The name, as `PivotLimit`."""
        return STOPS[self.number]

    @property
    def text(self) -> str:
        """What stands behind `stopped`: number, name and what is carried."""
        return filled(f"{self.number} {self.name}", STOP_FORMS[self.number], self.detail)


@dataclass(frozen=True)
class Refusal:
    """Why a script, a settings file or the file of a certificate isn't taken, and where."""

    of: str
    number: int
    line: int
    column: int
    detail: Detail = Detail()

    @property
    def name(self) -> str:
        """The name, as `NotDcp`."""
        return REFUSALS[self.number]

    @property
    def text(self) -> str:
        """The line of the report, without its end."""
        head = f"refused {self.of} {self.number} {self.name} at {self.line}:{self.column}"
        return filled(head, REFUSAL_FORMS.get(self.number, ("",)), self.detail)


@dataclass(frozen=True)
class Fault:
    """Why a certificate isn't taken: the section, 0 where the text is none, the name of the check that fails and its
    numbers.
    """

    section: int
    name: str
    detail: Detail = Detail()

    @property
    def text(self) -> str:
        """The line of the report, without its end."""
        head = f"certificate refused section {self.section} {self.name}"
        if self.detail.stop is not None:
            return f"{head} {self.detail.stop.number} {self.detail.stop.name}"
        return filled(head, FAULT_FORMS[self.name], self.detail)


# Forms


def fields_of(template: str, words: list[str]) -> Optional[dict[str, object]]:
    """The fields of a line that is split at its blanks, or None where it hasn't the template's words."""
    pieces = template.split()
    if len(pieces) != len(words):
        return None
    fields = {}
    for piece, word in zip(pieces, words):
        if piece[0] != "{":
            if piece != word:
                return None
        else:
            fields[piece[1:-1]] = KINDS[piece[1:-1]][0](word)
    return fields


def read_line(template: str, line: str) -> dict[str, object]:
    """The fields of a line, which must be of the template's form."""
    fields = fields_of(template, line.split(" "))
    if fields is None:
        raise Misread(f"{template!r}, and not {line!r}")
    return fields


def written(template: str, fields: dict[str, object]) -> str:
    """The line of a form with these fields."""

    def word(piece: str) -> str:
        if piece[0] != "{":
            return piece
        name = piece[1:-1]
        return KINDS[name][1](fields[name])

    return " ".join(word(piece) for piece in template.split())


PASSES = "{op} {left} {right}"
REFUSAL_FORMS = {18: ("{what} {count}",), 19: ("rule {rule}",), 20: (PASSES,), 35: ("{reason}",)}
# What a stop carries; of 26 the word that tells where is the first one, or `at` of an entry.
WIDE_FORMS = {
    "entry": "at {place} entry {entry} " + PASSES,
    "row": "row {row} " + PASSES,
    "map": "map {row} " + PASSES,
    "pivot": "pivot {pivots} row {row} column {column}",
    "answer": "answer {row} " + PASSES,
}
STOP_FORMS = {
    21: ("{name}",),
    22: ("{name}",),
    23: ("{name} {declared} {given}",),
    24: ("{name} entry {entry} value {value}",),
    25: ("at {place} entry {entry}",),
    26: WIDE_FORMS,
    27: ("{count}",),
    28: ("rows {rows} columns {columns}",),
    30: ("",),
    31: ("",),
    32: ("{count}",),
    33: ("node {node}",),
    36: (PASSES,),
    37: ("step {step}",),
}
INNER_STOPS = {33: (26, 27, 28), 37: (26, 27)}
FAULT_FORMS = {
    "Form": ("{line}",),
    "Fit": ("",),
    "Setting": ("{parameter} {entry} {stated} {found}",),
    "Domain": ("{variable} {entry} {value}",),
    "Constraint": ("{constraint} {entry} {left} {right}",),
    "Value": ("{stated} {found}",),
    "DualSign": ("{constraint} {entry} {value}",),
    "Gap": ("{value}",),
    "Slope": ("{node} {entry} {left} {right}",),
    "Variable": ("{variable} {entry} {value}",),
    "Bound": ("{stated} {found}",),
    "Descent": ("{value}",),
    "RayDomain": ("{variable} {entry} {value}",),
    "RayConstraint": ("{constraint} {entry} {left} {right}",),
    "RayValue": ("{stated} {found}",),
    "Wide": (PASSES,),
}
FIT_STOPS = (21, 22, 23, 24, 25)


def filled(head: str, forms, detail: Detail) -> str:
    """The head with what is carried behind it, and the stop that stands behind that."""
    template = forms[detail.where] if isinstance(forms, dict) else forms[0]
    parts = [head, written(template, vars(detail))]
    if detail.stop is not None:
        parts.append(detail.stop.text)
    return " ".join(part for part in parts if part)


def read_detail(forms, words: list[str]) -> Detail:
    """What is carried, of one of these forms."""
    for where, template in forms.items() if isinstance(forms, dict) else [(None, forms[0])]:
        fields = fields_of(template, words)
        if fields is not None:
            return Detail(where=where, **fields)
    raise Misread(f"what is carried, and not {' '.join(words)!r}")


def read_head(words: list[str], names: dict[int, str]) -> int:
    """The number that the words begin with, behind which its name stands."""
    number = read_count(words[0]) if words else 0
    if len(words) < 2 or names.get(number) != words[1]:
        raise Misread(f"a number with its name, and not {' '.join(words)!r}")
    return number


def read_stop(words: list[str], among: Optional[tuple[int, ...]] = None) -> Stop:
    """The stop of these words: number, name and what is carried."""
    number = read_head(words, STOPS)
    if among is not None and number not in among:
        raise Misread(f"another stop than {number}")
    if number not in INNER_STOPS:
        return Stop(number, read_detail(STOP_FORMS[number], words[2:]))
    detail = read_detail(STOP_FORMS[number], words[2:4])
    inner = read_stop(words[4:], INNER_STOPS[number])
    return Stop(number, Detail(stop=inner, **detail.fields()))


def read_refusal(line: str) -> Refusal:
    """The refusal of a line."""
    words = line.split(" ")
    number = read_head(words[2:], REFUSALS)
    place = read_line("refused {of} {number} {name} at {place}", " ".join(words[:6]))
    detail = read_detail(REFUSAL_FORMS.get(number, ("",)), words[6:])
    return Refusal(place["of"], number, *place["place"], detail)


def read_fault(line: str) -> Fault:
    """The fault of a certificate, of a line that begins with `certificate refused`."""
    words = line.split(" ")
    section = read_line("certificate refused section {section} {name}", " ".join(words[:5]))
    number, name = section["section"], section["name"]
    if name not in FAULT_FORMS or (number == 0) != (name == "Form"):
        raise Misread(f"a fault of a section, and not {line!r}")
    if name != "Fit":
        return Fault(number, name, read_detail(FAULT_FORMS[name], words[5:]))
    stop = read_head(words[5:], STOPS)
    if stop not in FIT_STOPS or len(words) != 7:
        raise Misread(f"a stop of a setting that doesn't fit, and not {line!r}")
    return Fault(number, name, Detail(stop=Stop(stop)))
