"""What stands beside and below the lines of a script: what an answer says of constraints and variables."""
from __future__ import annotations

from dataclasses import dataclass, field
from fractions import Fraction
from typing import Optional, Sequence

from .. import messages
from ..reports import Answer, Without
from ..sources import Source
from ..tables import shortened
from ..values import Place
from .asking import Found
from .figures import MOST_SHOWN, entry_text, named, number
from .markup import Markup, Part, el, text
from .sides import Row, rows

MOST_ROWS = 2_000  # of all tables of constraints in one listing
OBJECTIVE = {"minimize": "least objective", "maximize": "greatest objective"}


@dataclass
class Note:
    """What stands beside a line, a paragraph each, and below it; `tone` is `binds` or `way`, where the line is to be
    seen from afar, and `marks` are texts of the line that are marked."""

    beside: list[Part] = field(default_factory=list)
    below: list[Markup] = field(default_factory=list)
    tone: str = ""
    marks: list[str] = field(default_factory=list)
    place: Optional[Place] = None


class Notes(dict):
    """The notes by line, from 1, on what an answer says."""

    def __init__(self, found: Found, answer: Answer):
        super().__init__()
        self.found, self.answer = found, answer
        self.sources = found.tables.sources
        self.values = found.values(answer.index)
        self.irreducible = found.irreducible.get(answer.index)
        self.members = () if self.irreducible is None else self.irreducible.members
        self.left = MOST_ROWS
        if self.sources is None:
            return
        if answer.stop is not None:
            self.stop()
        self.parameters()
        if answer.stop is None:
            self.variables()
            self.objective()
            self.constraints()

    def __missing__(self, line: int) -> Note:
        self[line] = Note()
        return self[line]

    def stop(self) -> None:
        """The stop at the places of the script that it is about."""
        told = messages.stop(self.answer.stop)
        for of, place in self.found.tables.places(self.answer.stop, self.answer.index):
            if of == "script":
                note = self[place.line]
                note.tone, note.place = "way", place
                note.below.append(message(f"Stopped: {self.answer.stop.name}", told))

    def parameters(self) -> None:
        """The parameters' values."""
        for name, source in self.sources.parameters.items():
            if name in self.values:
                self.leaf(name, source, [("", self.values[name])])

    def variables(self) -> None:
        """The point, and the ray beside it."""
        for name, point in self.answer.variables.items():
            arrays = [("", point)]
            if name in self.answer.ray:
                arrays = [(" at the point", point), (" along the ray", self.answer.ray[name])]
            self.leaf(name, self.sources.variables[name], arrays)

    def leaf(self, name: str, source: Source, arrays: Sequence) -> None:
        """A variable or a parameter: a number beside its line, an array below it."""
        note = self[source.place.line]
        for more, values in arrays:
            if not values.shape:
                note.beside.append([el("code", name), more, " = ", number(values.entries[0])])
            else:
                note.below.append(named(name, values, more))

    def objective(self) -> None:
        """The objective's value, or what is shown of it."""
        answer, sense = self.answer, self.sources.sense
        if answer.value is not None:
            told: Part = [OBJECTIVE[sense], " ", el("strong", number(answer.value))]
        elif answer.slope is not None:
            goes = "falls" if sense == "minimize" else "rises"
            told = [f"{goes} for ever: ", number(answer.bound), " at the point, "]
            told += [number(answer.slope), " for each step along the ray"]
        elif answer.gap is not None:
            told = ["no point; gap ", el("strong", number(answer.gap))]
        else:
            return
        self[self.sources.objective.place.line].beside.insert(0, told)

    # Constraints

    def constraints(self) -> None:
        """Each constraint at its line, with the turns of the loops that made it."""
        if self.answer.status == "infeasible" and not self.answer.duals and not self.members:
            return
        by_line: dict[int, list[int]] = {}
        for number_of, source in self.sources.constraints.items():
            by_line.setdefault(source.place.line, []).append(number_of)
        all_rows = rows(self.sources, self.answer, self.values)
        for line, numbers in by_line.items():
            self.group(self[line], [(of, all_rows[of]) for of in numbers])

    def group(self, note: Note, group: list[tuple[int, list[Row]]]) -> None:
        """The constraints of one line."""
        flat = [row for _, entries in group for row in entries]
        members = [of for of, _ in group if of in self.members]
        binding = [row for row in flat if row.binds]
        if members:
            note.tone = "way"
            note.marks.extend(self.sources.constraints[of].text for of in members)
        elif binding and not note.tone:
            note.tone = "binds"
        if len(flat) == 1 and not flat[0].entry and not self.sources.shapes[group[0][0]]:
            note.beside.append(self.single(flat[0]))
        else:
            note.beside.append(self.counted(group, flat, members, binding))
            note.below.append(self.table(group, flat))
        note.below.extend(self.without(of) for of in members)

    def single(self, row: Row) -> Markup:
        """A constraint of one entry that stands on its line alone."""
        parts = [state_mark(row, row.constraint in self.members)]
        if row.slack:
            parts.append(el("span", "slack ", number(row.slack)))
        if row.multiplier is not None:
            parts.append(el("span", "multiplier ", number(row.multiplier), class_=None if row.multiplier else "quiet"))
        return spaced(parts)

    def counted(self, group: list, flat: list[Row], members: list[int], binding: list[Row]) -> Part:
        """How many constraints of a line there are, and how many of them bind."""
        what = "constraints" if len(group) > 1 else "entries"
        counts = [f"{len(flat)} {what if len(group) == len(flat) or len(group) == 1 else 'entries'}"]
        inequalities = [row for row in flat if not row.is_equality]
        if members:
            counts.append(el("b", f"{len(members)} in the way" if len(group) > 1 else "in the way", class_="mark"))
        elif inequalities and flat[0].slack is not None:
            counts.append(el("b", f"{len(binding)} bind", class_="mark") if binding else "none binds")
        elif not inequalities:
            counts.append("equalities" if what == "constraints" else "equality")
        return spaced(counts)

    def table(self, group: list[tuple[int, list[Row]]], flat: list[Row]) -> Markup:
        """The constraints of one line, a row for each entry."""
        sources = [self.sources.constraints[of] for of, _ in group]
        has_text = len({source.text for source in sources}) > 1
        has_turn = any(source.turn for source in sources)
        shown, left_out = flat, 0
        if len(flat) > self.left:
            telling = [row for row in flat if row.multiplier or row.binds or row.constraint in self.members]
            shown = telling[: max(self.left, MOST_SHOWN)]
            left_out = len(flat) - len(shown)
        self.left = max(0, self.left - len(shown))
        has_entry = any(self.sources.shapes[of] for of, _ in group)
        has_slack = any(row.slack is not None and not row.is_equality for row in flat)
        has_state = any(row.binds or row.constraint in self.members for row in flat)
        has_multiplier = any(row.multiplier is not None for row in flat)
        heads = [("constraint", has_text), ("turn", has_turn), ("entry", has_entry), ("slack", has_slack)]
        heads += [("multiplier", has_multiplier), ("", has_state)]
        body = []
        for row in shown:
            source = self.sources.constraints[row.constraint]
            cells = [
                (el("td", el("code", shortened(source.text))), has_text),
                (el("td", turn(source)), has_turn),
                (el("td", entry_text(self.sources.shapes[row.constraint], row.entry)), has_entry),
                (cell(row.slack), has_slack),
                (cell(row.multiplier), has_multiplier),
                (el("td", state_mark(row, row.constraint in self.members)), has_state),
            ]
            is_idle = row.slack and not row.multiplier
            body.append(el("tr", [one for one, is_there in cells if is_there], class_="idle" if is_idle else None))
        columns = [el("th", head, scope="col") if head else el("td") for head, is_there in heads if is_there]
        table = el("table", el("thead", el("tr", columns)), el("tbody", body), class_="rows")
        lines = ", ".join(dict.fromkeys(str(source.place.line) for source in sources))
        inner = el("div", table, class_="wide", tabindex=0, role="region", aria_label=f"constraints of line {lines}")
        told = f"{left_out} entries that neither bind nor have a multiplier, or are too many, are left out here."
        more = el("p", told, class_="quiet") if left_out else None
        if len(shown) > MOST_SHOWN:
            return el("details", el("summary", f"{len(flat)} entries"), inner, more)
        return el("div", inner, more) if left_out else inner

    def without(self, member: int) -> Markup:
        """A point that keeps all the others of those in the way."""
        point: Without = next(one for one in self.irreducible.without if one.constraint == member)
        source = self.sources.constraints[member]
        label = ["Without ", el("code", shortened(source.text)), " ", turn(source), " the others can be kept"]
        arrays = [named(name, array) for name, array in point.variables.items()]
        return el("details", el("summary", label), arrays, class_="aside")


def spaced(parts: Sequence[Part]) -> Markup:
    """Parts with a point between two."""
    joined: list[Part] = []
    for part in filter(None, parts):
        joined += [Markup(" <i>·</i> "), part] if joined else [part]
    return text(joined)


def state_mark(row: Row, is_member: bool) -> Markup:
    """In a word how a constraint stands."""
    if is_member:
        return el("b", "in the way", class_="mark")
    if row.binds:
        return el("b", "binds", class_="mark")
    return el("span", "equality", class_="quiet") if row.is_equality else Markup("")


def cell(value: Optional[Fraction]) -> Markup:
    """A cell with a number."""
    return el("td", None if value is None else number(value), class_="num")


def turn(source: Source) -> Markup:
    """The values of the loops around it."""
    return text(", ".join(f"{name} = {value}" for name, value in source.turn))


def message(head: str, told: messages.Message) -> Markup:
    """What is wrong, in a sentence, and what to do."""
    advice = el("p", told.advice) if told.advice else None
    return el("div", el("p", el("b", head)), el("p", told.sentence), advice, class_="message", role="note")
