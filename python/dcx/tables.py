"""What `python3 -m dcx table` prints.

Answers stand as tables, each multiplier beside the constraint of the script that it is of; refusals and stops with the
line, a caret, their sentence and what to do.
"""
from __future__ import annotations

import textwrap
from fractions import Fraction
from typing import Optional

from . import messages
from .grids import GAP, Look, array_rows, both, joined, named_rows, number_columns, to_left, to_right
from .lines import Refusal, Stop
from .messages import Message
from .reports import Answer, Report
from .shown import PROGRAM, PYTHON
from .sources import Lines, Setting, Source, Sources, printable, read_settings, read_sources
from .statuses import OPTIMAL_INACCURATE
from .values import Entries, Place

LONGEST = 60
# What is told of the objective, by its sense; where that isn't known, the sense is empty.
BEST = {"minimize": "the least objective", "maximize": "the greatest objective", "": "the objective"}
GOES = {"minimize": "falls", "maximize": "rises", "": "goes on"}


class Tables:
    """The tables of the report of a script, and of its settings where there are any.

    The files are given as bytes, with the names under which they are told. With `by_multiplier` constraints stand by
    the magnitude of their multipliers, the greatest first, else in the script's order.
    """

    def __init__(
        self,
        script: bytes,
        settings: Optional[bytes] = None,
        names: tuple[str, str] = ("script", "settings"),
        look: Look = Look(),
        by_multiplier: bool = False,
    ):
        self.files = {"script": Lines(script), "settings": Lines(settings or b"")}
        self.names = dict(zip(("script", "settings"), names))
        self.look = look
        self.by_multiplier = by_multiplier
        self.sources: Optional[Sources] = read_sources(script)
        self.settings: Optional[tuple[Setting, ...]] = None if settings is None else read_settings(settings)

    def text(self, report: Report) -> str:
        """The whole text."""
        if report.refusal is not None:
            return self.joined(self.refusal(report.refusal))
        if report.kind != "solved":
            return report.text
        if self.sources is not None and not all(is_of(answer, self.sources) for answer in report.answers):
            self.sources = None
        blocks = [self.answer(answer, len(report.answers)) for answer in report.answers]
        last = f"answered {report.answered}, stopped {report.stopped}"
        if report.warm is not None:
            last += f", from an earlier answer {report.warm}"
        blocks.append([last])
        return "\n".join(self.joined(block) for block in blocks)

    def joined(self, rows: list[str]) -> str:
        return "".join(f"{row.rstrip()}\n" for row in rows)

    # What is wrong

    def refusal(self, refusal: Refusal) -> list[str]:
        """A refusal, with its place."""
        place = Place(refusal.line, refusal.column)
        of = refusal.of if refusal.of in self.files else "script"
        carried = refusal.text.partition(f" at {refusal.line}:{refusal.column}")[2]
        rows = [self.look.red(f"refused: {refusal.number} {refusal.name}{carried}")]
        return [*rows, *self.marked(of, place), *self.told(messages.refusal(refusal))]

    def stop(self, stop: Stop, index: int) -> list[str]:
        """A stop, with the places that it is about."""
        rows = [self.look.red(f"stopped: {stop.text}")]
        for of, place in self.places(stop, index):
            rows.extend(self.marked(of, place))
        rows.extend(self.told(messages.stop(stop)))
        return rows

    def places(self, stop: Stop, index: int) -> list[tuple[str, Place]]:
        """The places that a stop is about: an expression, a name in the setting and its declaration, a constraint."""
        detail = stop.detail
        if detail.stop is not None:
            return [] if stop.number == 37 else self.places(detail.stop, index)
        if detail.place is not None:
            return [("script", detail.place)]
        found = []
        if detail.name is not None:
            setting = self.setting(index)
            if setting is not None:
                found.append(("settings", setting.names.get(detail.name, setting.place)))
            if self.sources is not None and detail.name in self.sources.parameters:
                found.append(("script", self.sources.parameters[detail.name].place))
        if detail.where in ("row", "map", "answer") and self.sources is not None:
            row = self.sources.of_row(detail.row)
            if row is not None:
                found.append(("script", self.sources.constraints[row[0]].place))
        return found

    def marked(self, of: str, place: Place) -> list[str]:
        """The line of a file with its name and number, and a caret below the place."""
        lines = self.files[of]
        if not lines.text(place.line).strip():
            return [f"{self.names[of]}:{place.line}:{place.column}"]
        return [
            f"{self.names[of]}:{place.line}:{place.column}",
            GAP + lines.text(place.line),
            GAP + self.look.red(lines.caret(place)),
        ]

    def told(self, message: Message) -> list[str]:
        """The sentence, and what to do."""
        return [row for text in message if text for row in textwrap.wrap(text, self.look.width, break_long_words=False)]

    # Answers

    def setting(self, index: int) -> Optional[Setting]:
        """The setting of an answer, where it is read."""
        return self.settings[index - 1] if self.settings is not None and index <= len(self.settings) else None

    def head(self, answer: Answer, count: int) -> list[str]:
        """Which of how many it is, and what is asked there."""
        setting = self.setting(answer.index)
        if answer.word == "setting":
            asked = "" if setting is None else f": {shortened(printable(' '.join(setting.text.split())))}"
            return [self.look.bold(f"setting {answer.index} of {count}{asked}")]
        if count == 1:
            return []
        solves = () if self.sources is None else self.sources.solves
        if len(solves) < answer.index:
            return [self.look.bold(f"solve {answer.index} of {count}")]
        source = solves[answer.index - 1]
        return [self.look.bold(f"solve {answer.index} of {count}, line {source.place.line}{turn_text(source)}")]

    def answer(self, answer: Answer, count: int) -> list[str]:
        """The rows of a solve or a setting."""
        rows = self.head(answer, count)
        if answer.stop is not None:
            return rows + self.stop(answer.stop, answer.index)
        rows.append(self.look.bold(self.sentence(answer)))
        if answer.shown_by not in (None, PROGRAM):
            rows += self.stands(answer)
        rows += self.parameters(answer)
        rows += self.variables(answer)
        return rows + self.constraints(answer)

    def stands(self, answer: Answer) -> list[str]:
        """On what an answer stands that isn't the program's own."""
        by = "Python alone, which nothing proves" if answer.shown_by == PYTHON else answer.shown_by
        text = f"shown by {by}" if answer.interval is None else f"shown by {by}: the best is {answer.interval}"
        return textwrap.wrap(text, self.look.width, break_long_words=False)

    def sentence(self, answer: Answer) -> str:
        """How it ends, in one sentence."""
        sense = "" if self.sources is None else self.sources.sense
        whole = " in whole numbers" if answer.whole else ""
        nodes = "" if answer.nodes is None else f", shown by {answer.nodes} node" + "s" * (answer.nodes != 1)
        if answer.status == "optimal":
            return f"optimal{whole}: {BEST[sense]} is {self.number(answer.value)}{nodes}"
        if answer.status == OPTIMAL_INACCURATE:
            value = self.number(answer.value)
            return f"nearly optimal: the objective at this point, which keeps the constraints, is {value}"
        if answer.status == "infeasible" and answer.gap is None:
            return f"infeasible{whole}: no point keeps the constraints{nodes}"
        if answer.status == "infeasible":
            return (
                f"infeasible: no point keeps the constraints; left minus right, times these multipliers, is "
                f"{self.number(answer.gap)} or more everywhere, and would be 0 or less there"
            )
        return (
            f"unbounded: the objective {GOES[sense]} for ever, from {self.number(answer.bound)} at the point by "
            f"{self.number(answer.slope)} for each step along the ray"
        )

    def number(self, value: Fraction) -> str:
        return both(value, self.look.digits)

    def parameters(self, answer: Answer) -> list[str]:
        """The parameters' values at a solve of the script."""
        if answer.word != "solve" or self.sources is None or len(self.sources.values) < answer.index:
            return []
        values = self.sources.values[answer.index - 1]
        named = [(name, [array]) for name, array in values.items() if name in self.sources.parameters]
        return self.block("parameters", named_rows(named, self.look)) if named else []

    def variables(self, answer: Answer) -> list[str]:
        """The point, and the ray beside it."""
        if not answer.variables:
            return []
        if not answer.ray:
            named = [(name, [array]) for name, array in answer.variables.items()]
            return self.block("variables", named_rows(named, self.look))
        named = [(name, [array, answer.ray[name]]) for name, array in answer.variables.items()]
        return self.block("variables", named_rows(named, self.look, ("point", "ray")))

    def constraints(self, answer: Answer) -> list[str]:
        """The multipliers, each beside its constraint."""
        if not answer.duals:
            return []
        order = list(answer.duals)
        if self.by_multiplier:
            order.sort(key=lambda number: -max(abs(entry) for entry in answer.duals[number].entries))
        heads = [self.constraint(number) for number in order]
        numbers, places, texts = zip(*heads)
        fronts = to_left(joined([to_right(numbers), to_left(places), to_left(texts)]))
        scalars = [number for number in order if not answer.duals[number].shape]
        columns = number_columns([answer.duals[number].entries[0] for number in scalars], self.look.digits)
        values = dict(zip(scalars, joined(columns)))
        rows = []
        for number, front in zip(order, fronts):
            dual = answer.duals[number]
            if not dual.shape:
                row = f"{front}{GAP}{values[number]}"
                rows.append(row if dual.entries[0] else self.look.dim(row))
            else:
                is_zero = not any(dual.entries)
                inner = ["all 0"] if is_zero else array_rows([dual], self.look, self.look.width - 8)
                rows.append(self.look.dim(f"{front}{GAP}{inner[0]}") if is_zero else front.rstrip())
                rows.extend([] if is_zero else [GAP * 2 + row for row in inner])
        return self.block("constraints and their multipliers", rows)

    def constraint(self, number: int) -> tuple[str, str, str]:
        """The number of a constraint, its line, and its text with the turn of the loops."""
        source = None if self.sources is None else self.sources.constraints.get(number)
        if source is None:
            return str(number), "", ""
        return str(number), f"line {source.place.line}", shortened(source.text) + turn_text(source)

    def block(self, head: str, rows: list[str]) -> list[str]:
        """Rows below a head."""
        return [self.look.bold(head), *(GAP + row for row in rows)]


def is_of(answer: Answer, sources: Sources) -> bool:
    """Whether the answer has the variables and the constraints of this script, as far as it has any."""
    shapes = {number: dual.shape for number, dual in answer.duals.items()}
    names = list(answer.variables)
    return (not shapes or shapes == sources.shapes) and (not names or names == list(sources.variables))


def turn_text(source: Source) -> str:
    """The values of the loops around it."""
    return f"  ({', '.join(f'{name} = {value}' for name, value in source.turn)})" if source.turn else ""


def shortened(text: str, most: int = LONGEST) -> str:
    """A text of so many characters at most; two points stand for what is left out."""
    return text if len(text) <= most else text[: most - 3].rstrip() + " .."
