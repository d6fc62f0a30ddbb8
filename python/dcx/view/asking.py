"""What the program is asked for a page: the answers, constraints in the way, a certificate and its check, ranges."""
from __future__ import annotations

import hashlib
from dataclasses import dataclass, field, replace
from fractions import Fraction
from pathlib import Path
from typing import Callable, Optional, Sequence

from .. import program
from ..reports import Answer, Report, Section, read_report
from ..tables import Tables, is_of
from ..values import Entries, number_text
from .course import Course, Follower
from .irreducible import shown

MOST_IRREDUCIBLE = 100  # settings without a point for which constraints in the way are sought
MOST_NARROWED = 5  # of these for which multipliers of their own are sought


@dataclass
class Found:
    """What is shown on a page.

    `names` are those of the script's file and the settings' file; `tables` reads both. `status` is the program's.
    `irreducible` has what `iis` answers, by the number of the setting; the numbers in `narrowed` are those of settings
    whose answer has the multipliers of these constraints alone. `settings` is the text with which the certificate
    goes, `certificate` its text, `shown` which answer each of its sections is of, and `certified` what the check said.
    `whole` is set where some variable is to be whole. `refused_range` says why a parameter has no course.
    """

    script: bytes
    given: Optional[bytes]
    names: tuple[str, str]
    tables: Tables
    report: Report
    status: int
    checksum: str
    whole: bool = False
    irreducible: dict[int, Answer] = field(default_factory=dict)
    narrowed: set[int] = field(default_factory=set)
    settings: str = ""
    certificate: Optional[str] = None
    shown: tuple[int, ...] = ()
    certified: Optional[str] = None
    course: Optional[Course] = None
    course_of: int = 1
    refused_range: Optional[str] = None

    @property
    def answers(self) -> tuple[Answer, ...]:
        """The answers, of the solves or the settings."""
        return self.report.answers

    def values(self, index: int) -> dict[str, Entries]:
        """The parameters' values at an answer, as far as they are known."""
        return values_at(self.tables, self.given is not None, index)


def values_at(tables: Tables, is_resolved: bool, index: int) -> dict[str, Entries]:
    """The parameters' values at a solve, from 1, or at a setting, which is laid over those at the script's end."""
    sources = tables.sources
    if sources is None:
        return {}
    if not is_resolved:
        return sources.values[index - 1] if index <= len(sources.values) else {}
    setting = tables.setting(index)
    return {} if setting is None else {**sources.last, **setting.values}


def found(
    script: bytes,
    settings: Optional[bytes] = None,
    names: tuple[str, str] = ("script", "settings"),
    options: Sequence[str] = (),
    parameter: Optional[str] = None,
    chosen: int = 1,
    answered: Optional[tuple[Report, int]] = None,
) -> Found:
    """What the program answers to a script, and to its settings where there are any.

    With a `parameter` its ranges are followed, from its value at the answer that is `chosen`. `answered` is the report
    and the status where the program was asked already. Raises `ProgramError` where it can't be asked; a report that is
    neither answers nor a refusal is handed back as it is.
    """
    if answered is None:
        word, files = ("solve", [script]) if settings is None else ("resolve", [script, settings])
        run = program.run(word, *files, options=options)
        answered = read_report(run.report), run.status
    report, status = answered
    tables = Tables(script, settings, names)
    result = Found(script, settings, names, tables, report, status, checksum())
    if report.kind != "solved" or tables.sources is None:
        return result
    if not all(is_of(answer, tables.sources) for answer in report.answers):
        raise ValueError("the report is one of another script")
    result.whole = any(answer.whole for answer in report.answers) or has_whole(tables.sources.problem)
    plain = [option for option in options if option != "--warm"]
    if not result.whole:
        result.irreducible = irreducible(result, plain)
        certify(result, plain)
        narrow(result)
    if parameter is not None:
        follow(result, parameter, min(chosen, len(report.answers)), plain)
    return result


def has_whole(problem: object) -> bool:
    """Whether some variable is to be whole."""
    return any(problem.nodes[node].call[3] for _, node in problem.variables)


def checksum() -> str:
    """The SHA-256 of the program that is asked."""
    return hashlib.sha256(Path(program.find()).read_bytes()).hexdigest()


def line_of(values: dict[str, Entries]) -> str:
    """A line of settings, with its end, that gives parameters these values."""

    def row(entries: Sequence[Fraction]) -> str:
        return f"[{', '.join(map(number_text, entries))}]"

    items = []
    for name, array in values.items():
        if not array.shape:
            items.append(f"{name} = {number_text(array.entries[0])}")
        elif len(array.shape) == 1:
            items.append(f"{name} = {row(array.entries)}")
        else:
            width = array.shape[1]
            rows = [row(array.entries[at : at + width]) for at in range(0, len(array.entries), width)]
            items.append(f"{name} = [{', '.join(rows)}]")
    return ("; ".join(items) or "{}") + "\n"


def irreducible(result: Found, options: Sequence[str]) -> dict[int, Answer]:
    """The constraints in the way at the answers that have no point, by the number of the answer."""
    asked = [answer.index for answer in result.answers if answer.status == "infeasible"][:MOST_IRREDUCIBLE]
    if not asked:
        return {}
    lines = "".join(line_of(result.values(index)) for index in asked)
    report = read_report(program.run("iis", result.script, lines, options=options).report)
    if len(report.answers) != len(asked):
        return {}
    return dict(zip(asked, report.answers))


def narrow(result: Found) -> None:
    """Puts the multipliers of the constraints in the way in place of those of all constraints."""
    answers = list(result.answers)
    for index, filtered in list(result.irreducible.items())[:MOST_NARROWED]:
        values = result.values(index)
        one = shown(result.script, result.tables.sources, line_of(values), values, answers[index - 1], filtered.members)
        if one is not None:
            answers[index - 1] = one
            result.narrowed.add(index)
    result.report = replace(result.report, answers=tuple(answers))


def certify(result: Found, options: Sequence[str]) -> None:
    """Lets the program write a certificate of the answers, and check it."""
    answered = tuple(answer.index for answer in result.answers if answer.stop is None)
    if not answered:
        return
    if result.given is not None:
        result.settings, result.shown = result.given.decode(), tuple(answer.index for answer in result.answers)
    else:
        result.settings, result.shown = "".join(line_of(result.values(index)) for index in answered), answered
    run = program.run("certificate", result.script, result.settings, options=options)
    if read_report(run.report).form is None:
        return
    result.certificate = run.report.decode()
    check = program.run("certify", result.script, result.settings, result.certificate)
    result.certified = check.report.decode().strip()


def follow(result: Found, parameter: str, chosen: int, options: Sequence[str]) -> None:
    """Follows the ranges of a parameter, from its value at an answer."""
    values = result.values(chosen)
    run = program.run("range", result.script, line_of(values), options=[parameter, *options])
    report = read_report(run.report)
    if report.refusal is not None:
        from .. import messages

        result.refused_range = " ".join(messages.refusal(report.refusal))
        return
    if parameter not in values:
        result.refused_range = f"The parameter {parameter} has no value to begin at."
        return
    sections = section_of(result.script, values, parameter, options)
    asked = answer_of(result.script, values, parameter, options)
    result.course = Follower(parameter, result.tables.sources, values, asked, sections).follow()
    result.course_of = chosen


def answer_of(script: bytes, values: dict, parameter: str, options: Sequence[str]) -> Callable[[Fraction], Answer]:
    """The program's answer of `range` at a value of the parameter."""

    def ask(place: Fraction) -> Answer:
        line = line_of({**values, parameter: Entries((), (place,))})
        return read_report(program.run("range", script, line, options=[parameter, *options]).report).answers[0]

    return ask


def section_of(
    script: bytes, values: dict, parameter: str, options: Sequence[str]
) -> Callable[[Fraction], Optional[Section]]:
    """The section of a certificate at a value of the parameter."""

    def ask(place: Fraction) -> Optional[Section]:
        line = line_of({**values, parameter: Entries((), (place,))})
        sections = read_report(program.run("certificate", script, line, options=options).report).sections
        return sections[0] if sections else None

    return ask
