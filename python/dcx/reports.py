"""Reads what the program prints, of each of its words, into objects, and writes these as the same bytes again.

The form of each line is in docs/FORMATS.md and, of certificates, in docs/CERTIFICATES.md. The reader is strict: what
the program can't have printed is refused with its line, as far as a report shows that without its script.
"""
from __future__ import annotations

from dataclasses import dataclass, field
from fractions import Fraction
from typing import Optional, Union

from .exact.report import USAGE
from .lines import Fault, Refusal, Stop, written
from .shown.intervals import Interval
from .values import Entries, Misread, array_line, end_text, number_text

WORDS_ALONE = {"usage": USAGE.rstrip("\n"), "fault": "fault read", "memory": "want of memory"}
OBJECTIVE = "objective {sense} sign {sign} curvature {curvature}"
DPP = "dpp {dpp}"


class ReportError(ValueError):
    """Bytes that are no report, with the line, from 1, up to which no report begins with them."""

    def __init__(self, line: int, cause: str):
        super().__init__(f"no report: line {line}: {cause}")
        self.line = line
        self.cause = cause


@dataclass(frozen=True)
class Verdict:
    """What `check` finds of a problem that the rules accept.

    Entries are those of all variables, parameters or constraints together.
    """

    sense: str
    sign: str
    curvature: str
    dpp: bool
    variables: int
    variable_entries: int
    parameters: int
    parameter_entries: int
    constraints: int
    constraint_entries: int

    def lines(self) -> list[str]:
        """The lines behind `accepted`."""
        return [
            written(OBJECTIVE, vars(self)),
            written(DPP, vars(self)),
            f"variables {self.variables} entries {self.variable_entries}",
            f"parameters {self.parameters} entries {self.parameter_entries}",
            f"constraints {self.constraints} entries {self.constraint_entries}",
        ]


@dataclass(frozen=True)
class Without:
    """A constraint of those that no point keeps together, and a point that keeps all the others of them."""

    constraint: int
    variables: dict[str, Entries]


@dataclass(frozen=True)
class Range:
    """How far a parameter may move, None where that is without end, and the value of the objective there: `value` +
    `slope` times the parameter.
    """

    name: str
    low: Optional[Fraction]
    high: Optional[Fraction]
    value: Fraction
    slope: Fraction


@dataclass(frozen=True)
class Answer:
    """How one solve or one setting ends.

    `word` is `solve` or `setting`, `index` counts from 1. `status` is `optimal`, `infeasible`, `unbounded` or
    `stopped`; under `iis` also `feasible`, under `range` `range`. `whole` is set where the answer is one in whole
    numbers, with the number of its `nodes`. Value and bound are those of the script's own objective, `duals` the
    multipliers of the constraints, by number from 1. `members` are the numbers of constraints that no point keeps
    together, and `without` a point for each of them. What an answer of this status doesn't have is None, or empty.

    No report has `shown_by` and `interval`, which tell on what an answer stands: they are set where the exact solver
    was asked behind a stop (see `dcx.shown`). The status is `optimal_inaccurate` then where an interval is shown.
    """

    word: str
    index: int
    status: str
    whole: bool = False
    nodes: Optional[int] = None
    value: Optional[Fraction] = None
    gap: Optional[Fraction] = None
    bound: Optional[Fraction] = None
    slope: Optional[Fraction] = None
    variables: dict[str, Entries] = field(default_factory=dict)
    ray: dict[str, Entries] = field(default_factory=dict)
    duals: dict[int, Entries] = field(default_factory=dict)
    stop: Optional[Stop] = None
    members: tuple[int, ...] = ()
    without: tuple[Without, ...] = ()
    range: Optional[Range] = None
    shown_by: Optional[str] = None
    interval: Optional[Interval] = None

    def lines(self) -> list[str]:
        """The lines of the report."""
        head = f"{self.word} {self.index}"
        if self.stop is not None:
            return [f"{head} stopped {self.stop.text}"]
        if self.range is not None:
            r = self.range
            course = f"value {number_text(r.value)} slope {number_text(r.slope)}"
            return [f"{head} range {r.name} from {end_text(r.low)} to {end_text(r.high)} {course}"]
        if self.members:
            lines = [f"{head} {self.status} constraints {' '.join(str(member) for member in self.members)}"]
            for without in self.without:
                lines.append(f"without {without.constraint}")
                lines.extend(array_line("var", name, array) for name, array in without.variables.items())
            return lines
        lines = [f"{head} whole {self.status}" if self.whole else f"{head} {self.status}", *numbers_of(self)]
        lines.extend(arrays_of(self))
        if self.whole:
            lines.append(f"nodes {self.nodes}")
        return lines


@dataclass(frozen=True)
class Section:
    """What a certificate has for one setting.

    Value and bound are those of the minimized objective, also where the script's is maximized. `params` are the
    setting's values, in the newer of the two formats; `weights` are those of atoms, by number of the node, from 0.
    """

    index: int
    status: str
    value: Optional[Fraction] = None
    gap: Optional[Fraction] = None
    bound: Optional[Fraction] = None
    slope: Optional[Fraction] = None
    params: dict[str, Entries] = field(default_factory=dict)
    variables: dict[str, Entries] = field(default_factory=dict)
    ray: dict[str, Entries] = field(default_factory=dict)
    duals: dict[int, Entries] = field(default_factory=dict)
    weights: dict[int, tuple[Fraction, ...]] = field(default_factory=dict)

    def lines(self) -> list[str]:
        """The lines of the certificate, from `section` to `end`."""
        lines = [f"section {self.index} {self.status}"]
        lines.extend(array_line("param", name, array) for name, array in self.params.items())
        lines.extend(numbers_of(self))
        lines.extend(arrays_of(self))
        lines.extend(" ".join([f"node {node} =", *map(number_text, weights)]) for node, weights in self.weights.items())
        return [*lines, "end"]


def numbers_of(answer: Union[Answer, Section]) -> list[str]:
    """The lines of value, gap, bound and slope."""
    named = [(word, getattr(answer, word)) for word in ("value", "gap", "bound", "slope")]
    return [f"{word} {number_text(value)}" for word, value in named if value is not None]


def arrays_of(answer: Union[Answer, Section]) -> list[str]:
    """The lines of point, ray and multipliers."""
    groups = (("var", answer.variables), ("ray", answer.ray), ("dual", answer.duals))
    return [array_line(word, name, array) for word, arrays in groups for name, array in arrays.items()]


@dataclass(frozen=True)
class Report:
    """A report, of any of the words. What a report of its kind doesn't have is None, or empty.

    `kind` is `usage`, `refused`, `fault` (a file could not be read), `memory`, `check`, `solved` (of `solve` and
    `resolve`), `iis`, `range`, `trial`, `certificate`, `certified` or `certificate refused`. Reports of `resolve`,
    `iis` and `range` in which each setting is stopped may look alike, and then are `solved`. `answered` and `stopped`
    count settings, `warm` those that were answered from an earlier answer, under `--warm`. `certified` is the number of
    sections that show an answer; `form` the format of a certificate; `size` that of a trial.
    """

    kind: str
    refusal: Optional[Refusal] = None
    verdict: Optional[Verdict] = None
    answers: tuple[Answer, ...] = ()
    answered: Optional[int] = None
    stopped: Optional[int] = None
    warm: Optional[int] = None
    form: Optional[int] = None
    sections: tuple[Section, ...] = ()
    certified: Optional[int] = None
    fault: Optional[Fault] = None
    size: Optional[int] = None

    def lines(self) -> list[str]:
        """The lines, without their ends."""
        if self.kind in WORDS_ALONE:
            return [WORDS_ALONE[self.kind]]
        if self.refusal is not None:
            return [self.refusal.text]
        if self.fault is not None:
            return [self.fault.text]
        if self.certified is not None:
            return [f"certified {self.certified}"]
        if self.verdict is not None:
            return ["accepted", *self.verdict.lines()]
        if self.form is not None:
            return [f"certificate {self.form}", *(line for section in self.sections for line in section.lines())]
        lines = [] if self.size is None else [f"trial {self.size}"]
        for answer in self.answers:
            # A trial tells an answer on one line.
            lines.extend(answer.lines() if self.size is None else [" ".join(answer.lines())])
        lines.append(f"answered {self.answered} stopped {self.stopped}")
        return lines if self.warm is None else [*lines, f"warm {self.warm}"]

    @property
    def text(self) -> str:
        """The report as the program prints it, written from what was read."""
        return "".join(f"{line}\n" for line in self.lines())

    def __bytes__(self) -> bytes:
        return self.text.encode()

    def to_json(self) -> str:
        """The report as JSON: numbers as fractions, with decimals beside them."""
        from .exports import report_json

        return report_json(self)

    def to_csv(self) -> str:
        """The report as a table, a row for each number."""
        from .exports import report_csv

        return report_csv(self)


def read_report(report: Union[bytes, str]) -> Report:
    """The report of these bytes, all of them.

    Raises `ReportError`, with the line, for what is no report, or a front of one.
    """
    if isinstance(report, (bytes, bytearray, memoryview)):
        data = bytes(report)
        try:
            text = data.decode("utf-8")
        except UnicodeDecodeError as fault:
            raise ReportError(data.count(b"\n", 0, fault.start) + 1, "it isn't UTF-8") from None
    else:
        text = report
    from .reading import Reader

    lines = text.split("\n")
    if lines.pop() != "" or not lines:
        raise ReportError(len(lines) + 1, "the report breaks off")
    reader = Reader(lines)
    try:
        return reader.report()
    except Misread as fault:
        raise ReportError(reader.at, str(fault)) from None
