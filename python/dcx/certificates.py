"""What else the program answers of a problem at the present values of its parameters: certificates, constraints in
the way, the range of a parameter."""

from __future__ import annotations

from fractions import Fraction
from typing import Any, NamedTuple, Optional, Union

from . import messages, program
from .arguments import pivots
from .errors import DCXError, SolverError
from .refusals import read, stopped
from .reports import Section, read_report
from .results import values_of
from .scripts import Script

__all__ = [
    "Certificate", "CertificateError", "Irreducible", "Shown", "Span", "certificate", "certified", "irreducible", "span"
]


class CertificateError(DCXError):
    """A certificate shows nothing: `fault` has what was found."""

    def __init__(self, reason: str, fault: Any = None):
        super().__init__(reason)
        self.fault = fault


class Shown(NamedTuple):
    """What a certificate shows. `status` is `optimal`, where `value` is the problem's value; `infeasible`, where it
    is None; or `unbounded`, where `value` is the objective at a feasible point from which it goes on for ever."""

    status: str
    value: Optional[Fraction]


class Certificate:
    """Numbers that show what the answer of a problem is, in the text of docs/CERTIFICATES.md.

    `text` is the certificate, `script` and `settings` are the texts that it is one for, and `section` is what it
    says, read.
    """

    def __init__(self, text: str, script: str, settings: str, section: Section, maximized: bool):
        self.text = text
        self.script = script
        self.settings = settings
        self.section = section
        self._maximized = maximized

    def check(self) -> Shown:
        """Lets the program check the certificate, and returns what it shows. Raises `CertificateError` where it shows
        nothing."""
        certified(self.script, self.settings, self.text)
        section = self.section
        number = section.value if section.status == "optimal" else section.bound
        return Shown(section.status, number if number is None or not self._maximized else -number)

    def __str__(self) -> str:
        return self.text

    def __repr__(self) -> str:
        return f"Certificate({self.section.status}, {self.text.count(chr(10))} lines)"


class Irreducible(NamedTuple):
    """Constraints that no point keeps together, and each of which is needed for that: `constraints`, and for each of
    them in `points` a point that keeps all the others of them. Where all constraints can be kept there are none, and
    `point` keeps them.

    A point has the variables' values in fractions, by variable. Constraints that attributes of variables stand for,
    as `bounds`, may be among them; their `site` is the line of the variable.
    """

    constraints: tuple
    points: dict[Any, dict[Any, Any]]
    point: Optional[dict[Any, Any]]


class Span(NamedTuple):
    """How far a parameter may move where the others stay. With the status `optimal` the problem has an optimal point
    at each value p from `low` to `high` (None: without end), and its value there is `value` + `slope` * p. With
    `infeasible` or `unbounded` all else is None."""

    status: str
    low: Optional[Fraction] = None
    high: Optional[Fraction] = None
    value: Optional[Fraction] = None
    slope: Optional[Fraction] = None

    def at(self, number: Union[int, Fraction]) -> Fraction:
        """The problem's value at a value of the parameter. Raises `ValueError` where that is outside of the span."""
        above = self.low is None or self.low <= number
        below = self.high is None or number <= self.high
        if self.status != "optimal" or not (above and below):
            raise ValueError(f"{number} is outside of the span from {self.low} to {self.high}")
        return self.value + self.slope * number


def certified(script: str, settings: str, text: str) -> None:
    """Lets the program check a certificate of a script at one line of settings. Raises `CertificateError`, with the
    line of the fault, where it shows nothing."""
    report = read_report(program.run("certify", script, settings, text).report)
    if report.fault is not None:
        raise CertificateError(f"{report.fault.text}: {' '.join(messages.fault(report.fault))}", report.fault)
    if report.certified != 1:
        raise CertificateError(f"the program doesn't take the certificate: {report.text.strip()}")


def certificate(problem: Any, max_iters: Optional[int] = None) -> Certificate:
    """A certificate of the problem's answer at the parameters' values: the program's, or, where it stops, that of the
    exact solver, which the program has accepted.

    Raises as `Problem.solve`; `UnsupportedError` where variables are to be whole, of which there are no certificates.
    """
    script, settings, run = _run(problem, "certificate", max_iters)
    section = read(run, script).sections[0]
    text = run.report.decode()
    if section.status == "none":
        text = _from_exact_solver(problem, script, settings, max_iters)
        section = read_report(text).sections[0]
    return Certificate(text, script.text, settings, section, problem._maximized)


def irreducible(problem: Any, max_iters: Optional[int] = None) -> Irreducible:
    """The constraints that are in each other's way at the parameters' values.

    Raises as `Problem.solve`; `UnsupportedError` where variables are to be whole.
    """
    script, _, run = _run(problem, "iis", max_iters)
    answer = _answer(run, script)
    if not answer.members:
        return Irreducible((), {}, values_of(script, answer.variables))
    members = tuple(script.constraints[member] for member in answer.members)
    points = (values_of(script, without.variables) for without in answer.without)
    return Irreducible(members, dict(zip(members, points)), None)


def span(problem: Any, parameter: Any, max_iters: Optional[int] = None) -> Span:
    """How far a parameter of the problem, or the one of a name, may move from its present value, and the problem's
    value along its way.

    Raises as `Problem.solve`; `UnsupportedError` where variables are to be whole, the parameter isn't a single
    number, or it multiplies variables; `KeyError` where it is no parameter of the problem.
    """
    script = problem.written
    name = script.names.get(script.leaf("parameter", parameter))
    if name is None:
        raise KeyError(f"{parameter!r} is no parameter that the problem reaches")
    answer = _answer(_run(problem, "range", max_iters, name)[2], script)
    found = answer.range
    return Span(answer.status) if found is None else Span("optimal", found.low, found.high, found.value, found.slope)


def _run(problem: Any, word: str, max_iters: Optional[int], *names: str) -> tuple[Script, str, program.Run]:
    """The script, the line of settings, and what the program says to them."""
    script = problem.written
    settings = script.settings_line()
    return script, settings, program.run(word, script.text, settings, options=[*names, *pivots(max_iters)])


def _answer(run: program.Run, script: Script) -> Any:
    """The one answer of a run. Raises `SolverError` where there is a stop in its place."""
    answer = read(run, script).answers[0]
    if answer.stop is not None:
        raise stopped(answer.stop, script)
    return answer


def _from_exact_solver(problem: Any, script: Script, settings: str, max_iters: Optional[int]) -> str:
    """The text of a certificate where the program has none. Raises the program's stop where there is none either."""
    from .shown import fallback

    error = _without(script, settings, max_iters)
    if not fallback.helps(error.stop, max_iters is not None):
        raise error
    try:
        found = fallback.shown(script.text, settings, problem._maximized, fallback.Wishes())
    except SolverError as cause:
        raise SolverError(f"{error.reason} Behind that, {cause.reason}", error.site, error.stop) from None
    if found.certificate is None:
        reason = f"{error.reason} Behind that, the exact solver's answer passes 128 bits."
        raise SolverError(reason, error.site, error.stop)
    return found.certificate


def _without(script: Script, settings: str, max_iters: Optional[int]) -> SolverError:
    """Why there is no certificate: the stop of the setting, or that there are no weights of so few digits."""
    answer = read(program.run("resolve", script.text, settings, options=pivots(max_iters)), script).answers[0]
    if answer.stop is not None:
        return stopped(answer.stop, script)
    return SolverError(
        f"the answer is {answer.status}, but the numbers that would show it pass 128 bits, so there is no certificate"
    )
