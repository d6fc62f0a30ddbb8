"""What the words `certificate`, `certify` and `migrate` do with an accepted problem and its settings: a status and a
report.
"""
from .certificates import Misfit, Section, read, written
from .checks import Fault, check
from .faults import Refused, Stopped
from .numbers import OF_LANGUAGE, Passes
from .reduce import TooLarge, Wide, ZeroDivisor

MOST_BYTES = 67_108_864


class CertRefused(Exception):
    """A certificate is refused: the section, 0 where its text is, and the fault."""

    def __init__(self, section, fault):
        super().__init__(section, fault)
        self.section, self.fault = section, fault

    def text(self):
        return f"certificate refused section {self.section} {self.fault}\n"


def weights_of(problem, reading):
    """The multipliers of the rows of the atoms with a variable below them, by node."""
    result = {}
    for r, row in enumerate(reading.tableau.program.rows):
        if row.origin[0] == "node" and problem.has_variable[row.origin[1]]:
            note = reading.tableau.notes[r]
            result.setdefault(row.origin[1], []).append(OF_LANGUAGE.mul(note.factor, reading.reduced_cost(note.slack)))
    return result


def solved(session, setting, limit):
    """The section of a setting, and whether the setting stopped."""
    problem = session.problem
    try:
        session.fit(setting)
        answer, reading = session.answer(session.tableau(session.program(setting)), limit)
    except (Stopped, TooLarge, ZeroDivisor, Wide):
        return Section("none"), True
    section = Section(answer.kind)
    section.params = [setting[name].entries for name, _ in problem.parameters]
    section.number, section.slope = answer.number, answer.slope
    section.point, section.ray, section.duals = answer.point, answer.ray, answer.duals
    if answer.kind != "unbounded":
        try:
            section.weights = weights_of(problem, reading)
        except Passes:
            return Section("none"), False
    show(problem, setting, section)
    return section, False


def show(problem, setting, section):
    """What was solved passes its own checks, unless an operation of these passes 128 bits."""
    try:
        check(problem, setting, section)
    except Fault as fault:
        assert fault.name == "Wide", fault.text()


def certificate(session, settings, limit):
    ends = [solved(session, setting, limit) for setting in settings]
    return 6 if any(stopped for _, stopped in ends) else 0, written(
        session.problem, "2", [section for section, _ in ends]
    )


def checked(problem, settings, data):
    """The sections of a certificate's bytes, each of which passes at its setting."""
    if len(data) > MOST_BYTES:
        raise Refused(8, (1, 1))
    try:
        _, sections = read(problem, len(settings), data)
    except Misfit as misfit:
        raise CertRefused(0, f"Form {misfit.line}") from None
    for k, (setting, section) in enumerate(zip(settings, sections), 1):
        try:
            check(problem, setting, section)
        except Fault as fault:
            raise CertRefused(k, fault.text()) from None
    return sections


def certify(problem, settings, data):
    sections = checked(problem, settings, data)
    return 0, f"certified {sum(section.kind != 'none' for section in sections)}\n"


def migrate(problem, settings, data):
    sections = checked(problem, settings, data)
    for setting, section in zip(settings, sections):
        if section.kind != "none":
            section.params = [setting[name].entries for name, _ in problem.parameters]
    return 0, written(problem, "2", sections)
