"""What the words behind the program's name do: a status and a report."""
import re

from . import report
from .branching import Branching, marked
from .certificates import written
from .certifying import CertRefused, certificate, certify, migrate
from .checks import check
from .elaborate import elaborate
from .faults import Refused, Stopped
from .filtering import Filter
from .grammar import parse
from .limits import NONE, OF_PROGRAM
from .numbers import EXACT
from .ranging import Ranging, test_ranged
from .rules import Verdict
from .sections import Finder, sections_to_show
from .session import Session
from .settings import parse_settings
from .tokens import text_of, tokens_of
from .values import Array

MOST_PIVOTS = 200_000
OPERANDS = {
    "check": 1,
    "solve": 1,
    "resolve": 2,
    "certificate": 2,
    "certify": 3,
    "trial": 1,
    "migrate": 3,
    "iis": 2,
    "range": 3,
}
WITHOUT_LIMIT = ("check", "certify", "migrate")


class Usage(Exception):
    pass


class ReadFault(Exception):
    pass


def pivots(text):
    if not re.fullmatch(r"[0-9]{1,10}", text) or int(text) > 1_000_000_000:
        raise Usage
    return int(text)


def plain_form(words):
    """The command, its operands, the limit of pivots, and whether answers are found from earlier ones."""
    if not words or words[0] not in OPERANDS:
        raise Usage
    command, operands, limit, warm = words[0], [], None, False
    rest = iter(words[1:])
    for word in rest:
        is_option = word == "--max-pivots" or word.startswith("--max-pivots=")
        if is_option and command not in WITHOUT_LIMIT:
            if limit is not None:
                raise Usage
            limit = pivots(word.partition("=")[2] if "=" in word else next(rest, ""))
        elif word == "--warm" and command == "resolve" and not warm:
            warm = True
        else:
            operands.append(word)
    if len(operands) != OPERANDS[command] or any(not o or o.startswith("-") for o in operands):
        raise Usage
    return command, operands, MOST_PIVOTS if limit is None else limit, warm


def trial_script(n):
    b = [2 * i + 1 + (10 if i % 5 == 0 else 0) for i in range(n)]
    return "\n".join([
        "import cvxpy as cp",
        "import numpy as np",
        f"t = np.array([{', '.join(str(i) for i in range(n))}])",
        f"b = np.array([{', '.join(str(v) for v in b)}])",
        "s = cp.Variable()",
        "a = cp.Variable()",
        "q = cp.Parameter(nonneg=True)",
        "prob = cp.Problem(cp.Minimize(cp.norm1(s*t + a - b) + q*cp.abs(s)))",
        "",
    ]).encode()


class Accepted:
    """The problem of a script's bytes that the rules accept, its verdict, and its settings."""

    def __init__(self, data):
        self.problem, self.events, self.last = elaborate(parse(tokens_of(text_of(data))))
        self.verdict = Verdict(self.problem)

    def test_unmarked(self):
        """Some words refuse a problem that reaches a variable whose entries are to be whole, at the first one that is
        declared.
        """
        for v, _ in marked(self.problem):
            raise Refused(34, self.problem.nodes[self.problem.variables[v][1]].place)


def ends_of(session, settings, limit):
    is_marked = bool(marked(session.problem))
    if session.limits == NONE and not is_marked:
        return shown_ends(session, settings)
    ends = []
    for setting in settings:
        try:
            ends.append(Branching(session, setting, limit).found() if is_marked else session.solve(setting, limit))
        except Stopped as stop:
            ends.append(stop)
    return ends


def shown_ends(session, settings):
    """The ends that the exact solver finds, each with its checks in numbers of any size."""
    ends = Finder(session).ends(settings)
    for setting, end in zip(settings, ends):
        if not isinstance(end, Stopped):
            check(session.problem, setting, end, EXACT)
    return ends


def shown_certificate(session, settings):
    """The status and the certificate of what the exact solver finds, where numbers that pass 128 bits show nothing."""
    ends = shown_ends(session, settings)
    return status_of(ends), written(session.problem, "2", sections_to_show(session.problem, settings, ends))


def warm_ends_of(session, settings, limit):
    """The ends where each answer is found from the one before it, if that goes, and how many were."""
    ends, count = [], 0
    for setting in settings:
        try:
            answer, is_warm = session.solve_warm(setting, limit)
            ends.append(answer)
            count += is_warm
        except Stopped as stop:
            ends.append(stop)
    return ends, count


def filtered_of(session, settings, limit):
    """What filtering the constraints finds at each setting, or what stops it."""
    ends = []
    for setting in settings:
        try:
            ends.append(Filter(session, setting, limit).found())
        except Stopped as stop:
            ends.append(stop)
    return ends


def ranged_of(session, settings, name, limit):
    """How far the parameter may move at each setting, or what stops it."""
    ends = []
    for setting in settings:
        try:
            ends.append(Ranging(session, setting, name, limit).found())
        except Stopped as stop:
            ends.append(stop)
    return ends


def laid_over(last, line):
    """A line of the settings file over the setting at the script's end."""
    setting = dict(last)
    for name, (shape, entries) in line:
        setting[name] = Array(shape, entries)
    return setting


def status_of(ends):
    return 6 if any(isinstance(end, Stopped) for end in ends) else 0


def run_command(command, operands, limit, warm, fetch, limits):
    if command == "trial":
        return trial(operands[0], limit, limits)
    accepted = Accepted(fetch(operands[0]))
    if command == "check":
        return 0, report.checked(accepted.problem, accepted.verdict)
    if warm or command not in ("solve", "resolve"):
        accepted.test_unmarked()
    session = Session(accepted.problem, accepted.verdict, limits)
    if command == "solve":
        ends = ends_of(session, accepted.events, limit)
        return status_of(ends), report.solved(accepted.problem, "solve", ends)
    if command == "range":
        test_ranged(session, operands[2])
    settings = [laid_over(accepted.last, line) for line in settings_of(fetch(operands[1]))]
    if command == "range":
        ends = ranged_of(session, settings, operands[2], limit)
        return status_of(ends), report.ranged(accepted.problem, operands[2], ends)
    if command == "resolve" and warm:
        ends, count = warm_ends_of(session, settings, limit)
        return status_of(ends), report.solved(accepted.problem, "setting", ends) + f"warm {count}\n"
    if command == "resolve":
        ends = ends_of(session, settings, limit)
        return status_of(ends), report.solved(accepted.problem, "setting", ends)
    if command == "iis":
        ends = filtered_of(session, settings, limit)
        return status_of(ends), report.filtered(accepted.problem, ends)
    if command == "certificate":
        return shown_certificate(session, settings) if limits == NONE else certificate(session, settings, limit)
    return with_certificate(
        {"certify": certify, "migrate": migrate}[command], accepted.problem, settings, fetch(operands[2])
    )


class CertificateRefused(Refused):
    pass


def with_certificate(act, problem, settings, data):
    try:
        return act(problem, settings, data)
    except Refused as refused:
        raise CertificateRefused(refused.kind, refused.place, refused.carried) from None


class SettingsRefused(Refused):
    pass


def settings_of(data):
    try:
        return parse_settings(data)
    except Refused as refused:
        raise SettingsRefused(refused.kind, refused.place, refused.carried) from None


def trial(operand, limit, limits):
    if not re.fullmatch(r"[0-9]{1,4}", operand) or not 1 <= int(operand) <= 1000:
        raise Usage
    accepted = Accepted(trial_script(int(operand)))
    lines = settings_of(b"q = 0\nq = 10\n")
    session = Session(accepted.problem, accepted.verdict, limits)
    ends = ends_of(session, [laid_over(accepted.last, line) for line in lines], limit)
    return status_of(ends), report.tried(accepted.problem, int(operand), ends)


def run(words, fetch, limits=OF_PROGRAM):
    """The status and the report of the words over files, which `fetch` gives, or raises ReadFault."""
    try:
        return run_command(*plain_form(words), fetch, limits)
    except Usage:
        return 2, report.USAGE
    except ReadFault:
        return 3, "fault read\n"
    except SettingsRefused as refused:
        return 1, refused.text("settings")
    except CertificateRefused as refused:
        return 1, refused.text("certificate")
    except CertRefused as refused:
        return 7, refused.text()
    except Refused as refused:
        return 1, refused.text("script")
