"""The text of a run."""
from . import shapes
from .faults import Stopped
from .numbers import number

USAGE = (
    "usage: dcx check SCRIPT | solve SCRIPT | resolve SCRIPT SETTINGS | certificate SCRIPT SETTINGS | "
    "certify SCRIPT SETTINGS CERT | trial N | migrate SCRIPT SETTINGS CERT | range SCRIPT SETTINGS PARAM | "
    "iis SCRIPT SETTINGS\n"
)
SIGNS = {(True, True): "zero", (True, False): "nonneg", (False, True): "nonpos", (False, False): "unknown"}


def numbers(values):
    return " ".join(number(v) for v in values)


def checked(problem, verdict):
    def counted(word, listed):
        return f"{word} {len(listed)} entries {sum(shapes.size(s) for s in listed)}\n"

    objective = verdict.objective
    return (
        "accepted\n"
        f"objective {problem.sense} sign {SIGNS[objective.sign]} curvature {objective.curvature()}\n"
        f"dpp {'yes' if verdict.dpp else 'no'}\n"
        + counted("variables", [problem.nodes[n].shape for _, n in problem.variables])
        + counted("parameters", [problem.nodes[n].shape for _, n in problem.parameters])
        + counted("constraints", [c.shape for c in problem.constraints])
    )


def users(problem, value):
    """A value of what is minimized as one of the user's objective."""
    return number(-value if problem.sense == "maximize" else value)


def arrays(problem, word, points):
    lines = []
    for (name, n), entries in zip(problem.variables, points):
        lines.append(f"{word} {name} {shapes.text(problem.nodes[n].shape)} = {numbers(entries)}\n")
    return "".join(lines)


def duals(problem, answer):
    lines = []
    for i, (constraint, entries) in enumerate(zip(problem.constraints, answer.duals)):
        lines.append(f"dual {i + 1} {shapes.text(constraint.shape)} = {numbers(entries)}\n")
    return "".join(lines)


def outcome(problem, word, k, end):
    """The lines of an answer or a stop."""
    head = f"{word} {k} "
    if isinstance(end, Stopped):
        return f"{head}{end.text()}\n"
    head += f"{end.kind}\n"
    if end.kind == "whole infeasible":
        return head + f"nodes {len(end.nodes)}\n"
    if end.kind == "whole optimal":
        return head + f"value {users(problem, end.number)}\n" + arrays(
            problem, "var", end.point
        ) + f"nodes {len(end.nodes)}\n"
    if end.kind == "optimal":
        return head + f"value {users(problem, end.number)}\n" + arrays(problem, "var", end.point) + duals(problem, end)
    if end.kind == "infeasible":
        return head + f"gap {number(end.number)}\n" + duals(problem, end)
    text = f"bound {users(problem, end.number)}\nslope {number(end.slope)}\n"
    return head + text + arrays(problem, "var", end.point) + arrays(problem, "ray", end.ray)


def answered(ends):
    stops = sum(isinstance(end, Stopped) for end in ends)
    return f"answered {len(ends) - stops} stopped {stops}\n"


def solved(problem, word, ends):
    return "".join(outcome(problem, word, k, end) for k, end in enumerate(ends, 1)) + answered(ends)


def filtered(problem, ends):
    """The lines of what filtering finds at each setting, or what stops it."""
    lines = []
    for k, end in enumerate(ends, 1):
        if isinstance(end, Stopped):
            lines.append(outcome(problem, "setting", k, end))
        elif end.point is not None:
            lines.append(f"setting {k} feasible\n" + arrays(problem, "var", end.point))
        else:
            lines.append(f"setting {k} infeasible constraints {' '.join(str(c + 1) for c in end.members)}\n")
            for c, point in zip(end.members, end.points):
                lines.append(f"without {c + 1}\n" + arrays(problem, "var", point))
    return "".join(lines) + answered(ends)


def ranged(problem, name, ends):
    """The lines of how far a parameter may move at each setting, or what stops it."""
    lines = []
    for k, end in enumerate(ends, 1):
        if isinstance(end, Stopped):
            lines.append(outcome(problem, "setting", k, end))
        elif end.kind != "optimal":
            lines.append(f"setting {k} {end.kind}\n")
        else:
            low, high = ("none" if e is None else number(e) for e in (end.low, end.high))
            value, slope = users(problem, end.constant), users(problem, end.slope)
            lines.append(f"setting {k} range {name} from {low} to {high} value {value} slope {slope}\n")
    return "".join(lines) + answered(ends)


def tried(problem, size, ends):
    lines = [f"trial {size}\n"]
    for k, end in enumerate(ends, 1):
        if isinstance(end, Stopped):
            lines.append(outcome(problem, "setting", k, end))
        else:
            value = f" value {users(problem, end.number)}" if end.kind == "optimal" else ""
            lines.append(f"setting {k} {end.kind}{value}\n")
    return "".join(lines) + answered(ends)


def short(kind):
    """The report of a run that has no memory: one that ends there, one of a setting that does, or a trial with one."""
    memory = Stopped(31, "")
    if kind == "setting":
        return solved(None, "setting", [memory])
    if kind == "trial":
        return tried(None, 2, [Stopped(26, f" at 9:31 entry 0 mul {10**20} {10**19}"), memory])
    return "want of memory\n"
