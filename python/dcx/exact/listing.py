"""The problem of a script, its reduced program and the end of its branch and bound as lines, as the page on worked cases
describes them.
"""
from . import shapes
from .affine import Affine
from .branching import Branching
from .commands import MOST_PIVOTS, Accepted
from .elaborate import elaborate
from .faults import Refused, Stopped
from .grammar import parse
from .limits import OF_PROGRAM
from .numbers import number
from .reduce import TooLarge, Wide, ZeroDivisor, affine_map, fixed, reduced
from .session import Session
from .tokens import text_of, tokens_of

AXES = {None: "", 0: " axis 0", 1: " axis 1"}


def place(at):
    return f"{at[0]}:{at[1]}"


def numbers(values):
    return "".join(" " + number(v) for v in values)


def call_text(call):
    word = call[0]
    if word == "variable":
        return f"variable {call[1]}" + ("" if call[2] == "free" else " " + call[2]) + (" " + call[3] if call[3] else "")
    if word == "parameter":
        return f"parameter {call[1]}" + ("" if call[2] == "free" else " " + call[2])
    if word == "constant":
        return "constant" + numbers(call[2])
    if word in ("sum", "mean", "cumsum", "max", "min", "norm1", "norm_inf"):
        return word + AXES[call[1]]
    if word in ("sum_largest", "sum_smallest"):
        return f"{word} {call[1]}"
    if word == "index":
        return "index" + "".join(f" {p}" for p in call[2])
    if word == "reshape":
        return "reshape by " + ("columns" if call[2] else "rows")
    return word


def setting_text(word, setting):
    parts = [f"{name} {shapes.text(array.shape)} ={numbers(array.entries)}" for name, array in setting.items()]
    return word + (" " + "; ".join(parts) if parts else "") + "\n"


def gathered(data):
    """The problem of a script and the settings of its solves."""
    try:
        problem, events, last = elaborate(parse(tokens_of(text_of(data))))
    except Refused:
        return 1, ""
    lines = ["variables" + "".join(f" {name}" for name, _ in problem.variables) + "\n"]
    lines.append("parameters" + "".join(f" {name}" for name, _ in problem.parameters) + "\n")
    for i, node in enumerate(problem.nodes):
        args = " of" + "".join(f" {a}" for a in node.args) if node.args else ""
        lines.append(f"node {i} {call_text(node.call)} {shapes.text(node.shape)}{args} at {place(node.place)}\n")
    lines.append(f"{problem.sense} {problem.objective} at {place(problem.objective_place)}\n")
    for c in problem.constraints:
        lines.append(f"{c.kind} {c.left} {c.right} {shapes.text(c.shape)} at {place(c.place)}\n")
    lines += [setting_text("solve", event) for event in events]
    return 0, "".join(lines) + setting_text("end", last)


def signed(value, is_first, thing):
    """A number times a thing, behind others or as the first."""
    size = abs(value)
    sign = ("-" if value < 0 else "") if is_first else (" - " if value < 0 else " + ")
    return sign + (thing if thing and size == 1 else number(size) + (" " + thing if thing else ""))


def coefficient_text(value, names):
    text = number(value.constant)
    for (position, entry), coefficient in sorted(value.terms.items()):
        text += signed(coefficient, False, f"{names[position]}[{entry}]")
    return f"({text})"


def form_text(form, names):
    def is_number(value):
        return not (isinstance(value, Affine) and value.terms)

    def plain(value):
        return value.constant if isinstance(value, Affine) else value

    constant = form.constant
    text = number(plain(constant)) if is_number(constant) else coefficient_text(constant, names)
    for u in sorted(form.terms):
        value = form.terms[u]
        text += signed(
            plain(value), False, f"u{u}"
        ) if is_number(value) else f" + {coefficient_text(value, names)} u{u}"
    return text


def program_text(problem, program):
    names = [name for name, _ in problem.parameters]
    columns = sum(2 if kind == "free" else 1 for kind in program.kinds) + sum(not row.is_equal for row in program.rows)
    lines = [
        f"rows {len(program.rows)} columns {columns}\n", "unknowns" + "".join(f" {k}" for k in program.kinds) + "\n"
    ]
    lines.append(f"minimize {form_text(program.objective, names)}\n")
    for row in program.rows:
        kind, *at = row.origin
        origin = f"{kind} {at[0]} entry {at[1]}" + (f" row {at[2]}" if kind == "node" else "")
        lines.append(f"{origin}: {form_text(row.form, names)} {'==' if row.is_equal else '<='} 0\n")
    return "".join(lines)


def fault_text(fault):
    if isinstance(fault, TooLarge):
        return f"too large rows {fault.rows} columns {fault.columns}\n"
    if isinstance(fault, ZeroDivisor):
        return f"zero divisor node {fault.node} entry {fault.entry}\n"
    kind, *at = fault.site
    where = f"node {at[0]} entry {at[1]}" if kind == "node" else f"{kind} {at[0]}"
    return f"wide {where} {fault.passes.text()}\n"


def has_shapes(problem, setting):
    return all(name in setting and setting[name].shape == problem.nodes[n].shape for name, n in problem.parameters)


def program_lines(data, is_map):
    """The reduced program of a script at the setting that it ends with."""
    try:
        accepted = Accepted(data)
    except Refused:
        return 1, ""
    problem, setting = accepted.problem, accepted.last
    if not has_shapes(problem, setting) or (is_map and not accepted.verdict.dpp):
        return 1, ""
    text = ""
    try:
        if not is_map:
            return 0, program_text(problem, reduced(problem, setting, OF_PROGRAM))
        program = affine_map(problem, OF_PROGRAM)
        text = program_text(problem, program) + "at the setting\n"
        return 0, text + program_text(problem, fixed(problem, program, setting, OF_PROGRAM.numbers))
    except (TooLarge, ZeroDivisor, Wide) as fault:
        return 0, text + fault_text(fault)


def branched(data, most):
    """How branch and bound with at most so many nodes ends at the setting that a script ends with."""
    try:
        accepted = Accepted(data)
    except Refused:
        return 1, ""
    session = Session(accepted.problem, accepted.verdict, OF_PROGRAM)
    try:
        branching = Branching(session, accepted.last, MOST_PIVOTS, most)
    except Stopped:
        return 0, "no program\n"
    try:
        answer = branching.found()
    except Stopped as stop:
        return 0, stop_text(stop)
    nodes = len(answer.nodes)
    if answer.number is None:
        return 0, f"infeasible nodes {nodes}\n"
    return 0, f"optimal {number(answer.number)} nodes {nodes}\n"


def stop_text(stop):
    """The line of what stops branch and bound."""
    if stop.kind == 30:
        return "relaxation unbounded\n"
    if stop.kind == 32:
        return f"node limit{stop.carried}\n"
    return f"{' '.join(stop.carried.split()[:2])} stopped\n"
