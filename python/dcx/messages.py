"""What each refusal, stop, rule, status and fault of a certificate means, in a sentence, and what to do.

It is docs/MESSAGES.md in short. What a sentence numbers counts as in the report: entries, rows, variables, constraints
and parameters from 0, row by row; the nodes of a search for whole numbers from 1.
"""
from __future__ import annotations

from fractions import Fraction
from typing import NamedTuple

from .lines import Detail, Fault, Refusal, Stop
from .values import number_text, place_text, shape_text


class Message(NamedTuple):
    """One sentence of what happened, and what to do about it, which may be several; both are plain text on one line."""

    sentence: str
    advice: str


# Refusals, by number. Those of another file than a script that mean something else stand with the file's word.

REFUSALS = {
    1: ("The file isn't UTF-8 text: the place is that of the first byte that isn't.", "Save it as UTF-8 text."),
    2: (
        "No name, number or sign begins with this character.",
        "Often it comes from a text that was pasted: a minus that is no hyphen, or curly quotes; at 1:1 it is mostly a "
        "byte order mark, without which the file is to be saved. In place of a `\\` at the end of a line put the "
        "expression in brackets.",
    ),
    3: (
        "This is no number of the language: a letter, `_` or a point stands right behind it, or it is too long or "
        "too large.",
        "Write `2*x` for `2x` and `1000` for `1_000`. At most 30 digits, an exponent from -30 to 30 and parts up "
        "to 2^127 - 1 are read: choose another unit.",
    ),
    4: (
        "A bracket is open at the end of the file, or a text at the end of its line.",
        "Close what opens at this place.",
    ),
    5: (
        "The line is indented as no line around it is, or by a tab.",
        "Indent with spaces, and begin a line where an earlier one of its block begins.",
    ),
    6: (
        "No script of the language goes on with what stands here.",
        "Often it is a form of Python that the language doesn't have: docs/CVXPY.md says what to write instead.",
    ),
    7: (
        "More than 64 brackets and `for` blocks are open together.",
        "Give a part of the expression a name, on a line of its own.",
    ),
    8: ("The script has more than 1,048,576 bytes.", "Group the data, or leave out what no constraint needs."),
    9: (
        "No line above binds this name.",
        "It is mistyped, is bound further below, or its module isn't imported. Of Python's own functions only "
        "`range` is a name here.",
    ),
    10: (
        "The language has no such call.",
        "Squares, roots, `exp` and `log` have no exact answer in fractions: ask with `cp.norm1`, `cp.norm_inf` or "
        "`cp.abs` how far off something is. Write `cp.sum(x)` for `x.sum()`.",
    ),
    11: (
        "An argument or an operand is missing, is one too many, or is of a wrong kind.",
        "Compare the call with docs/LANGUAGE.md; a name is declared once, only a parameter is given a value, and "
        "no plain number is divided by 0.",
    ),
    12: (
        "This form is read, and has no meaning in the language.",
        "Write `cp.multiply(a, b)` or `a @ b` for a product of arrays, `<=`, `>=` or `==` for a constraint, and two of "
        "them for a chain; docs/CVXPY.md says what to write in place of other forms.",
    ),
    13: (
        "The shapes don't fit the operation.",
        "Compare the shapes of its operands. A vector of n entries is no matrix of n rows and one column.",
    ),
    14: ("An index lies outside of its side.", "Of n entries the indices are 0 to n - 1, and -1 to -n from the end."),
    15: ("The slice, the list or the call would have no entry.", "Leave the line out where there is nothing."),
    16: ("The script ends without a problem.", "Add `prob = cp.Problem(objective, [..])`."),
    17: (
        "This is the second problem of the script, and a script has one.",
        "Write two scripts; or, where the two differ in numbers alone, one with a parameter that is solved at "
        "several settings.",
    ),
    18: {
        "nodes": ("The model has {count} different expressions, and at most 20,000 are taken.", None),
        "entries": ("The model's expressions have {count} entries together, and at most 20,000 are taken.", None),
        "items": (
            "A list or a plain array would have {count} items, and at most 20,000 are taken.",
            "Split it, or sum up what belongs together.",
        ),
        "steps": ("The script carries out {count} lines and turns of comprehensions, and at most 100,000 are.", None),
        "events": (
            "The script solves {count} times, and at most 1,000 times are taken.",
            "Put the values into a settings file for `resolve`, or into several.",
        ),
        None: (
            "One constraint over a whole vector makes a few expressions, a loop that makes one for each entry makes "
            "some for each."
        ),
    },
    19: {
        "minimize": (
            "What is minimized isn't convex by the rules of disciplined convex programming.",
            "Minimize what is affine, or convex as `cp.max`, `cp.abs` and the norms; `cp.min` may be maximized.",
        ),
        "maximize": (
            "What is maximized isn't concave by the rules of disciplined convex programming.",
            "Maximize what is affine, or concave as `cp.min`. To ask for the greatest distance, ask for each "
            "direction by itself.",
        ),
        "at_most": (
            "The lesser side of this constraint isn't convex, or the greater one isn't concave, by the rules of "
            "disciplined convex programming.",
            "\"At least so far away\" falls apart in two sets: solve the parts by themselves, and take the better "
            "answer.",
        ),
        "equal": (
            "A side of this equality isn't affine.",
            "Where the other constraints push a convex side up, `<=` says the same.",
        ),
        "composition": (
            "This expression has no curvature by the rules of disciplined convex programming.",
            "A convex call takes what is affine, what is convex where it rises in it, or what is concave where it "
            "falls in it; a product needs a side without variables. Where the sign of a variable or a parameter is "
            "known, say it with `nonneg=True` or `nonpos=True`.",
        ),
    },
    20: (
        "{operation} passes 128 bits, and is formed of plain numbers.",
        "Choose units in which the data are short numbers.",
    ),
    34: (
        "The problem has a variable that is to be whole, and this command doesn't take such.",
        "`solve` and `resolve` do. Ask this command without `integer=True` and `boolean=True`: no whole numbers do "
        "better than the value then.",
    ),
    35: {
        "unknown": (
            "The problem has no parameter of this name.",
            "It is mistyped, is a variable, or neither the objective nor a constraint uses it. The name is the one "
            "that `cp.Parameter(..)` was assigned to.",
        ),
        "shape": (
            "The parameter isn't a single number, so that its range can't be told.",
            "Declare the number that is to move by itself, and add it where it belongs.",
        ),
        "map": (
            "The rows of the problem can't be formed once for all settings, so that the parameter's range can't be "
            "told.",
            "`check` tells `dpp no`, or there would be too many rows, a number beyond 128 bits or a divisor that "
            "is 0: ask `resolve` at several values.",
        ),
        "coefficient": (
            "A variable, or a call of variables, is multiplied by the parameter, so that its range can't be told.",
            "The objective need not go along a line there: ask `resolve` at several values.",
        ),
    },
}
REFUSALS_OF = {
    ("settings", 3): (
        "This is no number of a settings file: it is over 0, a letter, `_` or a point stands right behind it, or "
        "it is too long or too large.",
        "Write `1/2` or `0.5`; at most 30 digits and parts up to 2^127 - 1 are read.",
    ),
    ("settings", 6): (
        "No settings go on with what stands here, or end here.",
        "A line is `{}` or `NAME = VALUE` with `;` between. A value is a number, a list in brackets, or a list of "
        "rows of one length; nothing is calculated, and no name stands twice.",
    ),
    ("settings", 8): ("The settings file has {limit}.", "Give each file a part of the settings."),
    ("certificate", 8): (
        "The certificate's file has more than 67,108,864 bytes.",
        "Give each file a part of the settings.",
    ),
}

# Stops, by number.

WIDE_ADVICE = (
    "Numbers with many digits, or large and tiny ones side by side, do this: write fewer digits, since the digits of an "
    "entry count once for each dense column that enters a basis; scaling a row changes nothing."
)
STOPS = {
    21: (
        "The setting names {name}, which is no parameter of the problem.",
        "It is mistyped, is a variable, or neither the objective nor a constraint uses it: correct the name, or "
        "leave it out.",
    ),
    22: (
        "The parameter {name} has no value.",
        "Give it one: `cp.Parameter(value=..)`, `{name}.value = ..` before the solve, or its name in each setting.",
    ),
    23: (
        "The parameter {name} has the shape {declared}, and its value the shape {given}.",
        "A number is no vector of one entry, and a list of rows is no vector. Where one number is meant for all "
        "entries, write it so often.",
    ),
    24: (
        "Entry {entry} of the parameter {name} is {value}, which breaks the sign that it was declared with.",
        "Correct the value; or declare the parameter without a sign, and see whether the rules still accept the "
        "problem.",
    ),
    25: (
        "Entry {entry} of the divisor is 0 in the quotient at {place}.",
        "Multiply instead: `cp.sum(x) <= 8*speed` asks the same as `cp.sum(x)/speed <= 8` where the speed is above 0.",
    ),
    26: {
        "entry": ("{operation} passes 128 bits, while entry {entry} of the expression at {place} is formed.", None),
        "row": ("{operation} passes 128 bits, while row {row} of the reduced program is formed.", None),
        "map": (
            "{operation} passes 128 bits, while the parameters' values are put into row {row} of the reduced program.",
            None,
        ),
        "pivot": (
            "After {pivots} pivots the next one, at row {row} and column {column}, would form a number beyond 128 "
            "bits.",
            None,
        ),
        "answer": (
            "{operation} passes 128 bits, while the multiplier of row {row} of the reduced program is formed.",
            None,
        ),
        None: WIDE_ADVICE,
    },
    27: (
        "{count} pivots were done, and another is needed.",
        "Give a greater limit with `--max-pivots`, which is `max_iters` in Python; by itself it is 200,000.",
    ),
    28: (
        "The reduced program would have {rows} rows and {columns} columns, and at most 600 rows and 2,400 columns "
        "are taken.",
        "Each entry of a constraint is a row, and each piece of a call as `cp.abs`. Write bounds of 0 as "
        "`nonneg=True` or `nonpos=True`, and leave out what follows from other constraints.",
    ),
    30: (
        "Some variable is to be whole, and with fractions the objective goes on for ever.",
        "A limit is missing: without `integer=True` and `boolean=True` the answer is a ray, which names the "
        "variables that want one.",
    ),
    31: ("Memory ran out at this setting.", "Close other programs, or ask for less at a time."),
    32: (
        "{count} nodes were taken in the search for whole numbers, and another is needed.",
        "Give whole variables limits that are as near as they may be, put variables that may change places in an "
        "order, and declare first what decides most.",
    ),
    33: ("In the search for whole numbers node {node} has no answer. {stop}", "{advice}"),
    36: (
        "{operation} passes 128 bits, while the numbers of the span are formed.",
        "Choose units in which the data are near to 1, the parameter's among them.",
    ),
    37: ("Step {step} of the search for constraints in the way has no answer. {stop}", "{advice}"),
}

# Faults of certificates, by name.

ANOTHER = "The script, the settings file or the certificate is another one, or was changed: make the certificate anew."
FAULTS = {
    "Form": ("Line {line} is not what may stand there in a certificate of this script and these settings.", ANOTHER),
    "Fit": (
        "The setting doesn't fit the problem, so that there is no answer to show: {number} {name}.",
        "Ask `resolve`, which says more, and correct the settings file.",
    ),
    "Setting": (
        "The certificate was made at another setting: at entry {entry} of parameter {parameter} it states "
        "{stated}, and the setting says {found}.",
        "Take the settings file that it was made with.",
    ),
    "Domain": ("Entry {entry} of variable {variable} is {value}, which breaks the variable's attribute.", ANOTHER),
    "Constraint": (
        "The point is not feasible: at entry {entry} of constraint {constraint} the left side is {left} and the "
        "right side {right}.",
        ANOTHER,
    ),
    "Value": ("The stated value is {stated}, and the objective at the point is {found}.", ANOTHER),
    "DualSign": (
        "The multiplier at entry {entry} of constraint {constraint}, an inequality, is {value}, and has to be at "
        "least 0.",
        ANOTHER,
    ),
    "Gap": ("The gap is {value}, and has to be above 0 to show anything.", ANOTHER),
    "Slope": (
        "The weights of node {node} break their condition at entry {entry}: the left side is {left} and the right "
        "side {right}.",
        ANOTHER,
    ),
    "Variable": (
        "The multipliers don't balance: {value} is left at entry {entry} of variable {variable}, which its sign "
        "doesn't allow.",
        ANOTHER,
    ),
    "Bound": ("The certificate states {stated}, and what it carries shows {found}.", ANOTHER),
    "Descent": ("The slope is {value}, and has to be above 0.", ANOTHER),
    "RayDomain": (
        "The ray is {value} at entry {entry} of variable {variable}, which leaves the variable's attribute.",
        ANOTHER,
    ),
    "RayConstraint": (
        "The ray leaves the feasible points: at entry {entry} of constraint {constraint} the left side rises by "
        "{left} and the right side by {right}.",
        ANOTHER,
    ),
    "RayValue": ("The objective should change by {stated} or less along the ray, and changes by {found}.", ANOTHER),
    "Wide": (
        "{operation} passes 128 bits in a check; nothing is wrong with the certificate up to there.",
        "Numbers of fewer digits, or other units, help.",
    ),
}

STATUSES = {
    0: ("The problem was accepted, each setting was answered, or the certificate holds.", ""),
    1: ("The script, the settings file or the file of a certificate was refused.", "Correct it and ask again."),
    2: ("The words are no command with its operands.", "See the usage line; a file's name doesn't begin with `-`."),
    3: ("A file is missing, is a folder, or can't be read.", "See the names of the files."),
    4: (
        "A write failed, so that only a front of the report was written.",
        "See whether the disk is full or a pipe was closed.",
    ),
    5: ("Memory ran out.", "Close other programs, or ask for less at a time."),
    6: ("A setting was stopped; the others are answered.", "The line of the stop tells why."),
    7: ("The certificate was refused.", ANOTHER),
}
OPERATIONS = {
    "add": "The sum of {} and {}",
    "sub": "The difference of {} and {}",
    "mul": "The product of {} and {}",
    "div": "The quotient of {} and {}",
    "lcm": "The least common multiple of {} and {}",
}


def refusal(refusal: Refusal) -> Message:
    """The message of a refusal."""
    found = REFUSALS_OF.get((refusal.of, refusal.number), REFUSALS[refusal.number])
    limit = "more than 1,048,576 bytes" if (refusal.line, refusal.column) == (1, 1) else "more than 1,000 settings"
    return message(found, refusal.detail, limit=limit)


def stop(stop: Stop) -> Message:
    """The message of a stop; that of a node or a step has the message of its own stop in it."""
    if stop.detail.stop is None:
        return message(STOPS[stop.number], stop.detail)
    inner = globals()["stop"](stop.detail.stop)
    return message(STOPS[stop.number], stop.detail, stop=inner.sentence, advice=inner.advice)


def fault(fault: Fault) -> Message:
    """The message of a certificate's fault."""
    of = fault.detail.stop
    return message(FAULTS[fault.name], fault.detail, **({} if of is None else {"number": of.number, "name": of.name}))


def rule(rule: str) -> Message:
    """The message of a broken rule: `composition`, `minimize`, `maximize`, `equal` or `at_most`."""
    return Message(*REFUSALS[19][rule])


def status(status: int) -> Message:
    """The message of the status with which the program ends."""
    return Message(*STATUSES[status])


def message(found, detail: Detail, **more: object) -> Message:
    """The message with the numbers that are carried put in.

    One of several is found by what the detail says; where it has no advice of its own, the advice is that of None.
    """
    if isinstance(found, dict):
        kind = next(kind for kind in (detail.what, detail.rule, detail.reason, detail.where) if kind is not None)
        sentence, advice = found[kind]
        advice = found[None] if advice is None else advice
    else:
        sentence, advice = found
    values = {name: shown(value) for name, value in detail.fields().items()}
    if detail.op is not None:
        values["operation"] = OPERATIONS[detail.op].format(values["left"], values["right"])
    values.update(more)
    return Message(put_in(sentence, values), put_in(advice, values))


def put_in(text: str, values: dict[str, object]) -> str:
    """The text with the values in place of their names in braces; braces around anything else stay."""
    for name, value in values.items():
        text = text.replace("{" + name + "}", str(value))
    return text


def shown(value: object) -> str:
    """A field as a sentence has it: a place, a shape, a count in groups of digits, a number with decimals beside it."""
    if isinstance(value, Fraction):
        return number_text(value) if value.denominator == 1 else f"{number_text(value)} ({float(value):.6g})"
    if isinstance(value, tuple):
        return place_text(value) if hasattr(value, "column") else shape_text(value)
    return f"{value:,}" if isinstance(value, int) else str(value)
