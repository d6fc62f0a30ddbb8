"""The checker of evidence for an answer in whole numbers. It stands on nothing of the search: it reads texts, compares
them, and has the program check certificates.

The folder has
    model.py         the script, with its marks, and setting.txt, the values of its parameters
    relaxed.py       the script without marks, with parameters for bounds (`boxes.Relaxation` says how it is made)
    tree.json        what is said: status, value, goal, sums, and the tree
    leaves-N.txt     a line of settings for each leaf of the tree, in order, at most 1,000 in a file
    leaves-N.cert    the certificate of these lines
    point.txt        a setting whose box is the best point alone, and point.cert, its certificate

Why that is enough, where what is minimized has the value v at the best point: a whole point that keeps the constraints
of model.py is in the box of a leaf, since it is in one of the sides of each split, also of one of a sum of its entries,
which is whole. Without its marks, and with these sums, it keeps the constraints of relaxed.py at the leaf's setting,
but for the goal. Where the leaf's section is `infeasible`, it breaks
the goal, so it is worse than the goal; where that is less than v, the next value that it can have is v, as `steps`
says. Where the section is `optimal`, it breaks the goal or has at least the section's value, which is at least v.
"""
from __future__ import annotations

import json
from fractions import Fraction
from pathlib import Path
from typing import NamedTuple, Optional, Union

from .. import program
from .boxes import Relaxation, Unfit
from .steps import beyond, step_of


class EvidenceError(Exception):
    """Evidence that shows nothing, and why."""


class Checked(NamedTuple):
    """What evidence shows: `optimal` with the value and the best point's text, or `infeasible`; how many leaves the
    tree has; and the step by which the bound was rounded up, where it was."""

    status: str
    value: Optional[Fraction]
    leaves: int
    step: Optional[Fraction] = None
    point: str = ""


class Section(NamedTuple):
    """What is read of a section: its kind, its value, and its multipliers by constraint."""

    kind: str
    value: Optional[Fraction]
    duals: list


def demand(holds: object, reason: str) -> None:
    if not holds:
        raise EvidenceError(reason)


def check(folder: Union[str, Path]) -> Checked:
    """What the evidence of a folder shows. Raises `EvidenceError` where it shows nothing, `OSError` where a file can't
    be read."""
    folder = Path(folder)
    script, settings, said = _text(folder, "model.py"), _text(folder, "setting.txt"), _said(folder)
    is_optimal = said["status"] == "optimal"
    demand(is_optimal or said["status"] == "infeasible", "tree.json says neither optimal nor infeasible")
    relaxed = Relaxation(script, settings, has_goal=is_optimal, sums=said.get("sums", []))
    text = _text(folder, "relaxed.py")
    demand(text == relaxed.text, "relaxed.py isn't model.py without its marks")
    side = -1 if relaxed.is_maximized else 1
    step, goal = None, None
    if is_optimal:
        value, goal = Fraction(said["value"]), Fraction(said["goal"])
        least = side * value
        if side * goal < least:
            step = step_of(script, settings)
            demand(step is not None, "the goal is better than the value, and values have no step")
            demand(beyond(side * goal, step) >= least, "a value between the goal and the value isn't excluded")
        point = _best(folder, relaxed, text, value, least)
    count = 0
    boxes = relaxed.leaves(said["tree"])
    for number in range(1, said["files"] + 1):
        lines, sections = _certified(folder, f"leaves-{number}", text)
        for line, section in zip(lines, sections):
            count += 1
            box = next(boxes, None)
            demand(box is not None, "there are more settings than leaves of the tree")
            demand(line == relaxed.setting(box, goal), f"the setting of leaf {count} isn't its box")
            demand(_is_closed(box, section, relaxed), f"leaf {count} has a multiplier at an open side of its box")
            if section.kind != "infeasible":
                demand(is_optimal and section.kind == "optimal", f"leaf {count} shows nothing")
                demand(section.value >= least, f"leaf {count} has a better value: {section.value}")
    demand(next(boxes, None) is None, "the tree has more leaves than there are settings")
    if not is_optimal:
        return Checked("infeasible", None, count)
    return Checked("optimal", value, count, step, point)


def _best(folder: Path, relaxed: Relaxation, text: str, value: Fraction, least: Fraction) -> str:
    """The lines of the best point: its box has one whole point, in the box of the root, and the program accepts that
    there is a feasible point of the value in it."""
    lines, sections = _certified(folder, "point", text)
    demand(len(lines) == 1, "point.txt has another number of settings than one")
    demand(sections[0].kind == "optimal" and sections[0].value == least, "the best point hasn't the value that is said")
    whole = json.loads(_text(folder, "point.json"))
    demand(all(isinstance(n, int) for n in whole), "an entry of the best point isn't whole")
    box = tuple((n, n) for n in whole)
    demand(lines[0] == relaxed.setting(box, value), "point.txt isn't the box of the best point")
    inside = zip(whole, relaxed.root)
    demand(
        len(whole) == len(relaxed.root)
        and all((low is None or n >= low) and (high is None or n <= high) for n, (low, high) in inside),
        "the best point isn't in the box of all whole points",
    )
    points = (line for line in _text(folder, "point.cert").split("\n") if line.startswith("var "))
    return "".join(line + "\n" for line in points if line.split(" ")[1] != relaxed.sums_name)


def _certified(folder: Path, name: str, script: str) -> tuple[list[str], list[Section]]:
    """The lines of a file of settings, and the sections of its certificate, which the program has accepted."""
    settings, certificate = _text(folder, f"{name}.txt"), _text(folder, f"{name}.cert")
    lines = settings.rstrip("\n").split("\n")
    found = program.run("certify", script, settings, certificate).report.decode().strip()
    demand(found == f"certified {len(lines)}", f"the program doesn't accept {name}.cert: {found}")
    sections = []
    for line in certificate.split("\n"):
        words = line.split(" ")
        if words[0] == "section":
            sections.append(Section(words[2], None, []))
        elif words[0] == "value":
            sections[-1] = sections[-1]._replace(value=Fraction(words[1]))
        elif words[0] == "dual":
            sections[-1].duals.append(words[words.index("=") + 1 :])
    return lines, sections


def _is_closed(box: tuple, section: Section, relaxed: Relaxation) -> bool:
    """Whether the multipliers of all bounds at open sides are 0. The last constraints are those of the bounds, two for
    each marked variable; a number that stands at an open side means nothing then."""
    if all(None not in ends for ends in box):
        return True
    at, pairs = 0, section.duals[len(section.duals) - 2 * len(relaxed.marked) :]
    for index, item in enumerate(relaxed.marked):
        for side in (0, 1):
            duals = pairs[2 * index + side]
            if any(end[side] is None and dual != "0" for end, dual in zip(box[at : at + item.size], duals)):
                return False
        at += item.size
    return True


def _text(folder: Path, name: str) -> str:
    try:
        return (folder / name).read_bytes().decode()
    except FileNotFoundError:
        raise EvidenceError(f"{folder} has no {name}") from None


def _said(folder: Path) -> dict:
    """What tree.json says."""
    try:
        said = json.loads(_text(folder, "tree.json"))
        demand(isinstance(said["tree"], list) and isinstance(said["files"], int), "tree.json has no tree")
        return said
    except (ValueError, KeyError, TypeError) as error:
        raise EvidenceError(f"tree.json isn't read: {error}") from None


def checked(folder: Union[str, Path]) -> Checked:
    """The same, with what can't be read told as an `EvidenceError` too."""
    try:
        return check(folder)
    except (Unfit, ValueError, KeyError, TypeError, IndexError) as error:
        raise EvidenceError(f"the evidence isn't read: {error}") from error
