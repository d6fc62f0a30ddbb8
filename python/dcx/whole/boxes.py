"""The script without marks, with parameters for the bounds of a box, and the boxes of a tree.

A box has, for each entry of the variables that are to be whole, a least and a greatest whole number, None where that
side is open. A tree is a list of its nodes: behind a split come the nodes below it, those of its side at most k first.
"""
from __future__ import annotations

import re
from typing import Iterator, NamedTuple, Optional, Sequence

OPEN = 10**6  # what a setting says of an open side, whose multipliers are 0
Box = tuple  # of pairs (least, greatest), by entry of the marked variables, one variable behind the other

_MARKED = re.compile(r"(\w+) = cp\.Variable\((\((?:\d+), (?:\d+)\)|\d*)(?:, )?((?:\w+=True(?:, )?)*)\)")
_BOUND = re.compile(r"\s*(\w+)\s*\+?=(?!=)")
_PROBLEM = re.compile(r"(\w+) = cp\.Problem\(cp\.(Minimize|Maximize)\((.*)\)(\)|, \[)")


class Unfit(ValueError):
    """A script that isn't as the package writes scripts, or a tree that is none."""


class Marked(NamedTuple):
    """A variable that is to be whole: its name, its shape as it is declared, how many entries it has and how long a row
    of them is, and what its declaration says of each entry."""

    name: str
    shape: str
    size: int
    width: int
    low: Optional[int]
    high: Optional[int]


class Relaxation:
    """A script, as `problem.script()` writes it, without the marks of its variables.

    `text` is made from the script so: the marks go (`boolean` becomes `nonneg`); parameters have the values of the
    line of settings; each marked variable x has parameters x_low and x_high, and the constraints x >= x_low and
    x <= x_high behind all others. Where `has_goal`, the objective is to be no worse than the parameter `goal`, by a
    constraint in front of those. Names that are taken have a further `_`.

    `sums` are lists of entries, each as [NAME, ENTRY], of marked variables. There is a variable `sums` with an entry
    for each of them, which a constraint in front of the goal says to be their sum, so that it is whole where they are.
    Its entries have bounds as those of a marked variable have, and boxes may be split at them.
    """

    def __init__(self, script: str, settings: str, has_goal: bool, sums: Sequence = ()):
        self.marked: list[Marked] = []
        self.has_goal = has_goal
        tail = "_" * next(n for n in range(100) if not re.search(rf"\b(goal|sums|\w+_low|\w+_high){'_' * n}\b", script))
        self.sums_name = f"sums{tail}"
        self._goal, self._low, self._high = f"goal{tail}", f"_low{tail}", f"_high{tail}"
        self.is_maximized = False
        self.sums = [[(name, entry) for name, entry in listed] for listed in sums]
        self.added: list = []
        self.of_sums: Box = ()
        lines, stated = [], None
        for line in script.split("\n"):
            code = line.split("  # ")[0]
            problem, declared = _PROBLEM.fullmatch(code), _MARKED.fullmatch(code)
            if problem is not None:
                stated, self.is_maximized = problem, problem.group(2) == "Maximize"
                if sums:
                    self._add_sums()
                lines += [*self._declarations(), *self._values(settings), self._opened(code, problem)]
                if problem.group(4) == ")":
                    lines += [*self._constraints(problem), "])"]
            elif stated is not None and code == "])":
                lines += [*self._constraints(stated), "])"]
            else:
                lines.append(self._unmarked(line, declared) if declared else line)
        if stated is None:
            raise Unfit("the script has no line that states its problem")
        code = [line.split("  # ")[0] for line in script.split("\n")]
        bound = [found.group(1) for line in code if (found := _BOUND.match(line))]
        if len(set(bound)) < len(bound) or any(re.search(r"\bfor\b", line) for line in code):
            raise Unfit("the script binds a name twice, or in a loop: bounds may be those of another variable then")
        if "import numpy as np" not in lines:
            lines.insert(1, "import numpy as np")
        self.text = "\n".join(lines)

    # The text

    def _unmarked(self, line: str, declared) -> str:
        name, shape, words = declared.groups()
        attributes = words.split(", ") if words else []
        if not {"boolean=True", "integer=True"} & set(attributes):
            return line
        sides = [int(n) for n in re.findall(r"\d+", shape)]
        size, width = 1, sides[-1] if sides else 1
        for side in sides:
            size *= side
        is_boolean = "boolean=True" in attributes
        low = 0 if is_boolean or "nonneg=True" in attributes else None
        high = 1 if is_boolean else 0 if "nonpos=True" in attributes else None
        self.marked.append(Marked(name, shape, size, width, low, high))
        kept = ["nonneg=True"] if is_boolean else [word for word in attributes if word != "integer=True"]
        return f"{name} = cp.Variable({', '.join(filter(None, [shape, *kept]))})"

    def _add_sums(self) -> None:
        """The variable of the sums, whose entries are within the sums of the bounds of what is added."""
        own, count = self.root, len(self.sums)
        self.added = [[self.place(name, entry) for name, entry in listed] for listed in self.sums]
        self.marked.append(Marked(self.sums_name, str(count), count, count, None, None))
        for listed in self.added:
            sides = [[own[at][side] for at in listed] for side in (0, 1)]
            self.of_sums += (tuple(None if None in side else sum(side) for side in sides),)

    def _entry(self, name: str, entry: int) -> str:
        """An entry of a variable, as a script says it."""
        item = next(item for item in self.marked if item.name == name)
        if not item.shape:
            return name
        return f"{name}[{entry // item.width}, {entry % item.width}]" if "(" in item.shape else f"{name}[{entry}]"

    def _declarations(self) -> Iterator[str]:
        if self.sums:
            yield f"{self.sums_name} = cp.Variable({len(self.sums)})"
        if self.has_goal:
            yield f"{self._goal} = cp.Parameter()"
        for item in self.marked:
            for end in (self._low, self._high):
                yield f"{item.name}{end} = cp.Parameter({item.shape})"

    @staticmethod
    def _values(settings: str) -> Iterator[str]:
        """The parameters' values, as lines of the script."""
        for item in settings.strip().split("; "):
            if item != "{}":
                name, _, value = item.partition(" = ")
                yield f"{name}.value = " + (f"np.array({value})" if value.startswith("[") else value)

    @staticmethod
    def _opened(code: str, problem) -> str:
        return code if problem.group(4) != ")" else f"{code[:-1]}, ["

    def _constraints(self, problem) -> Iterator[str]:
        for number, listed in enumerate(self.sums):
            yield f"    {' + '.join(self._entry(*of) for of in listed)} == {self.sums_name}[{number}],"
        if self.has_goal:
            yield f"    {problem.group(3)} {'>=' if self.is_maximized else '<='} {self._goal},"
        for item in self.marked:
            yield f"    {item.name} >= {item.name}{self._low},"
            yield f"    {item.name} <= {item.name}{self._high},"

    # Boxes

    @property
    def root(self) -> Box:
        """The box of all whole points, by the declarations."""
        listed = [(item.low, item.high) for item in self.marked for _ in range(item.size)]
        return tuple(listed[: len(listed) - len(self.of_sums)]) + self.of_sums

    def setting(self, box: Box, goal) -> str:
        """The line of settings of a box, with the goal where there is one."""
        items, at = ([f"{self._goal} = {goal}"] if self.has_goal else []), 0
        for item in self.marked:
            ends = box[at : at + item.size]
            at += item.size
            for side, name, open_end in ((0, self._low, -OPEN), (1, self._high, OPEN)):
                numbers = [str(open_end if end[side] is None else end[side]) for end in ends]
                items.append(f"{item.name}{name} = {_nested(numbers, item)}")
        return "; ".join(items) or "{}"

    def place(self, name: str, entry: int) -> int:
        """The place in a box of an entry of a variable."""
        at = 0
        for item in self.marked:
            if item.name == name and 0 <= entry < item.size:
                return at + entry
            at += item.size
        raise Unfit(f"{name} has no entry {entry} that is to be whole")

    def leaves(self, tree: list) -> Iterator[Box]:
        """The boxes of a tree's leaves, in order. A node of the list is 0, a leaf, or [NAME, ENTRY, K], which has two
        sides: where the entry is at most K, and where it is at least K + 1. So whatever whole point a box has, one of
        its sides has it. Raises `Unfit` where the list ends before a side, or goes on behind the last one."""
        waiting = [self.root]
        for node in tree:
            if not waiting:
                raise Unfit("the tree goes on behind its last box")
            box = waiting.pop()
            if node == 0:
                yield box
                continue
            name, entry, k = node
            if not isinstance(k, int):
                raise Unfit("a split at what is no whole number")
            at = self.place(name, entry)
            low, high = box[at]
            above = (k + 1 if low is None else max(low, k + 1), high)
            below = (low, k if high is None else min(high, k))
            waiting += [box[:at] + (ends,) + box[at + 1 :] for ends in (above, below)]
        if waiting:
            raise Unfit("the tree ends before a side of a split: its boxes don't cover all whole points")


def _nested(numbers: list[str], item: Marked) -> str:
    if not item.shape:
        return numbers[0]
    if not item.shape.startswith("("):
        return f"[{', '.join(numbers)}]"
    rows = (numbers[at : at + item.width] for at in range(0, item.size, item.width))
    return "[" + ", ".join(f"[{', '.join(row)}]" for row in rows) + "]"
