"""The script that is handed to the program: a model in the program's language, readable by a person, and what its
names, its constraints' numbers and its places stand for.

Names are the user's where these are valid and free (`flow[a,b]` is `flow_a_b`), else `x1`, `p1`. Arrays have names,
`c1`, and so has what stands in two places, `e1`, unless it is no more than an entry, a slice or a multiple of something
with a name. Each constraint has a line of its own, with the file and the line that made it. The same model gives the
same script. Values of parameters stand in lines of settings, and not in the script.
"""

from __future__ import annotations

import keyword
import re
from contextlib import contextmanager
from typing import Any, Iterable, Iterator, Mapping, NamedTuple, Optional, Sequence

from . import forms
from .arrays import Array
from .errors import LimitError, ParameterError
from .graph import MOST, Graph, Part
from .sheets import Places, Sheet

__all__ = ["Script", "settings_line", "written"]

_BYTES = 1_048_576  # of a script
_BRACKETS = 40  # open together in an expression; the language takes 64, and those of the problem are among them
_TAKEN = {*keyword.kwlist, "print", "cp", "np", "range"}


class Script:
    """A script with what stands in it.

    `text` is the script. `variables` and `parameters` give the user's object for each name, in the order of
    declaration, and `constraints` for each number, from 1, by which the program tells multipliers; those that
    attributes of variables add come last. `names` and `numbers` lead back, from the objects to their names and numbers.
    `idle` has the variables and parameters of the model that are multiplied by zeros alone and don't stand in the
    script: any value will do.
    """

    def __init__(
        self, text: str, names: Mapping[str, Any], constraints: Sequence[Any], idle: Iterable[Any], places: Places
    ):
        self.text = text
        self.idle = frozenset(idle)
        self.variables = {name: leaf for name, leaf in names.items() if leaf.kind == "variable"}
        self.parameters = {name: leaf for name, leaf in names.items() if leaf.kind == "parameter"}
        self.constraints = dict(enumerate(constraints, 1))
        self.names = {leaf: name for name, leaf in names.items()}
        self.numbers = {constraint: number for number, constraint in self.constraints.items()}
        self._places = places

    def at(self, line: int, column: int) -> Any:
        """The user's expression, constraint or objective at a place of the script, as the program tells places, from 1
        and in bytes; None where there is none."""
        return self._places.at(line, column)

    def leaf(self, kind: str, key: Any) -> Any:
        """The variable or the parameter of the problem, as `kind` says, that a key is or names, by the user's name or
        the script's; None where it is none. Raises `KeyError` where several have the name."""
        if not isinstance(key, str):
            is_reached = key in self.names or key in self.idle
            return key if is_reached and key.kind == kind else None
        own = self.variables if kind == "variable" else self.parameters
        named = [leaf for leaf in (*own.values(), *self.idle) if leaf.kind == kind and leaf.name() == key]
        if len(named) > 1:
            raise KeyError(f"{key!r} is the name of {len(named)} {kind}s: give the {kind} itself in its place")
        return named[0] if named else own.get(key)

    def settings_line(self, values: Optional[Mapping[Any, Array]] = None) -> str:
        """The line of settings, with its end, that gives each parameter its value in `values`, else the one that it
        has.

        Raises `ParameterError` where a parameter has none, `LimitError` where a number passes what the language
        holds.
        """
        return settings_line(self.parameters, values)

    def __repr__(self) -> str:
        lines = self.text.count("\n")
        return f"Script({lines} lines, {len(self.variables)} variables, {len(self.constraints)} constraints)"


def settings_line(parameters: Mapping[str, Any], values: Optional[Mapping[Any, Array]] = None) -> str:
    """The line of settings that gives these parameters, by name, their values: those of `values`, else their own."""
    items = []
    for name, parameter in parameters.items():
        array = None if values is None else values.get(parameter)
        if array is None:
            array = parameter._array()
        if array is None:
            raise ParameterError(
                f"A Parameter (whose name is '{parameter.name()}') does not have a value associated with it; "
                "all Parameter objects must have values before solving a problem.",
                parameter.site,
            )
        with _limit_at(parameter):
            items.append(f"{name} = {forms.nested(array.dense())}")
    return ("; ".join(items) or "{}") + "\n"


def written(objective: Any, constraints: Iterable[Any] = ()) -> Script:
    """The script of a problem. Constraints that variables' attributes stand for come behind the given ones.

    Raises `LimitError` where the model has more nodes, entries or bytes than the language takes, or a number that it
    doesn't hold.
    """
    return _Writer(objective, constraints).script()


class _Writer:
    """Writes one script."""

    def __init__(self, objective: Any, constraints: Iterable[Any]):
        self.objective = objective
        # the same constraint twice is one, and what has no entry asks for nothing
        self.constraints = [constraint for constraint in dict.fromkeys(constraints) if constraint.size]
        roots = [objective.args[0], *(side for constraint in self.constraints for side in constraint.sides)]
        graph = Graph(roots)
        variables = [leaf for leaf in graph.leaves() if leaf.kind == "variable"]
        own = [constraint for variable in variables for constraint in variable.own_constraints()]
        if own:
            self.constraints += own
            graph = Graph(roots + [side for constraint in own for side in constraint.sides])
        _check_limits(graph, objective, self.constraints)
        self.graph = graph
        self.parts = graph.used()
        self.names: dict[int, str] = {}  # by the id of a part
        self.idle = [leaf for leaf in graph.leaves() if not graph.part_of(leaf).uses]
        self.leaves = _named([leaf for leaf in graph.leaves() if graph.part_of(leaf).uses])
        self.taken = {*_TAKEN, *self.leaves.values()}
        self.counts: dict[str, int] = {}
        self.sheet = Sheet()

    def script(self) -> Script:
        """The script."""
        sheet = self.sheet
        for part in self.parts:
            if part.kind in ("variable", "parameter"):
                self.names[id(part)] = self.leaves[part.source]
        named = self.to_name()
        arrays = [part for part in named if part.kind == "constant"]
        for part in named:
            self.names[id(part)] = self.fresh("c" if part.kind == "constant" else "e")

        sheet.line("import cvxpy as cp")
        if any(part.kind == "constant" and part.shape for part in self.parts):
            sheet.line("import numpy as np")
        sheet.line()
        for part in arrays:
            with _limit_at(part.source):
                lines = forms.array_lines(part.array, len(self.names[id(part)]) + 3)
            self.declare(part, lines)
        for kind in ("parameter", "variable"):
            for leaf in self.leaves:
                if leaf.kind == kind:
                    self.declare(self.graph.part_of(leaf), [forms.declaration(leaf)])
        for part in named:
            if part.kind != "constant":
                sheet.put(f"{self.names[id(part)]} = ")
                self.expression(part, forms.SUM, whole=True)
                sheet.end(part.source.site)
        sheet.line()
        self.problem(self.fresh("prob", bare=True))
        text = sheet.text()
        size = len(text.encode())
        if size > _BYTES:
            raise LimitError(
                f"the script of the model has {size:,} bytes, {size - _BYTES:,} more than the {_BYTES:,} that the "
                "program reads; numbers of fewer digits, or less data, make it shorter",
                self.objective.site,
            )
        names = {name: leaf for leaf, name in self.leaves.items()}
        return Script(text, names, self.constraints, self.idle, sheet.places)

    # ---- names

    def fresh(self, stem: str, bare: bool = False) -> str:
        """A name that is free: the stem with the next number, or, with `bare`, the stem itself where it is free."""
        name = stem if bare else ""
        while not name or name in self.taken:
            self.counts[stem] = self.counts.get(stem, 0) + 1
            name = f"{stem}{self.counts[stem]}"
        self.taken.add(name)
        return name

    def to_name(self) -> list[Part]:
        """The parts that get a name and a line of their own: arrays, what stands twice, and what would stand in too
        many brackets."""
        named: list[Part] = []
        light: set[int] = set()  # what may stand twice: what has a name, numbers, and entries and multiples of these
        open_in: dict[int, int] = {}  # how many brackets are open together in a part
        for part in self.parts:
            open_here = forms.brackets(part, open_in)
            is_light = not part.args or (forms.is_light(part) and all(id(arg) in light for arg in part.args))
            if part.kind == "constant":
                wants_name = part.size > 1
            else:
                wants_name = open_here > _BRACKETS or (part.uses > 1 and not is_light)
            if wants_name:
                named.append(part)
                is_light, open_here = True, 0
            if is_light:
                light.add(id(part))
            open_in[id(part)] = open_here
        return named

    # ---- lines

    def declare(self, part: Part, lines: list[str]) -> None:
        """Writes the line, or the lines, that give a leaf or an array its name."""
        sheet = self.sheet
        start = f"{self.names[id(part)]} = "
        sheet.put(start)
        with sheet.span(part.source):
            sheet.mark(part.source)
            sheet.put(lines[0])
        for line in lines[1:]:
            sheet.line()
            sheet.put(" " * len(start) + line)
        sheet.end(part.source.site)

    def problem(self, name: str) -> None:
        """Writes the problem: the objective, and a line for each constraint."""
        sheet = self.sheet
        sheet.put(f"{name} = cp.Problem(")
        with sheet.span(self.objective):
            sheet.mark(self.objective)
            sheet.put(f"cp.{self.objective.NAME.capitalize()}(")
            self.expression(self.graph.part_of(self.objective.args[0]), forms.SUM)
            sheet.put(")")
        sheet.put(", [" if self.constraints else ")")
        sheet.end(self.objective.site)
        for constraint in self.constraints:
            sheet.put("    ")
            self.constraint(constraint)
            sheet.put(",")
            sheet.end(constraint.site)
        if self.constraints:
            sheet.line("])")

    def constraint(self, constraint: Any) -> None:
        """Writes a constraint, with its sides in the user's order."""
        sheet = self.sheet
        sides, operator = list(map(self.graph.part_of, constraint.sides)), constraint.op
        if operator == "<=" and constraint.is_turned:
            sides, operator = sides[::-1], ">="
        numbers_alone = all(side.plain for side in sides)  # two plain values make no constraint
        with sheet.span(constraint):
            sheet.put("cp.Constant(" if numbers_alone else "")
            self.expression(sides[0], forms.SUM)
            sheet.put(") " if numbers_alone else " ")
            sheet.mark(constraint)
            sheet.put(f"{operator} ")
            self.expression(sides[1], forms.SUM)

    # ---- expressions

    def expression(self, part: Part, least: int, whole: bool = False) -> None:
        """Writes a part, in brackets where it holds less than `least`; with `whole` not its name but what that stands
        for. Expressions may be deeper than Python's stack."""
        todo: list = [(part, least, whole)]
        sheet = self.sheet
        while todo:
            item = todo.pop()
            if isinstance(item, str):
                sheet.put(item)
            elif isinstance(item, _Mark):
                sheet.mark(item.of)
            elif isinstance(item, _Open):
                item.column = sheet.column
            elif isinstance(item, _Close):
                sheet.close(item.open.column, item.of)
            else:
                todo.extend(reversed(self.pieces(*item)))

    def pieces(self, part: Part, least: int, whole: bool = False) -> list:
        """What a part is written of, in order: texts, arguments with what they have to hold, and marks."""
        name = None if whole else self.names.get(id(part))
        if name is not None:
            return [name]
        kind, args, mark = part.kind, part.args, _Mark(part.source)
        if kind == "constant":
            with _limit_at(part.source):
                return [forms.constant(part.array, least)]
        if kind in forms.INFIX:
            left, right = args
            level = forms.INFIX[kind]
            blank = "" if kind in "*/" else " "
            # a sum goes on with the terms of one on its right
            goes_on = kind == "+" and right.kind in "+-" and right.shape == part.shape
            pieces = [(left, level), blank, mark, kind, blank, (right, level if goes_on else level + 1)]
        elif kind == "minus":
            pieces = [mark, "-", (args[0], forms.SIGN)]
        elif kind == "T":
            pieces = [(args[0], forms.ATOM), mark, ".T"]
        elif kind == "index":
            pieces = [(args[0], forms.ATOM), mark, forms.index(part.options, args[0].shape)]
        else:
            pieces = [mark, *forms.call(part)]
        if forms.holds(part) < least:
            pieces = ["(", *pieces, ")"]
        opened = _Open()
        return [opened, *pieces, _Close(opened, part.source)]


class _Mark(NamedTuple):
    """The place by which the program tells of something."""

    of: Any


class _Open:
    """Where an expression begins."""

    column: int


class _Close(NamedTuple):
    """Where an expression ends."""

    open: _Open
    of: Any


def _named(leaves: list[Any]) -> dict[Any, str]:
    """A name for each leaf: the user's where it is valid and free, or is with `_` in place of what no name has, else
    `x` or `p` with the next number that is free."""
    names: dict[Any, str] = {}
    taken = set(_TAKEN)
    for spelled in (str, lambda name: re.sub(r"\W+", "_", name).strip("_")):
        for leaf in leaves:
            name = spelled(leaf.given_name or "")
            if leaf not in names and name.isidentifier() and name not in taken:
                taken.add(name)
                names[leaf] = name
    counts = {"variable": 0, "parameter": 0}
    for leaf in leaves:
        while leaf not in names:
            counts[leaf.kind] += 1
            name = f"{'x' if leaf.kind == 'variable' else 'p'}{counts[leaf.kind]}"
            if name not in taken:
                names[leaf] = name
    return {leaf: names[leaf] for leaf in leaves}


# ---- limits


@contextmanager
def _limit_at(source: Any) -> Iterator[None]:
    """Tells a limit that is passed within at the user's line of a source."""
    try:
        yield
    except LimitError as error:
        if error.site is not None:
            raise
        raise LimitError(error.reason, source.site) from None


def _check_limits(graph: Graph, objective: Any, constraints: Sequence[Any]) -> None:
    """Raises `LimitError`, at the place that passes it, where there are more nodes, entries or constraints than the
    language takes."""
    if len(constraints) > MOST:
        raise LimitError(
            f"the problem has {len(constraints):,} constraints, {len(constraints) - MOST:,} more than the {MOST:,} "
            "that the language takes",
            constraints[MOST].site,
        )
    counted = graph.counted(objective, constraints)
    for what, place in (("nodes", 1), ("entries", 2)):
        total = sum(count[place] for count in counted)
        if total <= MOST:
            continue
        largest = max(counted, key=lambda count: count[place])
        running = 0
        for count in counted:
            running += count[place]
            if running > MOST:
                break
        raise LimitError(
            f"the model has {total:,} {what}, {total - MOST:,} more than the {MOST:,} that the language takes, which "
            f"counts each distinct expression with its entries; the largest part, of {largest[place]:,}, stands at "
            f"{largest[0].site}; the limit is passed here",
            count[0].site,
        )
