"""The rules of convexity over a model of any size: the second reading of the rules, `dcx.exact.rules`, is handed what
was recorded, where the model passes what the program's language holds."""
from __future__ import annotations

from typing import Any, Optional

from .arrays import Array, Sparse
from .exact.report import SIGNS
from .exact.rules import Rules
from .exact.tree import Constraint, Node, reaches
from .graph import PLAIN
from .trees import postorder

# the words of the rules for what is recorded under others; of an operand's shape and of options no rule speaks
_WORDS = {
    "+": "plus", "*": "times", "multiply": "times", "/": "over", "@": "matmul", "T": "transpose", "vec": "reshape"
}


class _Judged:
    """A problem as the rules want it: nodes behind their arguments, the objective and the constraints."""

    def __init__(self, problem: Any):
        self.nodes: list[Node] = []
        self._numbers: dict[int, int] = {}
        self.sense = problem.objective.NAME
        roots = problem._roots()
        for item in postorder(roots):
            self._numbers[id(item)] = self._made(item)
        objective, *sides = (self._numbers[id(root)] for root in roots)
        self.objective, self.objective_place = objective, None
        kinds = ("equal" if item.op == "==" else "at_most" for item in problem.constraints)
        pairs = zip(kinds, sides[::2], sides[1::2])
        self.constraints = [Constraint(kind, left, right, None, None) for kind, left, right in pairs]
        self.has_variable = reaches(self.nodes, "variable")
        self.has_parameter = reaches(self.nodes, "parameter")

    def _made(self, item: Any) -> int:
        """The number of a recorded expression's node, behind those that it wants besides."""
        args = tuple(self._numbers[id(arg)] for arg in item.args)
        kind = item.kind
        if kind in ("variable", "parameter"):
            signs = [word for word in item.language_attributes() if word in ("nonneg", "nonpos", "boolean")]
            sign = "nonneg" if "boolean" in signs else signs[0] if signs else "free"
            return self._push((kind, None, sign), ())
        if kind == "constant":
            return self._push(("constant", None, _numbers_of(item.array)), ())
        if kind in PLAIN and all(self.nodes[arg].call[0] == "constant" for arg in args):
            return self._push(("constant", None, _numbers_of(item._array())), ())  # the language works it out at once
        if kind == "-":
            return self._push(("plus",), (args[0], self._push(("minus",), args[1:])))
        if kind == "diff" and item.options[0] == 0:
            return args[0]
        if kind == "tv":
            return self._push(("norm1",), (self._push(("diff",), args),))
        return self._push((_WORDS.get(kind, kind),), args)

    def _push(self, call: tuple, args: tuple) -> int:
        self.nodes.append(Node(call, args, None, None))
        return len(self.nodes) - 1


def verdict(problem: Any) -> Optional[tuple[str, str, bool]]:
    """The sign and the curvature of a problem's objective, in the program's words, and whether the rules accept the
    problem where parameters may vary too; None where they refuse it."""
    judged = _Judged(problem)
    rules = Rules(judged, parameters_are_affine=False)
    if rules.breach() is not None:
        return None
    objective = rules.judged[judged.objective]
    is_dpp = Rules(judged, parameters_are_affine=True).breach() is None
    return SIGNS[objective.sign], objective.curvature(), is_dpp


def _numbers_of(array: Any) -> tuple:
    """Numbers that have an array's sign: its own, or of a sparse one those that aren't 0."""
    if isinstance(array, Sparse):
        return tuple(number for row in array.rows for _, number in row)
    return array.entries if isinstance(array, Array) else array.dense().entries
