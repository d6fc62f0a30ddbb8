"""Scripts made from another one by what stands at places of its text: constants in the place of its variables, and
constraints beside its own. All else stays as it was written, so that a person can compare the two.
"""
from __future__ import annotations

from fractions import Fraction
from typing import Iterable, NamedTuple, Sequence

from ..exact.tokens import tokens_of
from ..numbers import text as number_text

OBJECTIVE = "dcx_objective"
_NUMPY = "dcx_np"
_OPENING, _CLOSING = {"(", "[", "{"}, {")", "]", "}"}


class Unwritten(Exception):
    """The script has a form in which the places aren't found."""


class Edit(NamedTuple):
    """Text that stands in the place of what is between two offsets."""

    start: int
    end: int
    text: str


class Text:
    """A script's text with its tokens, and the problem that it stands for."""

    def __init__(self, text: str, problem):
        self.text, self.problem = text, problem
        self.tokens = [token for token in tokens_of(text) if token.kind not in ("indent", "dedent")]
        self.at = {token.place: i for i, token in enumerate(self.tokens) if token.kind not in ("newline", "end")}

    def with_values(self, point: Sequence[Sequence[Fraction]]) -> str:
        """The script with constants in the place of its variables. What the declarations say of them is stated by
        constraints. `point` has the entries of each variable, in the problem's order."""
        edits, kept = [], []
        wants_numpy = False
        for (name, number), entries in zip(self.problem.variables, point):
            node = self.problem.nodes[number]
            wants_numpy |= len(node.shape) == 2
            edits.append(self._declaration(node, entries))
            kept.extend(_stated(name, node.call[2], self._module(node)))
        if wants_numpy:
            edits.append(Edit(0, 0, f"import numpy as {_NUMPY}\n"))
        if kept:
            edits.append(self._beside(kept))
        return self._edited(edits)

    def with_constraints(self, listed: Iterable[str]) -> str:
        """The script with further constraints behind its own. In these `dcx_objective` is the objective."""
        first, last = self._arguments(self.at[self.problem.objective_place])
        expression = self.text[_start(self.tokens[first]) : self.tokens[last].end]
        line = first
        while line and self.tokens[line - 1].kind != "newline":
            line -= 1
        start = _start(self.tokens[line])
        listed = list(listed)
        edits = [Edit(start, start, f"{OBJECTIVE} = ({expression})\n"), self._beside(listed)]
        return self._edited(edits)

    # Places

    def _module(self, node) -> str:
        """What CVXPY is called where a variable is declared."""
        return self.tokens[self._declared(node) - 2].text

    def _declared(self, node) -> int:
        """The token `Variable` of a variable's declaration."""
        at = self.at[node.place]
        while self.tokens[at].text != "Variable":
            at += 1
            if self.tokens[at].kind in ("newline", "end"):
                raise Unwritten("a variable is declared in a form in which no numbers can stand in its place")
        return at

    def _declaration(self, node, entries) -> Edit:
        """Numbers in the place of the call that declares a variable."""
        at = self._declared(node)
        numbers = [number_text(Fraction(v)) for v in entries]
        if not node.shape:
            given = numbers[0]
        elif len(node.shape) == 1:
            given = f"[{', '.join(numbers)}]"
        else:
            width = node.shape[1]
            rows = (f"[{', '.join(numbers[i:i + width])}]" for i in range(0, len(numbers), width))
            given = f"{_NUMPY}.array([{', '.join(rows)}])"
        return Edit(_start(self.tokens[at]), self.tokens[self._closing(at + 1)].end, f"Constant({given})")

    def _beside(self, listed: Sequence[str]) -> Edit:
        """Constraints behind those of the problem."""
        at = next(
            (
                i for i, token in enumerate(self.tokens)
                if token.text == "Problem" and token.kind == "name" and self.tokens[i + 1].text == "("
            ),
            None,
        )
        if at is None:
            raise Unwritten("the problem is stated in a form to which no constraint can be added")
        given = f"[{', '.join(listed)}]"
        close = self._closing(at + 1)
        comma = self._comma(at + 2, close)
        if comma is None:
            end = self.tokens[close - 1].end
            return Edit(end, end, f", {given}")
        first, last = comma + 1, close - 1
        if self.tokens[last].text == ",":
            last -= 1
        if last < first:
            return Edit(self.tokens[comma].end, self.tokens[comma].end, f" {given}")
        if self.tokens[first].kind == "name" and self.tokens[first + 1].text == "=":
            first += 2
        start, end = _start(self.tokens[first]), self.tokens[last].end
        return Edit(start, end, f"({self.text[start:end]}) + {given}")

    def _arguments(self, at: int) -> tuple[int, int]:
        """The first and the last token between the brackets of the call at a token."""
        while self.tokens[at].text != "(":
            at += 1
        first, last = at + 1, self._closing(at) - 1
        return first, last - (self.tokens[last].text == ",")

    def _closing(self, at: int) -> int:
        """The token that closes the bracket at a token."""
        depth = 0
        for i in range(at, len(self.tokens)):
            text = self.tokens[i].text if self.tokens[i].kind == "sign" else ""
            depth += (text in _OPENING) - (text in _CLOSING)
            if depth == 0:
                return i
        raise Unwritten("a bracket isn't closed")

    def _comma(self, at: int, end: int):
        """The first comma outside of further brackets, None where there is none."""
        depth = 0
        for i in range(at, end):
            text = self.tokens[i].text if self.tokens[i].kind == "sign" else ""
            depth += (text in _OPENING) - (text in _CLOSING)
            if depth == 0 and text == ",":
                return i
        return None

    def _edited(self, edits: Iterable[Edit]) -> str:
        """The text behind the edits."""
        parts, at = [], 0
        for edit in sorted(edits):
            parts += [self.text[at : edit.start], edit.text]
            at = edit.end
        return "".join([*parts, self.text[at:]])


def _start(token) -> int:
    return token.end - len(token.text)


def _stated(name: str, attribute: str, module: str) -> list[str]:
    """What an attribute says of a variable, as constraints."""
    return {
        "nonneg": [f"{name} >= 0"],
        "nonpos": [f"{name} <= 0"],
        "symmetric": [f"{name} == {name}.T"],
        "diag": [f"{name} == {module}.diag({module}.diag({name}))"],
    }.get(attribute, [])
