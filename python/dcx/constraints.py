"""Constraints: two sides that are to be equal, or of which one is at most the other."""
from __future__ import annotations

from fractions import Fraction
from typing import Any, Union

from . import arrays, evaluation, missing, questions, shapes, sites
from .arrays import Array
from .errors import UnsupportedError
from .expressions import Expression, Operand, as_expression, next_number
from .trees import Made, Sided

_TRUTH = ("Cannot evaluate the truth value of a constraint or chain constraints, e.g., 1 >= x >= 0: write two "
          "constraints, [x >= 0, x <= 1]")


class Constraint(Sided, Made):
    """`sides[0] <= sides[1]` or `sides[0] == sides[1]`, entry by entry: `op` is the sign between them.

    `args` are the expressions that it was made of: the two sides, or the one expression of `Zero`, `NonNeg` and
    `NonPos`. `a >= b` is recorded as `b <= a`; `is_turned` tells so, and texts show what the user wrote. `dual_value`
    has the multipliers of the last answer in floats, `exact_dual` in fractions, in the constraint's shape; None before.

    ValueError where the shapes of the sides don't fit; TypeError where one is no number and no expression, and of this
    class itself, which has no sign.
    """

    __slots__ = ("sides", "shape", "site", "id", "is_turned", "_dual", "_known", "__weakref__")
    op = ""

    def __init__(self, left: Operand, right: Operand, is_turned: bool = False):
        from . import operators
        if not self.op:
            raise TypeError("a constraint is made by <=, >= or ==, or of one of its classes, as Zero and NonNeg")
        self.sides = operators.fitted(as_expression(left), as_expression(right))
        self.shape = shapes.paired(*(side.shape for side in self.sides))
        self.site = sites.here()
        self.id = next_number()
        self.is_turned = is_turned
        # what has no entry isn't handed to the program, and has no multiplier either
        self._dual: Array | None = None if self.size else Array(self.shape, ())
        self._known = None

    # ---- shapes and parts

    @property
    def args(self) -> tuple[Expression, ...]:
        """The expressions that it was made of."""
        return self.sides

    @property
    def expr(self) -> Expression:
        """The left side less the right one: what is to be 0, or at most 0."""
        return self.sides[0] - self.sides[1]

    def _roots(self) -> list:
        return list(self.sides)

    def name(self) -> str:
        """The constraint as text, as it was written."""
        left, right = self.sides
        return f"{right} >= {left}" if self.is_turned else f"{left} {self.op} {right}"

    def __str__(self) -> str:
        return self.name()

    def __repr__(self) -> str:
        return f"{type(self).__name__}({self.name()})"

    # ---- truth values, which Python asks for in a chain of comparisons

    def __bool__(self) -> bool:
        raise UnsupportedError(_TRUTH, sites.here())

    def _chained(self, other):
        raise UnsupportedError(_TRUTH, sites.here())

    __le__ = __ge__ = __lt__ = __gt__ = _chained

    def __eq__(self, other):
        return self is other

    def __hash__(self) -> int:
        return id(self)

    # ---- what the rules find

    def is_dcp(self, dpp: bool = False) -> bool:
        """Whether the rules accept it; with `dpp` where parameters may vary too."""
        from . import verdicts
        verdict = verdicts.of_constraint(self)
        return verdict.is_dpp if dpp else verdict.is_dcp

    def is_dpp(self, context: str = "dcp") -> bool:
        """Whether the rules accept it where parameters may vary too. UnsupportedError of another context."""
        questions.refuse_context(context)
        return self.is_dcp(dpp=True)

    # ---- values

    def _residual(self) -> Array | None:
        left, right = (evaluation.value_of(side) for side in self.sides)
        if left is None or right is None:
            return None
        gap = evaluation.minus(left, right)
        each = abs if self.op == "==" else (lambda number: max(number, Fraction(0)))
        return Array(gap.shape, map(each, gap.entries))

    @property
    def residual(self) -> Any:
        """By how much each entry breaks the constraint, in floats, 0 where it is kept; None where a value is missing.
        """
        found = self._residual()
        return None if found is None else arrays.to_floats(found)

    @property
    def exact_residual(self) -> Any:
        """The residual in fractions; None where a value is missing."""
        found = self._residual()
        return None if found is None else arrays.to_fractions(found)

    def violation(self) -> Any:
        """The residual, in the constraint's shape. ValueError where a variable or a parameter has no value."""
        found = self.residual
        if found is None:
            raise ValueError("Cannot compute the violation of an constraint whose expression is None-valued.")
        return found

    def value(self, tolerance: Union[int, float, Fraction] = 1e-8) -> bool:
        """Whether the constraint is kept at the present values, each entry within the tolerance.

        ValueError where a variable or a parameter has no value.
        """
        found = self._residual()
        if found is None:
            raise ValueError("Cannot compute the value of an constraint whose expression is None-valued.")
        return all(number <= tolerance for number in found.entries)

    # ---- multipliers

    @property
    def dual_value(self) -> Any:
        """The multipliers of the last answer in floats, in the constraint's shape; None where there are none."""
        return None if self._dual is None else arrays.to_floats(self._dual)

    @property
    def exact_dual(self) -> Any:
        """The multipliers of the last answer in fractions, in the constraint's shape; None where there are none."""
        return None if self._dual is None else arrays.to_fractions(self._dual)

    def _set_dual(self, array: Array | None) -> None:
        """What an answer sets: the multipliers row by row, of as many entries as the constraint has, or None."""
        self._dual = None if array is None else Array(self.shape, array.entries)


missing.refuse(Constraint, "constraint")


class Inequality(Constraint):
    """`Inequality(left, right)`: the left side is at most the right one, as `left <= right` records it."""

    __slots__ = ()
    op = "<="


class Equality(Constraint):
    """`Equality(left, right)`: the sides are equal, as `left == right` records it."""

    __slots__ = ()
    op = "=="


class _OfOne(Constraint):
    """A constraint of one expression, whose other side is 0."""

    __slots__ = ()
    _place = 0  # of the expression among the sides

    @property
    def args(self) -> tuple[Expression, ...]:
        """The expression."""
        return (self.sides[self._place],)

    @property
    def expr(self) -> Expression:
        """The expression."""
        return self.args[0]


class Zero(_OfOne):
    """`Zero(expr)`: each entry of the expression is 0."""

    __slots__ = ()
    op = "=="

    def __init__(self, expr: Operand):
        super().__init__(expr, 0)


class NonPos(_OfOne):
    """`NonPos(expr)`: each entry of the expression is at most 0."""

    __slots__ = ()
    op = "<="

    def __init__(self, expr: Operand):
        super().__init__(expr, 0)


class NonNeg(_OfOne):
    """`NonNeg(expr)`: each entry of the expression is at least 0."""

    __slots__ = ()
    op = "<="
    _place = 1

    def __init__(self, expr: Operand):
        super().__init__(0, expr, is_turned=True)
