"""Objectives: what is to be least, or greatest."""

from __future__ import annotations

from fractions import Fraction
from typing import Any, Optional

from . import sites
from .errors import DCPError
from .expressions import Expression, as_expression
from .questions import refuse_context
from .trees import Made

__all__ = ["Maximize", "Minimize", "Objective"]


class Objective(Made):
    """An expression of one entry that is to be least or greatest. `args` holds the expression, `site` the user's
    line.

    Objectives may be added, negated, and scaled by numbers, as CVXPY has it. Raises `ValueError` where the expression
    has more entries than one, `TypeError` where it is none.
    """

    __slots__ = ("args", "site")
    NAME = ""

    def __init__(self, expr: Any):
        if isinstance(expr, Objective):
            raise TypeError("an objective is made of an expression, and not of an objective; its expression is `.expr`")
        expression = as_expression(expr)
        self.site = sites.here()
        if expression.size != 1:
            raise ValueError(
                f"The '{self.NAME}' objective must resolve to a scalar: the expression has the shape "
                f"{expression.shape}\n  {self.site}"
            )
        self.args = (expression,)

    @property
    def expr(self) -> Expression:
        """The expression."""
        return self.args[0]

    @property
    def value(self) -> Optional[float]:
        """The expression's value at the variables' values, as a float; None where one is missing."""
        exact = self.exact
        return None if exact is None else float(exact)

    @property
    def exact(self) -> Optional[Fraction]:
        """The expression's value at the variables' values; None where one is missing."""
        array = self.expr._array()
        return None if array is None else array.dense().entries[0]

    def _roots(self) -> list:
        return [self.expr]

    def is_dcp(self, dpp: bool = False) -> bool:
        """Whether the rules accept the objective; with `dpp` also where its parameters may vary."""
        from . import problems

        return problems.Problem(self).is_dcp(dpp)

    def is_dpp(self, context: str = "dcp") -> bool:
        """Whether the rules accept the objective also where its parameters may vary. UnsupportedError of another
        context."""
        refuse_context(context)
        return self.is_dcp(dpp=True)

    def __neg__(self) -> Objective:
        return _OTHER[type(self)](-self.expr)

    def __add__(self, other: Any) -> Objective:
        if type(other) is type(self):
            return type(self)(self.expr + other.expr)
        if isinstance(other, Objective):
            raise DCPError("the sum of a Minimize and a Maximize is neither: negate one of them", sites.here())
        if isinstance(other, (int, float)) and other == 0:
            return self
        return NotImplemented

    __radd__ = __add__

    def __sub__(self, other: Any) -> Objective:
        return self + -other if isinstance(other, Objective) else self.__add__(other)

    def __mul__(self, factor: Any) -> Objective:
        if isinstance(factor, (Objective, Expression)):
            return NotImplemented
        kind = type(self) if factor >= 0 else _OTHER[type(self)]
        return kind(self.expr * factor)

    __rmul__ = __mul__

    def __truediv__(self, divisor: Any) -> Objective:
        if isinstance(divisor, (Objective, Expression)):
            return NotImplemented
        kind = type(self) if divisor > 0 else _OTHER[type(self)]
        return kind(self.expr / divisor)

    def __str__(self) -> str:
        return f"{self.NAME} {self.expr}"

    def __repr__(self) -> str:
        return f"{type(self).__name__}({self.expr!r})"


class Minimize(Objective):
    """The expression is to be least. It is to be convex by the rules."""

    __slots__ = ()
    NAME = "minimize"


class Maximize(Objective):
    """The expression is to be greatest. It is to be concave by the rules."""

    __slots__ = ()
    NAME = "maximize"


_OTHER = {Minimize: Maximize, Maximize: Minimize}
