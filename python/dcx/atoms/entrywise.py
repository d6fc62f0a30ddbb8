"""Calls that go entry by entry."""
from __future__ import annotations

from .. import operators, shapes
from ..expressions import Expression, Operand, as_expression, node


def abs(x: Operand) -> Expression:
    """The magnitude of each entry, in the shape of x."""
    return _each("abs", x)


def pos(x: Operand) -> Expression:
    """Each entry, or 0 where it is below, in the shape of x."""
    return _each("pos", x)


def neg(x: Operand) -> Expression:
    """Each entry negated, or 0 where the entry is above 0, in the shape of x."""
    return _each("neg", x)


def _each(kind: str, x: Operand) -> Expression:
    x = as_expression(x)
    return node(kind, (x,), (), x.shape)


def maximum(arg1: Operand, arg2: Operand, *args: Operand) -> Expression:
    """The greatest of two or more, entry by entry, in the shape to which NumPy broadcasts them. ValueError where the
    shapes don't fit."""
    return _among("maximum", (arg1, arg2) + args)


def minimum(arg1: Operand, arg2: Operand, *args: Operand) -> Expression:
    """The least of two or more, entry by entry, in the shape to which NumPy broadcasts them. ValueError where the
    shapes don't fit."""
    return _among("minimum", (arg1, arg2) + args)


def _among(kind: str, args: tuple) -> Expression:
    items = [as_expression(arg) for arg in args]
    return node(kind, items, (), shapes.broadcast(*(item.shape for item in items)))


def multiply(lh_expr: Operand, rh_expr: Operand) -> Expression:
    """The product entry by entry, in the shape to which NumPy broadcasts the two; what has one entry takes the other's
    shape. ValueError where the shapes don't fit."""
    return operators.elementwise(lh_expr, rh_expr)


def scalene(x: Operand, alpha: Operand, beta: Operand) -> Expression:
    """`alpha * pos(x) + beta * neg(x)`, of two numbers, in the shape of x."""
    x = as_expression(x)
    return alpha * pos(x) + beta * neg(x)
