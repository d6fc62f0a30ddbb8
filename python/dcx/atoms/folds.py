"""Calls that fold the entries of an expression, all of them or along an axis: sums, means, greatest and least entries.
"""
from __future__ import annotations

import builtins
import math
from fractions import Fraction
from typing import Any

from .. import operators, shapes, sites
from ..arrays import filled
from ..errors import UnsupportedError
from ..expressions import Axis, Constant, Expression, Operand, as_expression, node, numbers_of
from ..numbers import exact


def folded(kind: str, expr: Operand, axis: Axis, keepdims: bool, nothing: int | None = None) -> Expression:
    """A call of one kind of all entries, as one number without a side, or along an axis, which its shape loses, or
    keeps with the length 1 where `keepdims` is true; of no entries it gives `nothing`, where there is such a number.

    ValueError where there is no such axis, or where there are no entries and nothing can be told of them; TypeError
    where the axis is no whole number or `keepdims` no truth value.
    """
    expr = as_expression(expr)
    if not isinstance(keepdims, bool) and type(keepdims).__name__ != "bool_":
        raise TypeError(f"keepdims is True or False, and not {keepdims!r}")
    axis = shapes.axis_of(axis, expr.shape)
    kept = shapes.folded(expr.shape, axis, keepdims)
    if 0 in expr.shape:
        if nothing is None:
            raise ValueError(f"{kind} of an expression without entries: its shape is {expr.shape}")
        return Constant(filled(kept, nothing))
    if expr.ndim < 2:
        axis = None
    result = expr if expr.shape == () and kind in ("sum", "mean", "max", "min") else node(
        kind, (expr,), (axis,), shapes.folded(expr.shape, axis))
    return operators.by_rows(result, kept)


def sum(expr: Operand, axis: Axis = None, keepdims: bool = False) -> Expression:
    """The sum of all entries, or along an axis, 0 of none; of a list of expressions their sum by `+`, whatever the
    axis, as CVXPY has it. Shapes and errors are those of `folded`."""
    if isinstance(expr, list):
        return builtins.sum(expr)
    return folded("sum", expr, axis, keepdims, 0)


def mean(X: Operand, axis: Axis = None, keepdims: bool = False) -> Expression:
    """The mean of all entries, or along an axis. Shapes and errors are those of `folded`."""
    return folded("mean", X, axis, keepdims)


def max(expr: Operand, axis: Axis = None, keepdims: bool = False) -> Expression:
    """The greatest of all entries, or along an axis. Shapes and errors are those of `folded`."""
    return folded("max", expr, axis, keepdims)


def min(expr: Operand, axis: Axis = None, keepdims: bool = False) -> Expression:
    """The least of all entries, or along an axis. Shapes and errors are those of `folded`."""
    return folded("min", expr, axis, keepdims)


def ptp(x: Operand, axis: Axis = None, keepdims: bool = False) -> Expression:
    """The greatest entry less the least one, of all, or along an axis. Shapes and errors are those of `folded`."""
    x = as_expression(x)
    return max(x, axis, keepdims) - min(x, axis, keepdims)


def sum_largest(x: Operand, k: Operand) -> Expression:
    """The sum of the k greatest of all entries, one number; where k is a fraction, of its whole part and that share of
    the next one, and where it is greater than their count, of all.

    ValueError where k isn't above 0; UnsupportedError where it isn't a constant.
    """
    return _share("sum_largest", x, k)


def sum_smallest(x: Operand, k: Operand) -> Expression:
    """The sum of the k least of all entries, one number; where k is a fraction, of its whole part and that share of
    the next one, and where it is greater than their count, of all.

    ValueError where k isn't above 0; UnsupportedError where it isn't a constant.
    """
    return _share("sum_smallest", x, k)


def _share(kind: str, x, k) -> Expression:
    x = as_expression(x)
    if isinstance(k, Expression):
        numbers = numbers_of(k) if k.is_scalar() else None
        if numbers is None:
            raise UnsupportedError("of how many entries a sum is has to be a number", sites.here())
        k = numbers.entries[0]
    k = exact(k)
    if k <= 0:
        raise ValueError("Second argument must be a positive integer, or a fraction above 0.")
    whole, rest = math.floor(k), k - math.floor(k)
    if not rest:
        return _whole_share(kind, x, whole)
    parts = [operators.scaled(rest, _whole_share(kind, x, whole + 1))]
    if whole:
        parts.append(operators.scaled(1 - rest, _whole_share(kind, x, whole)))
    return builtins.sum(parts[1:], parts[0])


def _whole_share(kind: str, x: Expression, k: int) -> Expression:
    if k >= x.size:
        return sum(x)
    if k == 1:
        return max(x) if kind == "sum_largest" else min(x)
    return node(kind, (x,), (k,), ())


def cvar(x: Operand, beta: Any) -> Expression:
    """The mean of the share 1 - beta of the greatest entries, the conditional value at risk: one number. ValueError
    unless 0 <= beta < 1, TypeError where it is no number."""
    x = as_expression(x)
    beta = exact(beta)
    if not 0 <= beta < 1:
        raise ValueError("beta must be between 0 and 1, and below 1")
    share = (1 - beta) * x.size
    return operators.scaled(1 / share, sum_largest(x, share))


def dotsort(X: Operand, W: Operand) -> Expression:
    """The scalar product of the entries of X and the numbers of W, both sorted, one number. ValueError where W has more
    entries, UnsupportedError where it isn't numbers."""
    X, W = as_expression(X), as_expression(W)
    numbers = numbers_of(W)
    if numbers is None:
        raise UnsupportedError("the weights of dotsort have to be numbers", sites.here())
    if W.size > X.size:
        raise ValueError("The size of W must be less or equal to the size of X.")
    weights = sorted(list(numbers.entries) + [Fraction(0)] * (X.size - W.size), reverse=True)
    parts = [operators.scaled(before - after, sum_largest(X, k))
             for k, (before, after) in enumerate(zip(weights, weights[1:]), 1) if before != after]
    if weights[-1]:
        parts.append(operators.scaled(weights[-1], sum(X)))
    return builtins.sum(parts[1:], parts[0]) if parts else Constant(0)


def tv(value: Operand, *args: Operand) -> Expression:
    """The sum of the magnitudes of the differences of a vector's neighbours, one number.

    ValueError of what has no side; UnsupportedError of a matrix, whose total variation has Euclidean norms in it.
    """
    value = as_expression(value)
    if value.ndim == 0:
        raise ValueError("tv cannot take a scalar argument.")
    if value.ndim == 2 or args:
        raise UnsupportedError("tv of a matrix has Euclidean norms in it, which aren't piecewise linear: write "
                               "cp.sum(cp.abs(cp.diff(X, axis=0))) + cp.sum(cp.abs(cp.diff(X, axis=1)))", sites.here())
    if value.shape[0] < 2:
        return Constant(0)
    return node("tv", (value,), (), ())


def cumsum(expr: Operand, axis: int = 0) -> Expression:
    """The running sums along an axis, in the shape of the expression. ValueError where it has no such axis."""
    expr = as_expression(expr)
    axis = _running_axis(axis, expr)
    return node("cumsum", (expr,), (axis,), expr.shape)


def cummax(expr: Operand, axis: int = 0) -> Expression:
    """The greatest entries so far along an axis, in the shape of the expression. ValueError where it has no such axis.
    """
    expr = as_expression(expr)
    axis = _running_axis(axis, expr)
    if expr.ndim == 1:
        return node("cummax", (expr,), (), expr.shape)
    from .places import vstack
    if axis == 1:
        return vstack([cummax(row) for row in expr])
    return vstack([cummax(column) for column in expr.T]).T


def _running_axis(axis, expr: Expression) -> int:
    if axis is None and expr.ndim == 1:
        return 0
    if axis is None or expr.ndim == 0:
        raise ValueError(f"Invalid argument for axis: a running call on the shape {expr.shape} wants one, and it is "
                         f"{axis}")
    return shapes.axis_of(axis, expr.shape)
