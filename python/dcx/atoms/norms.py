"""Norms, of the orders that are piecewise linear: 1 and infinity."""
from __future__ import annotations

from typing import Any

from .. import sites
from ..errors import UnsupportedError
from ..expressions import Axis, Expression, Operand, as_expression
from .folds import folded, max

_INFINITY = ("inf", "Inf")


def norm1(x: Operand, axis: Axis = None, keepdims: bool = False) -> Expression:
    """The sum of the magnitudes of all entries, of a matrix too, or along an axis. Shapes and errors are those of
    `folds.folded`."""
    return folded("norm1", x, axis, keepdims, 0)


def norm_inf(x: Operand, axis: Axis = None, keepdims: bool = False) -> Expression:
    """The greatest magnitude of all entries, of a matrix too, or along an axis. Shapes and errors are those of
    `folds.folded`."""
    return folded("norm_inf", x, axis, keepdims)


def is_infinite(p: Any) -> bool:
    """Whether an order of a norm is the infinite one, in one of its spellings."""
    return p in _INFINITY if isinstance(p, str) else _is_number(p) and p == float("inf")


def _is_number(p) -> bool:
    return hasattr(p, "__float__") and not getattr(p, "shape", ())


def norm(x: Operand, p: Any = 2, axis: Axis = None, keepdims: bool = False) -> Expression:
    """The norm of order p of a vector, or of each line along an axis; of a matrix the norm of it as a map: the greatest
    sum of magnitudes of a column where p is 1, and of a row where it is infinity.

    UnsupportedError of every other order, and so where none is given and p is 2, unless there is one entry.
    """
    x = as_expression(x)
    if x.is_scalar() and _is_order(p) and axis is None:
        return norm1(x, axis, keepdims)
    if axis is None and x.ndim == 2:
        if _is_number(p) and p == 1:
            return _of_map(x, 0, keepdims)
        if is_infinite(p):
            return _of_map(x, 1, keepdims)
        raise _refusal(p, "matrix")
    if _is_number(p) and p == 1:
        return norm1(x, axis, keepdims)
    if is_infinite(p):
        return norm_inf(x, axis, keepdims)
    raise _refusal(p, "vector")


def _is_order(p) -> bool:
    return is_infinite(p) or p in ("fro", "nuc") if isinstance(p, str) else _is_number(p) and p >= 1


def _of_map(x: Expression, axis: int, keepdims: bool) -> Expression:
    return max(norm1(x, axis=axis, keepdims=keepdims), keepdims=keepdims)


def _refusal(p, of: str) -> UnsupportedError:
    spelled = "the order 2, which is taken where none is given," if _is_number(p) and p == 2 else f"the order {p!r}"
    return UnsupportedError(f"a norm of a {of} of {spelled} isn't piecewise linear: write cp.norm(x, 1) or cp.norm(x, "
                            "\"inf\"); "
                            "for least squares cp.norm1(x), for a limit on a length cp.norm_inf(x) or a bound on c @ "
                            "x for each of several directions c", sites.here())


def norm2(x: Operand, axis: Axis = None, keepdims: bool = False) -> Expression:
    """The Euclidean norm. UnsupportedError, unless there is one entry."""
    return norm(x, 2, axis, keepdims)


def pnorm(x: Operand, p: Any = 2, axis: Axis = None, keepdims: bool = False, max_denom: int = 1024) -> Expression:
    """The norm of order p of all entries, or along an axis; `max_denom`, by which CVXPY rounds other orders, has no
    meaning here. UnsupportedError unless p is 1 or infinity."""
    x = as_expression(x)
    if (_is_number(p) and p == 1) or (x.is_scalar() and axis is None and _is_order(p)):
        return norm1(x, axis, keepdims)
    if is_infinite(p):
        return norm_inf(x, axis, keepdims)
    raise _refusal(p, "vector")


def mixed_norm(X: Operand, p: Any = 2, q: Any = 1) -> Expression:
    """The norm of order q of the norms of order p of the rows. UnsupportedError unless both are 1 or infinity."""
    return norm(norm(X, p, axis=1), q)
