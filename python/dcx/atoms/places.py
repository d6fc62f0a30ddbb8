"""Calls that move entries: other shapes, stacks, diagonals and triangles, differences of neighbours."""
from __future__ import annotations

from typing import Iterable, Sequence, Union

from .. import operators, shapes
from ..arrays import Array, Sparse, filled, transposed
from ..expressions import Constant, Expression, Operand, as_expression, node


# ---- other shapes

def _by_rows(order) -> bool:
    if order not in ("F", "C"):
        raise ValueError(f"order must be 'F' (by columns) or 'C' (by rows), and not {order!r}")
    return order == "C"


def reshape(expr: Operand, shape: Union[int, Sequence[int]], order: str = "F") -> Expression:
    """The entries in another shape, of which one side may be -1: taken and put by columns, or by rows where the order
    is "C".

    ValueError where the entries don't fill the shape, it has more than two sides, or the order is another one.
    """
    expr = as_expression(expr)
    order = "F" if order is None else order
    is_by_rows = _by_rows(order)
    shape = shapes.reshaped(shape, expr.size)
    if shape == expr.shape:
        return expr
    if is_by_rows or (len(shape) < 2 and expr.ndim < 2) or 1 in shape and (expr.ndim < 2 or 1 in expr.shape):
        return operators.by_rows(expr, shape)
    if expr.kind == "constant":
        turned = Array(shape[::-1], transposed(expr.array.dense()).entries)
        return Constant(transposed(turned))
    if len(shape) == 1:
        return vec(expr)
    return node("reshape", (expr,), (shape, "F"), shape)


def vec(X: Operand, order: str = "F") -> Expression:
    """The entries as a vector: by columns, or by rows where the order is "C". ValueError of another order."""
    X = as_expression(X)
    is_by_rows = _by_rows("F" if order is None else order)
    if is_by_rows or X.ndim < 2 or 1 in X.shape:
        return operators.by_rows(X, (X.size,))
    if X.kind == "constant":
        return operators.by_rows(Constant(transposed(X.array)), (X.size,))
    return node("vec", (X,), (), (X.size,))


def transpose(expr: Operand, axes: Union[Sequence[int], None] = None) -> Expression:
    """The transpose; a number or a vector is itself. With `axes` each of the sides is named once: `(1, 0)` is the
    transpose, `(0, 1)` the expression itself. ValueError where `axes` doesn't name each side once."""
    expr = as_expression(expr)
    if axes is None:
        return expr.T
    return permute_dims(expr, axes)


def permute_dims(expr: Operand, axes: Sequence[int]) -> Expression:
    """The sides in another order. ValueError where `axes` doesn't name each side once."""
    expr = as_expression(expr)
    named = [shapes.axis_of(axis, expr.shape) for axis in axes]
    if sorted(named) != list(range(expr.ndim)):
        raise ValueError(f"axes {tuple(axes)} don't name each side of the shape {expr.shape} once")
    return expr if named == list(range(expr.ndim)) else expr.T


def swapaxes(expr: Operand, axis1: int, axis2: int) -> Expression:
    """Two sides exchanged. ValueError where there is no such side."""
    expr = as_expression(expr)
    one, other = shapes.axis_of(axis1, expr.shape), shapes.axis_of(axis2, expr.shape)
    return expr if one == other else expr.T


def squeeze(expr: Operand, axis: Union[int, None] = None) -> Expression:
    """Without sides of length 1, or without that one. ValueError where a named one is longer."""
    expr = as_expression(expr)
    if axis is None:
        return operators.by_rows(expr, [side for side in expr.shape if side != 1])
    axis = shapes.axis_of(axis, expr.shape)
    if expr.shape[axis] != 1:
        raise ValueError("cannot select an axis to squeeze out which has size not equal to one")
    return operators.by_rows(expr, expr.shape[:axis] + expr.shape[axis + 1:])


def expand_dims(expr: Operand, axis: int) -> Expression:
    """With one more side of length 1, at a place. ValueError where there would be three."""
    expr = as_expression(expr)
    if expr.ndim == 2:
        raise ValueError("Expressions of dimension greater than 2 are not supported.")
    axis = shapes.axis_of(axis, expr.shape + (1,))
    return operators.by_rows(expr, expr.shape[:axis] + (1,) + expr.shape[axis:])


def broadcast_to(expr: Operand, shape: Union[int, Sequence[int]]) -> Expression:
    """The entries repeated to a shape, as NumPy broadcasts them. ValueError where they don't fit, or the shape is none.
    """
    expr = as_expression(expr)
    shape = shapes.declared(shape)
    if shapes.broadcast(expr.shape, shape) != shape:
        raise ValueError(f"Cannot broadcast the shape {expr.shape} to {shape}")
    return operators.added(expr, Constant(filled(shape, 0)))


# ---- stacks


def _items(arg_list: Iterable[Operand]) -> list:
    if isinstance(arg_list, Expression) or not hasattr(arg_list, "__iter__"):
        raise TypeError("a stack is made of a list: of expressions, arrays and numbers")
    items = [as_expression(item) for item in arg_list]
    if not items:
        raise ValueError("a stack of nothing: the list is empty")
    return items


def hstack(arg_list: Iterable[Operand]) -> Expression:
    """Numbers and vectors one behind the other as a vector, or matrices side by side as one. ValueError where they
    don't fit or there are none, TypeError of what is no list."""
    items = [operators.by_rows(item, (1,)) if item.ndim == 0 else item for item in _items(arg_list)]
    first = items[0].shape
    if any(item.ndim != len(first) or item.ndim == 2 and item.shape[0] != first[0] for item in items):
        raise ValueError("All the input dimensions except for axis 1 must match exactly: "
                         "" + shapes.show(*(item.shape for item in items)))
    if len(first) == 1:
        return _stacked("hstack", items, (sum(item.size for item in items),))
    return _stacked("hstack", items, (first[0], sum(item.shape[1] for item in items)))


def vstack(arg_list: Iterable[Operand]) -> Expression:
    """Rows one below the other, as a matrix: a vector is a row, and so is a number. ValueError where they don't fit or
    there are none, TypeError of what is no list."""
    items = _items(arg_list)
    widths = {_width(item) for item in items}
    if len(widths) > 1:
        raise ValueError("All the input dimensions except for axis 0 must match exactly: "
                         "" + shapes.show(*(item.shape for item in items)))
    shape = (sum(item.shape[0] if item.ndim == 2 else 1 for item in items), widths.pop())
    if len(items) == 1:
        return operators.by_rows(items[0], shape)
    return _stacked("vstack", items, shape)


def _width(item: Expression) -> int:
    return item.shape[-1] if item.shape else 1


def _stacked(kind: str, items: list, shape: tuple) -> Expression:
    items = [item for item in items if item.size]
    if len(items) == 1 and items[0].shape == shape:
        return items[0]
    return node(kind, items, (), shape)


def bmat(block_lists: Iterable[Iterable[Operand]]) -> Expression:
    """Rows of blocks as one matrix: each inner list side by side, and these one below the other. ValueError where the
    blocks don't fit, TypeError of what is no list of lists."""
    return vstack([hstack(blocks) for blocks in block_lists])


def concatenate(arg_list: Iterable[Operand], axis: int | None = 0) -> Expression:
    """Joined along an axis; where it is None, all entries by rows as one vector. ValueError where they don't fit, have
    no such axis, or there are none; TypeError of what is no list."""
    items = _items(arg_list)
    if axis is None:
        return hstack([vec(item, "C") for item in items])
    if any(item.ndim == 0 for item in items):
        raise ValueError("zero-dimensional arrays cannot be concatenated")
    if any(item.ndim != items[0].ndim for item in items):
        raise ValueError("all the input array dimensions must match: " + shapes.show(*(item.shape for item in items)))
    axis = shapes.axis_of(axis, items[0].shape)
    return hstack(items) if items[0].ndim == 1 or axis == 1 else vstack(items)


def stack(arrays: Iterable[Operand], axis: int = 0) -> Expression:
    """Numbers as a vector, or vectors as the rows of a matrix, or as its columns where the axis is 1. ValueError where
    their shapes differ, are those of matrices, or there are none; TypeError of what is no list."""
    items = _items(arrays)
    if any(item.shape != items[0].shape for item in items):
        raise ValueError("all input arrays must have the same shape: " + shapes.show(*(item.shape for item in items)))
    if items[0].ndim == 2:
        raise ValueError("Expressions of dimension greater than 2 are not supported.")
    axis = shapes.axis_of(axis, items[0].shape + (1,))
    if items[0].ndim == 0:
        return hstack(items)
    return vstack(items) if axis == 0 else vstack(items).T


# ---- diagonals and triangles


def _square(expr: Expression, word: str) -> None:
    if expr.ndim != 2 or expr.shape[0] != expr.shape[1]:
        raise ValueError(f"Argument to {word} must be a square matrix, and has the shape {expr.shape}.")


def trace(expr: Operand) -> Expression:
    """The sum of the diagonal, one number. ValueError of what isn't square."""
    expr = as_expression(expr)
    _square(expr, "trace")
    return node("trace", (expr,), (), ())


def diag(vector: Operand, k: int = 0) -> Expression:
    """The matrix with a vector on its diagonal, or the diagonal of a square matrix; k is how many places to the right
    it is moved.

    A matrix with one row, one column or one entry counts as a vector. ValueError of other matrices that aren't square,
    or have no such diagonal; TypeError where k is no whole number.
    """
    expr = as_expression(vector)
    if not shapes.is_whole(k):
        raise TypeError(f"the diagonal is named by a whole number, and not by {k!r}")
    k = int(k)
    if expr.is_vector():
        return _with_diagonal(vec(expr), k)
    _square(expr, "diag")
    length = expr.shape[0] - abs(k)
    if length <= 0:
        raise ValueError(f"the shape {expr.shape} has no diagonal {k}")
    if k:
        expr = expr[max(-k, 0):max(-k, 0) + length, max(k, 0):max(k, 0) + length]
    if length == 1:
        return operators.by_rows(expr, (1,))
    return node("diag", (expr,), (), (length,))


def _with_diagonal(expr: Expression, k: int) -> Expression:
    size = expr.size
    if expr.kind == "constant":
        rows = [((place, number),) if number else () for place, number in enumerate(expr.array.dense().entries)]
        shifted = [[(column + max(k, 0), number) for column, number in row] for row in rows]
        around = [()] * abs(k)
        return Constant(Sparse((size + abs(k),) * 2, shifted + around if k >= 0 else around + shifted))
    matrix = node("diag", (expr,), (), (size, size)) if size > 1 else operators.by_rows(expr, (1, 1))
    if not k:
        return matrix
    beside, below = Constant(filled((size, abs(k)), 0)), Constant(filled((abs(k), size + abs(k)), 0))
    return vstack([hstack([beside, matrix]), below]) if k > 0 else vstack([below, hstack([matrix, beside])])


def upper_tri(expr: Operand) -> Expression:
    """The entries above the diagonal as a vector, row by row. ValueError of what isn't square."""
    expr = as_expression(expr)
    _square(expr, "upper_tri")
    side = expr.shape[0]
    places = [row * side + column for row in range(side) for column in range(row + 1, side)]
    return operators.gathered(expr, places, (len(places),))


def vec_to_upper_tri(expr: Operand, strict: bool = False) -> Expression:
    """The matrix with a vector's entries on and above the diagonal, row by row; with `strict` above it alone.

    ValueError where no square has so many of these.
    """
    expr = vec(expr)
    side = next(side for side in range(expr.size + 2) if side * (side + 1) // 2 >= expr.size)
    if side * (side + 1) // 2 != expr.size:
        raise ValueError(f"{expr.size} entries fill no triangle")
    width = side + bool(strict)
    parts, first = [], 0
    for row in range(side):
        if row + bool(strict):
            parts.append(Constant(filled((row + bool(strict),), 0)))
        parts.append(expr[first:first + side - row])
        first += side - row
    if strict:
        parts.append(Constant(filled((width,), 0)))
    return operators.by_rows(hstack(parts), (width, width))


# ---- neighbours


def diff(x: Operand, k: int = 1, axis: int = 0) -> Expression:
    """The differences of neighbours along an axis, k times: that side is k shorter.

    ValueError where k isn't a whole number from 0 to one less than there are entries along the axis.
    """
    x = as_expression(x)
    axis = shapes.axis_of(axis, x.shape)
    if axis is None:
        raise ValueError("Invalid argument for axis: diff goes along one")
    if not shapes.is_whole(k) or not 0 <= k < x.shape[axis]:
        raise ValueError("Must have k >= 0 and X must have < k elements along axis")
    k = int(k)
    if k == 0:
        return x
    if x.ndim == 1:
        return node("diff", (x,), (k,), (x.shape[0] - k,))
    for _ in range(k):
        x = x[1:] - x[:-1] if axis == 0 else x[:, 1:] - x[:, :-1]
    return x
