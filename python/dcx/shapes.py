"""Shapes: what is declared, how two fit together, what a product and an axis leave."""
from __future__ import annotations

import numbers
from typing import Sequence

from .arrays import size_of

Shape = tuple


def show(*shapes: Sequence[int]) -> str:
    """The shapes as CVXPY's messages show them."""
    return " ".join(str(tuple(shape)) for shape in shapes)


def is_whole(value) -> bool:
    """Whether a value is a whole number, of Python or of NumPy, and no truth value."""
    return isinstance(value, numbers.Integral) and not isinstance(value,
                                                                  bool) and type(value).__name__ not in ("bool_",
                                                                                                         "bool")


def declared(shape) -> Shape:
    """The shape that a declaration names: a whole number, or at most two of them.

    ValueError where a side isn't a whole number above 0, or where there are more than two.
    """
    if shape is None:
        return ()
    if is_whole(shape):
        shape = (shape,)
    try:
        sides = tuple(shape)
    except TypeError:
        raise ValueError(f"Invalid dimensions {shape!r}: a shape is a whole number or a tuple of them") from None
    if len(sides) > 2:
        raise ValueError(f"Expressions of dimension greater than 2 are not supported: {sides} has {len(sides)} sides; "
                         "a list of matrices has one for each layer")
    if not all(is_whole(side) and side > 0 for side in sides):
        raise ValueError(f"Invalid dimensions {sides}: each side is a whole number above 0")
    return tuple(int(side) for side in sides)


def is_single(shape: Sequence[int]) -> bool:
    """Whether there is one entry."""
    return all(side == 1 for side in shape)


def broadcast(*shapes: Sequence[int]) -> Shape:
    """The shape that NumPy broadcasts these to. ValueError where they don't fit."""
    sides: list[int] = []
    for place in range(1, max((len(shape) for shape in shapes), default=0) + 1):
        side = 1
        for shape in shapes:
            if place <= len(shape) and shape[-place] != 1:
                if side != 1 and shape[-place] != side:
                    raise ValueError(f"Cannot broadcast dimensions {show(*shapes)}")
                side = shape[-place]
        sides.append(side)
    return tuple(reversed(sides))


def paired(left: Sequence[int], right: Sequence[int]) -> Shape:
    """The shape of two operands beside each other as CVXPY has it: one entry takes the other's shape, whatever its own
    is.

    ValueError where they don't fit.
    """
    if is_single(left) and not is_single(right):
        return tuple(right)
    if is_single(right) and not is_single(left):
        return tuple(left)
    return broadcast(left, right)


def product(left: Sequence[int], right: Sequence[int]) -> Shape:
    """The shape of the matrix product. ValueError where the sides don't fit, or where one operand has none."""
    if not left or not right:
        raise ValueError("Scalar operands are not allowed, use '*' instead")
    inner = right[0]
    if left[-1] != inner:
        raise ValueError(f"Incompatible dimensions {show(left, right)}: the {left[-1]} columns of the left side meet "
                         f"{inner} rows of the right one")
    return tuple(left[:-1]) + tuple(right[1:])


def axis_of(axis, shape: Sequence[int]) -> int | None:
    """The axis counted from 0, or None where all entries are meant.

    ValueError where the shape has no such axis, TypeError where it is no whole number.
    """
    if isinstance(axis, tuple):
        named = {axis_of(place, shape) for place in axis}
        if len(named) < len(axis) or len(axis) not in (1, len(shape)):
            raise ValueError(f"Invalid argument for axis: {axis} of the shape {tuple(shape)}")
        axis = axis[0] if len(axis) < len(shape) else None
    if axis is None:
        return None
    if not is_whole(axis):
        raise TypeError(f"an axis is a whole number or None, and not {axis!r}")
    if not -len(shape) <= axis < len(shape):
        raise ValueError(f"Invalid argument for axis: {axis} of the shape {tuple(shape)}")
    return int(axis) % len(shape)


def folded(shape: Sequence[int], axis: int | None, keepdims: bool = False) -> Shape:
    """The shape that is left where an axis is folded, or all of them."""
    if keepdims:
        return tuple(1 if axis is None or place == axis else side for place, side in enumerate(shape))
    return () if axis is None else tuple(side for place, side in enumerate(shape) if place != axis)


def reshaped(shape, size: int) -> Shape:
    """The shape that `size` entries are given: a whole number or a tuple, where one side may be -1.

    ValueError where the entries don't fill it.
    """
    sides = (shape,) if is_whole(shape) else tuple(shape)
    if not all(is_whole(side) for side in sides):
        raise ValueError(f"Invalid dimensions {sides}: each side is a whole number")
    if len(sides) > 2:
        raise ValueError(f"Expressions of dimension greater than 2 are not supported: {sides} has {len(sides)} sides")
    if sum(side == -1 for side in sides) > 1:
        raise ValueError("Only one dimension can be -1.")
    known = size_of([side for side in sides if side != -1])
    if -1 in sides and known and size % known == 0:
        sides = tuple(size // known if side == -1 else side for side in sides)
    if any(side < 0 for side in sides) or size_of(sides) != size:
        raise ValueError(f"Invalid reshape dimensions {tuple(sides)}: there are {size} entries")
    return tuple(int(side) for side in sides)
