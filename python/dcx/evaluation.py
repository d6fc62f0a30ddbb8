"""The value of an expression at the present values of its variables and parameters, in fractions."""
from __future__ import annotations

import math
from fractions import Fraction
from typing import Callable, Sequence

from . import indices, shapes
from .arrays import ZERO, Array, Sparse, size_of, transposed
from .trees import postorder

# beyond so many bits a common denominator costs more than it saves
_COMMON_BITS = 2048


def value_of(root) -> Array | Sparse | None:
    """The value, or None where a variable or a parameter has none. ZeroDivisionError where a divisor is 0."""
    values: dict = {}
    for item in postorder([root]):
        if not item.args:
            value = item._array()
            if value is None:
                return None
        else:
            value = evaluated(item.kind, item.options, item.shape, [values[id(arg)] for arg in item.args])
        values[id(item)] = value
    return values[id(root)]


def evaluated(kind: str, options: tuple, shape: tuple, args: Sequence) -> Array:
    """The value of one node, of the values of its arguments."""
    if kind == "@":
        return _product(args[0], args[1], shape)
    args = [arg.dense() for arg in args]
    return _MEANINGS[kind](shape, options, *args)


def minus(left, right) -> Array:
    """`left - right` as two operands of CVXPY beside each other."""
    shape = shapes.paired(left.shape, right.shape)
    return Array(shape, (a - b for a, b in zip(spread(left.dense(), shape), spread(right.dense(), shape))))


# ---- places


def spread(array: Array, shape: tuple) -> Sequence[Fraction]:
    """The entries, row by row, of an array broadcast to a shape; one entry goes everywhere, whatever its sides."""
    if array.shape == shape or array.size == size_of(shape) and size_of(shape) == 1:
        return array.entries
    if array.size == 1:
        return array.entries * size_of(shape)
    height, width = ((1,) + tuple(shape))[-2:]
    own_height, own_width = ((1, 1) + array.shape)[-2:]
    entries = array.entries
    if own_height == 1:
        line = entries * width if own_width == 1 else entries
        return line * height
    if own_width == 1:
        return [number for number in entries for _ in range(width)]
    return entries


def _lines(array: Array, axis: int | None) -> list:
    """The entries that are folded together, one list for each entry of what is left."""
    entries = array.entries
    if axis is None or array.ndim < 2:
        return [entries]
    height, width = array.shape
    if axis == 0:
        return [entries[column::width] for column in range(width)]
    return [entries[row * width:(row + 1) * width] for row in range(height)]


def total(numbers: Sequence[Fraction]) -> Fraction:
    """The sum, over one denominator where that is short."""
    common = _common(numbers)
    if common is None:
        return sum(numbers, ZERO)
    return Fraction(sum(number.numerator * (common // number.denominator) for number in numbers), common)


def _common(numbers: Sequence[Fraction]) -> int | None:
    """The common denominator, where it isn't too long."""
    common = 1
    for number in numbers:
        denominator = number.denominator
        if common % denominator:
            common = common * denominator // math.gcd(common, denominator)
            if common.bit_length() > _COMMON_BITS:
                return None
    return common


# ---- products


def _product(left, right, shape: tuple) -> Array:
    if isinstance(left, Sparse) and not isinstance(right, Sparse):
        rows = left.rows
    else:
        dense = left.dense()
        width = dense.shape[-1]
        rows = [list(enumerate(dense.entries[start:start + width])) for start in range(0, dense.size, width)]
    right = right.dense()
    count = 1 if right.ndim == 1 else right.shape[1]
    columns = [right.entries[column::count] for column in range(count)]
    scaled_rows = [_scaled_pairs(row) for row in rows]
    scaled_columns = [_scaled(column) for column in columns]
    return Array(shape, (_dot(row, column) for row in scaled_rows for column in scaled_columns))


def _scaled(numbers: Sequence[Fraction]):
    """Whole numbers and what they are over, or the fractions themselves and 0."""
    common = _common(numbers)
    if common is None:
        return numbers, 0
    return [number.numerator * (common // number.denominator) for number in numbers], common


def _scaled_pairs(row):
    places = [place for place, number in row if number]
    numbers, common = _scaled([number for _, number in row if number])
    return places, numbers, common


def _dot(row, column) -> Fraction:
    places, numbers, common = row
    others, other_common = column
    found = sum(number * others[place] for place, number in zip(places, numbers))
    return Fraction(found) / ((common or 1) * (other_common or 1))


# ---- the meaning of each kind, of the shape, the options and the values of the arguments


def _pairwise(each: Callable) -> Callable:
    return lambda shape, options, *args: Array(shape, map(each, *(spread(arg, shape) for arg in args)))


def _entrywise(each: Callable) -> Callable:
    return lambda shape, options, arg: Array(shape, map(each, arg.entries))


def _folding(each: Callable) -> Callable:
    return lambda shape, options, arg: Array(shape, (each(line) for line in _lines(arg, options[0])))


def _largest(shape, options, arg):
    return Array((), (total(sorted(arg.entries, reverse=True)[:options[0]]),))


def _smallest(shape, options, arg):
    return Array((), (total(sorted(arg.entries)[:options[0]]),))


def _differences(shape, options, arg):
    entries = arg.entries
    for _ in range(options[0]):
        entries = [after - before for before, after in zip(entries, entries[1:])]
    return Array(shape, entries)


def _running(step: Callable) -> Callable:
    def meaning(shape, options, arg):
        axis = options[0] if options else None
        lines = []
        for line in _lines(arg, axis):
            done = []
            for number in line:
                done.append(number if not done else step(done[-1], number))
            lines.append(done)
        if arg.ndim == 2 and axis == 0:
            return Array(shape, (line[row] for row in range(arg.shape[0]) for line in lines))
        return Array(shape, (number for line in lines for number in line))
    return meaning


def _diagonal(shape, options, arg):
    if arg.ndim == 2:
        return Array(shape, arg.entries[::arg.shape[1] + 1])
    entries = [ZERO] * size_of(shape)
    entries[::arg.size + 1] = arg.entries
    return Array(shape, entries)


def _by_columns(arg: Array) -> Sequence[Fraction]:
    return transposed(arg).entries


def _reshaped(shape, options, arg):
    if options[1] == "C":
        return Array(shape, arg.entries)
    turned = Array(shape[::-1], _by_columns(arg))
    return transposed(turned)


def _side_by_side(shape, options, *args):
    if all(arg.ndim < 2 for arg in args):
        return Array(shape, (number for arg in args for number in arg.entries))
    lines = (arg.entries[row * arg.shape[1]:(row + 1) * arg.shape[1]] for row in range(shape[0]) for arg in args)
    return Array(shape, (number for line in lines for number in line))


_MEANINGS: dict = {
    "+": _pairwise(lambda a, b: a + b),
    "-": _pairwise(lambda a, b: a - b),
    "*": _pairwise(lambda a, b: a * b),
    "/": _pairwise(lambda a, b: a / b),
    "multiply": _pairwise(lambda a, b: a * b),
    "maximum": _pairwise(max),
    "minimum": _pairwise(min),
    "minus": _entrywise(lambda a: -a),
    "abs": _entrywise(abs),
    "pos": _entrywise(lambda a: max(a, ZERO)),
    "neg": _entrywise(lambda a: max(-a, ZERO)),
    "T": lambda shape, options, arg: transposed(arg),
    "index": lambda shape, options, arg: Array(shape,
                                               (arg.entries[place] for place in indices.places_of(arg.shape, options))),
    "sum": _folding(total),
    "mean": _folding(lambda line: total(line) / len(line)),
    "max": _folding(max),
    "min": _folding(min),
    "norm1": _folding(lambda line: total([abs(number) for number in line])),
    "norm_inf": _folding(lambda line: max(abs(number) for number in line)),
    "sum_largest": _largest,
    "sum_smallest": _smallest,
    "diff": _differences,
    "tv": lambda shape, options, arg: Array((), (total([abs(b - a) for a, b in zip(arg.entries, arg.entries[1:])]),)),
    "cumsum": _running(lambda a, b: a + b),
    "cummax": _running(max),
    "trace": lambda shape, options, arg: Array((), (total(arg.entries[::arg.shape[1] + 1]),)),
    "diag": _diagonal,
    "vec": lambda shape, options, arg: Array(shape, _by_columns(arg)),
    "reshape": _reshaped,
    "hstack": _side_by_side,
    "vstack": lambda shape, options, *args: Array(shape, (number for arg in args for number in arg.entries)),
}
