"""What Python's operators and indices make of expressions, with CVXPY's meaning, recorded in the forms of the program's
language."""
from __future__ import annotations

import warnings
from typing import Sequence

from . import arrays, indices, shapes, sites
from .arrays import Array, Sparse
from .constraints import Equality, Inequality
from .errors import UnsupportedError, warnings_enabled
from .expressions import Constant, Expression, as_expression, node, numbers_of
from .numbers import exact

_STAR = ("This use of ``*`` has resulted in matrix multiplication. Using ``*`` for matrix multiplication has been "
         "deprecated since "
         "CVXPY 1.1. Use ``*`` for matrix-scalar and vector-scalar multiplication, ``@`` for matrix-matrix and "
         "matrix-vector multiplication, and ``multiply`` for elementwise multiplication.")


def fitted(left: Expression, right: Expression) -> tuple[Expression, Expression]:
    """Two operands that broadcast in the program's language to the shape that CVXPY gives them: there one entry takes
    the other's shape, also where its own has more sides."""
    if left.ndim > right.ndim and left.is_scalar() and not right.is_scalar():
        return single(left), right
    if right.ndim > left.ndim and right.is_scalar() and not left.is_scalar():
        return left, single(right)
    return left, right


def single(expression: Expression) -> Expression:
    """The one entry of an expression, without a side."""
    return expression if expression.shape == () else indexed(expression, (0,) * expression.ndim)


# ---- sums, products, quotients


def _is_plain_zero(value: Expression) -> bool:
    return value.kind == "constant" and isinstance(value.array, Array) and not any(value.array.entries)


def added(left, right) -> Expression:
    """`left + right`; what is added to zeros of no greater shape is itself, so that `sum` of a list begins without one.
    """
    left, right = as_expression(left), as_expression(right)
    shape = shapes.paired(left.shape, right.shape)
    for one, other in ((left, right), (right, left)):
        if other.shape == shape and _is_plain_zero(one):
            return other
    return node("+", fitted(left, right), (), shape)


def subtracted(left, right) -> Expression:
    """`left - right`."""
    left, right = as_expression(left), as_expression(right)
    shape = shapes.paired(left.shape, right.shape)
    if left.shape == shape and _is_plain_zero(right):
        return left
    return node("-", fitted(left, right), (), shape)


def negated(value) -> Expression:
    """`-value`."""
    value = as_expression(value)
    if value.kind == "minus":
        return value.args[0]
    if value.kind == "constant" and value.size == 1 and isinstance(value.array, Array):
        return Constant(Array(value.shape, (-value.array.entries[0],)))
    return node("minus", (value,), (), value.shape)


def multiplied(left, right) -> Expression:
    """`left * right`: where one side has one entry the product with it, else the matrix product, with CVXPY's warning.

    As in CVXPY, a side of one entry whose own sides fit is a factor of the matrix product too: a column times a vector
    of one entry is a vector.
    """
    left, right = as_expression(left), as_expression(right)
    is_single = left.is_scalar() or right.is_scalar()
    if is_single and left.shape and right.shape and left.shape[-1] == right.shape[0]:
        shape = shapes.product(left.shape, right.shape)
        factors = (single(left) if left.is_scalar() else left), (single(right) if right.is_scalar() else right)
        return by_rows(multiplied(*factors), shape)
    if not is_single:
        # ValueError before a warning where the shapes don't fit
        shapes.product(left.shape, right.shape)
        site = sites.here()
        if warnings_enabled():
            warnings.warn_explicit(_STAR, UserWarning, site.file, site.line)
        return matrix_multiplied(left, right)
    return node("*", fitted(left, right), (), shapes.paired(left.shape, right.shape))


def elementwise(left, right) -> Expression:
    """`multiply(left, right)`: entry by entry."""
    left, right = as_expression(left), as_expression(right)
    kind = "*" if left.is_scalar() or right.is_scalar() else "multiply"
    return node(kind, fitted(left, right), (), shapes.paired(left.shape, right.shape))


def divided(left, right) -> Expression:
    """`left / right`. ZeroDivisionError where the divisor is a constant with an entry of 0."""
    left, right = as_expression(left), as_expression(right)
    if right.kind == "constant" and not all(right.array.entries):
        raise ZeroDivisionError("division by 0")
    return node("/", fitted(left, right), (), shapes.paired(left.shape, right.shape))


def matrix_multiplied(left, right) -> Expression:
    """`left @ right`."""
    left, right = as_expression(left), as_expression(right)
    shape = shapes.product(left.shape, right.shape)
    if 0 in left.shape:
        return Constant(arrays.filled(shape, 0))
    return node("@", (left, right), (), shape)


def raised(base, power) -> Expression:
    """`base ** power`, where the power is 1, or both are constants and the power is a whole number."""
    base, power = as_expression(base), as_expression(power)
    exponents, numbers = numbers_of(power), numbers_of(base)
    if exponents is not None and power.is_scalar():
        exponent = exponents.entries[0]
        if exponent == 1:
            return base
        if numbers is not None and exponent.denominator == 1 and (exponent >= 0 or all(numbers.entries)):
            return Constant(Array(base.shape, (number**exponent.numerator for number in numbers.entries)))
    raise UnsupportedError("a power isn't piecewise linear, so it has no exact answer in fractions: for least squares "
                           "write "
                           "cp.norm1(x) or cp.norm_inf(x), for a smooth cost cp.maximum of its tangents", sites.here())


# ---- comparisons


def at_most(left, right) -> Inequality:
    """`left <= right`."""
    return Inequality(left, right)


def at_least(left, right) -> Inequality:
    """`left >= right`, which is `right <= left`."""
    return Inequality(right, left, is_turned=True)


def equal(left, right) -> Equality:
    """`left == right`."""
    return Equality(left, right)


# ---- places


def transposed(value: Expression) -> Expression:
    """The transpose; what has fewer than two sides is itself."""
    if value.ndim < 2:
        return value
    if value.kind == "T":
        return value.args[0]
    if value.kind == "constant" and isinstance(value.array, Sparse):
        return Constant(arrays.transposed(value.array))
    return node("T", (value,), (), value.shape[::-1])


def by_rows(value: Expression, shape: Sequence[int]) -> Expression:
    """The entries of an expression in another shape, row by row."""
    shape = tuple(shape)
    if shape == value.shape:
        return value
    if value.kind == "constant":
        return Constant(Array(shape, value.array.entries))
    if value.kind == "reshape" and value.options[1] == "C":
        return by_rows(value.args[0], shape)
    return node("reshape", (value,), (shape, "C"), shape)


def indexed(value: Expression, key) -> Expression:
    """`value[key]`."""
    found = indices.read(value.shape, key)
    if isinstance(found, indices.Gathered):
        return gathered(value, found.places, found.shape)
    return by_rows(_basic(value, found.sides, found.left), found.shape)


def _basic(value: Expression, sides: tuple, shape: tuple) -> Expression:
    if shape == value.shape and all(isinstance(side, tuple) and side[1:] == (0, length, 1) for side,
                                    length in zip(sides, value.shape)):
        return value
    if value.kind == "constant":
        entries = value.array.entries
        return Constant(Array(shape, (entries[place] for place in indices.places_of(value.shape, sides))))
    if value.kind == "index":
        return _basic(value.args[0], indices.composed(value.options, sides), shape)
    return node("index", (value,), sides, shape)


def gathered(value: Expression, places: Sequence[int], shape: Sequence[int]) -> Expression:
    """The entries at places that are counted row by row, in a shape: few slices that are joined."""
    shape = tuple(shape)
    if value.kind == "constant" or not places:
        entries = value.array.entries if places else ()
        return Constant(Array(shape, (entries[place] for place in places)))
    if value.ndim == 1:
        parts = [value[run.start] if len(run) == 1 else _slice(value, (run,)) for run in _runs(places)]
        return by_rows(_joined(parts), shape)
    width = value.shape[1]
    grid = _grid(places, shape, width)
    if grid is not None:
        return _taken(_taken(value, grid[0], 0), grid[1], 1)
    parts = [_slice(value, pair) for pair in _lines([divmod(place, width) for place in places])]
    return by_rows(_joined(parts), shape)


def _slice(value: Expression, places: tuple) -> Expression:
    """For each side its range as a slice; a whole number drops its side."""
    sides = tuple(indices.slice_of(part) if isinstance(part, range) else part for part in places)
    return _basic(value, sides, tuple(len(part) for part in places if isinstance(part, range)))


def _joined(parts: list) -> Expression:
    """Numbers and vectors one behind the other, as a vector."""
    if len(parts) == 1:
        return parts[0] if parts[0].ndim else by_rows(parts[0], (1,))
    return node("hstack", parts, (), (sum(part.size for part in parts),))


def _runs(places: Sequence[int]) -> list:
    """The places cut into ranges, as long as they go."""
    runs, first = [], 0
    while first < len(places):
        last = first
        step = places[first + 1] - places[first] if first + 1 < len(places) else 0
        while step and last + 1 < len(places) and places[last + 1] - places[last] == step:
            last += 1
        # two places are one slice where nothing longer begins at the second
        if last == first + 1 and last + 2 < len(places):
            after = places[last + 1] - places[last]
            if after and places[last + 2] - places[last + 1] == after:
                last = first
        step = step if last > first else 1
        runs.append(range(places[first], places[last] + (1 if step > 0 else -1), step))
        first = last + 1
    return runs


def _lines(pairs: list) -> list:
    """Places of a matrix cut into pieces of rows and of columns: for each its row and its column, one of them a range
    where there is more than one entry."""
    lines, first = [], 0
    while first < len(pairs):
        last, (row, column) = first, pairs[first]
        step = (pairs[first + 1][0] - row, pairs[first + 1][1] - column) if first + 1 < len(pairs) else (0, 0)
        if (step[0] == 0) != (step[1] == 0):
            while last + 1 < len(pairs) and (pairs[last + 1][0] - pairs[last][0],
                                             pairs[last + 1][1] - pairs[last][1]) == step:
                last += 1
        if last == first:
            lines.append((row, column))
        elif step[0] == 0:
            lines.append((row, range(column, pairs[last][1] + (1 if step[1] > 0 else -1), step[1])))
        else:
            lines.append((range(row, pairs[last][0] + (1 if step[0] > 0 else -1), step[0]), column))
        first = last + 1
    return lines


def _grid(places: Sequence[int], shape: tuple, width: int) -> tuple | None:
    """The rows and the columns, where the places are all pairs of them."""
    if len(shape) != 2:
        return None
    rows = [places[row * shape[1]] // width for row in range(shape[0])]
    columns = [place % width for place in places[:shape[1]]]
    grid = [row * width + column for row in rows for column in columns]
    return (rows, columns) if list(places) == grid else None


def _taken(value: Expression, places: list, axis: int) -> Expression:
    """Rows or columns of a matrix, in this order."""
    rest = range(value.shape[1 - axis])
    parts = []
    for run in _runs(places):
        parts.append(_slice(value, (run, rest) if axis == 0 else (rest, run)))
    if len(parts) == 1:
        return parts[0]
    shape = (len(places), value.shape[1]) if axis == 0 else (value.shape[0], len(places))
    return node("vstack" if axis == 0 else "hstack", parts, (), shape)


def scaled(number, value: Expression) -> Expression:
    """A number times an expression; by 1 it is itself."""
    factor = exact(number)
    return value if factor == 1 else multiplied(Constant(factor), value)
