"""Calls that are products: of matrices, of vectors, of Kronecker, and convolutions."""
from __future__ import annotations

import builtins
from fractions import Fraction

from .. import operators, shapes, sites
from ..arrays import Array, Sparse, filled
from ..errors import UnsupportedError
from ..expressions import Constant, Expression, Operand, as_expression, numbers_of
from .places import hstack, reshape, vec, vstack


def matmul(lh_expr: Operand, rh_expr: Operand) -> Expression:
    """The matrix product, as `@`. ValueError where the inner sides differ, or one of the two has no side."""
    return operators.matrix_multiplied(lh_expr, rh_expr)


def vdot(x: Operand, y: Operand) -> Expression:
    """The sum of the products of two expressions' entries, which are taken by columns: one number. What has one entry
    is multiplied with each. ValueError where the numbers of entries differ otherwise."""
    x, y = _flat(x), _flat(y)
    if x.size != y.size and 1 not in (x.size, y.size):
        raise ValueError(f"Cannot broadcast dimensions {shapes.show(x.shape, y.shape)}")
    if x.size != y.size:
        return operators.multiplied(x, y).sum()
    return operators.matrix_multiplied(x, y)


scalar_product = vdot


def _flat(value: Operand) -> Expression:
    """A list, also one of expressions, as one vector; a matrix by columns."""
    if isinstance(value, (list, tuple)):
        return hstack([_flat(item) for item in value])
    return vec(value)


def outer(x: Operand, y: Operand) -> Expression:
    """The matrix of the products of each entry of x, down, with each of y, across. ValueError of matrices."""
    x, y = as_expression(x), as_expression(y)
    if x.ndim > 1 or y.ndim > 1:
        raise ValueError("x and y must be vectors.")
    return operators.matrix_multiplied(reshape(x, (x.size, 1)), reshape(y, (1, y.size)))


def kron(a: Operand, b: Operand) -> Expression:
    """Each entry of a times all of b, in blocks: each side of the result is the product of theirs. UnsupportedError
    where both have variables."""
    a, b = as_expression(a), as_expression(b)
    if a.ndim == 0 or b.ndim == 0:
        return operators.multiplied(a, b)
    if a.ndim != b.ndim:
        a, b = _as_matrix(a), _as_matrix(b)
    is_flat = a.ndim == 1
    a, b = _as_matrix(a), _as_matrix(b)
    if not (a.kind == "constant" or b.kind == "constant" or a.is_constant() or b.is_constant()):
        raise UnsupportedError("a product of two expressions with variables isn't convex: one side of kron has to be "
                               "without", sites.here())
    large, blocks = _each_spread(a, b.shape), _tiled(b, a.shape)
    result = operators.elementwise(large, blocks)
    return operators.by_rows(result, (result.size,)) if is_flat else result


def _as_matrix(value: Expression) -> Expression:
    return value if value.ndim == 2 else operators.by_rows(value, (1, value.size))


def _each_spread(a: Expression, block: tuple) -> Expression:
    """Each entry as a block with that number everywhere."""
    rows = [place for place in range(a.shape[0]) for _ in range(block[0])]
    columns = [place for place in range(a.shape[1]) for _ in range(block[1])]
    if a.kind == "constant":
        width, entries = a.shape[1], a.array.entries
        return Constant(Array((len(rows), len(columns)),
                              (entries[row * width + column] for row in rows for column in columns)))
    if block[0] > 1:
        a = operators.matrix_multiplied(Constant(_picking(rows, a.shape[0])), a)
    if block[1] > 1:
        a = operators.matrix_multiplied(a, operators.transposed(Constant(_picking(columns, a.shape[1]))))
    return a


def _picking(places: list, width: int) -> Sparse:
    """The matrix whose product with another has the rows at these places."""
    return Sparse((len(places), width), (((place, Fraction(1)),) for place in places))


def _tiled(b: Expression, times: tuple) -> Expression:
    """An expression side by side with itself, and below itself, so many times."""
    line = hstack([b] * times[1]) if times[1] > 1 else b
    return vstack([line] * times[0]) if times[0] > 1 else line


def convolve(a: Operand, b: Operand) -> Expression:
    """The discrete convolution of two vectors, with a.size + b.size - 1 entries.

    ValueError of what isn't a vector; UnsupportedError where both have variables.
    """
    a, b = as_expression(a), as_expression(b)
    if not (a.is_vector() and b.is_vector() and a.ndim and b.ndim):
        raise ValueError("The arguments to convolve must resolve to vectors.")
    a, b = vec(a), vec(b)
    if not a.is_constant() or numbers_of(a) is None and numbers_of(b) is not None:
        a, b = b, a
    if not a.is_constant():
        raise UnsupportedError("a product of two expressions with variables isn't convex: one side of a convolution "
                               "has to be without", sites.here())
    numbers, size = numbers_of(a), a.size + b.size - 1
    if numbers is None:
        zeros = [Constant(filled((count,), 0)) for count in range(a.size)]
        terms = [a[place] * hstack([zeros[place], b, zeros[-1 - place]]) for place in range(a.size)]
        return builtins.sum(terms[1:], terms[0])
    held = [(place, number) for place, number in reversed(list(enumerate(numbers.entries))) if number]
    rows = ([(row - place, number) for place, number in held if 0 <= row - place < b.size] for row in range(size))
    return operators.matrix_multiplied(Constant(Sparse((size, b.size), rows)), b)


def conv(lh_expr: Operand, rh_expr: Operand) -> Expression:
    """The convolution as a matrix of one column, where a side is a matrix, else as a vector. Errors are those of
    `convolve`."""
    lh_expr, rh_expr = as_expression(lh_expr), as_expression(rh_expr)
    result = convolve(lh_expr, rh_expr)
    return reshape(result, (result.size, 1)) if 2 in (lh_expr.ndim, rh_expr.ndim) else result
