"""Expressions: the tree that a model is recorded as, its constants, and what Python's operators make of it."""
from __future__ import annotations

import itertools
from typing import TYPE_CHECKING, Any, Iterator, Optional, Sequence, Union

from . import arrays, missing, shapes, sites
from .arrays import Array, Sparse
from .errors import UnsupportedError
from .questions import Questions
from .trees import Made, Sided

if TYPE_CHECKING:
    from .constraints import Constraint

# what stands where an expression is wanted: one, or a number, an array, a sparse matrix, a list of numbers or of lists
Operand = Any
# the side that a call goes along, from 0 or from -1 downwards; None, or each side, where it goes over all entries
Axis = Optional[Union[int, tuple[int, ...]]]

_numbers = itertools.count(1)
_COMPARED = ("Python's own max, min and sorted compare so: in their place stand cp.maximum(a, b), cp.minimum(a, b), "
             "cp.max(x), cp.min(x)")


class Expression(Questions, Sided, Made):
    """A node of the tree.

    `kind` names a form of the program's language, `args` are the expressions that it is made of, `options` what else it
    is given, `shape` the sides of its value, and `site` the user's line that made it. None of these ever changes.
    """

    __slots__ = ("kind", "args", "options", "shape", "site", "_known", "__weakref__")

    # the operators of NumPy and of pandas leave the work to those below
    __array_priority__ = 10000
    __pandas_priority__ = 10000

    def __init__(self, kind: str, args: Sequence[Expression] = (), options: tuple = (), shape: Sequence[int] = ()):
        self.kind = kind
        self.args = tuple(args)
        self.options = options
        self.shape = tuple(shape)
        self.site = sites.here()
        self._known = None

    # ---- shapes

    def is_scalar(self) -> bool:
        """Whether there is one entry."""
        return shapes.is_single(self.shape)

    def is_vector(self) -> bool:
        """Whether there is one side at most, or a second one of length 1."""
        return self.ndim <= 1 or min(self.shape) == 1

    def is_matrix(self) -> bool:
        """Whether there are two sides, both longer than 1."""
        return self.ndim == 2 and self.shape[0] > 1 and self.shape[1] > 1

    def __len__(self) -> int:
        if not self.shape:
            raise TypeError("len() of an expression without a side: it is one number")
        return self.shape[0]

    def __iter__(self) -> Iterator[Expression]:
        if not self.shape:
            raise TypeError("an expression without a side has no entries to go through: it is one number")
        return (self[place] for place in range(self.shape[0]))

    def __bool__(self) -> bool:
        return True

    def __contains__(self, item) -> bool:
        raise UnsupportedError("whether an expression holds something isn't known before it is solved: ask its value",
                               sites.here())

    # ---- what it is made of

    def _roots(self) -> list:
        return [self]

    def name(self) -> str:
        """The expression as text, shortened where it is long."""
        from . import spelling
        return spelling.text_of(self)

    def __str__(self) -> str:
        return self.name()

    def __repr__(self) -> str:
        return f"Expression({self.name()}, shape={self.shape})"

    # ---- values

    @property
    def exact(self) -> Any:
        """The value in fractions: a `Fraction` where there is no side, else an array of them in the expression's shape,
        or lists of rows where NumPy isn't there; None where a variable or a parameter in it has none.

        Raises `ZeroDivisionError` where a divisor is 0.
        """
        array = self._array()
        return None if array is None else arrays.to_fractions(array)

    @property
    def value(self) -> Any:
        """The value in floats, evaluated in fractions first: a NumPy array in the expression's shape, lists of rows
        where NumPy isn't there, a float where there is no side; None where a variable or a parameter in it has none.

        Raises `ZeroDivisionError` where a divisor is 0.
        """
        array = self._array()
        return None if array is None else arrays.to_floats(array)

    def _array(self) -> Array | Sparse | None:
        from . import evaluation
        return evaluation.value_of(self)

    # ---- operators: `operators` has what each of them means

    def __add__(self, other: Operand) -> Expression:
        return _operator("added", self, other)

    def __radd__(self, other: Operand) -> Expression:
        return _operator("added", other, self)

    def __sub__(self, other: Operand) -> Expression:
        return _operator("subtracted", self, other)

    def __rsub__(self, other: Operand) -> Expression:
        return _operator("subtracted", other, self)

    def __mul__(self, other: Operand) -> Expression:
        return _operator("multiplied", self, other)

    def __rmul__(self, other: Operand) -> Expression:
        return _operator("multiplied", other, self)

    def __truediv__(self, other: Operand) -> Expression:
        return _operator("divided", self, other)

    def __rtruediv__(self, other: Operand) -> Expression:
        return _operator("divided", other, self)

    def __matmul__(self, other: Operand) -> Expression:
        return _operator("matrix_multiplied", self, other)

    def __rmatmul__(self, other: Operand) -> Expression:
        return _operator("matrix_multiplied", other, self)

    def __pow__(self, power: Operand) -> Expression:
        return _operator("raised", self, power)

    def __rpow__(self, base: Operand) -> Expression:
        return _operator("raised", base, self)

    def __neg__(self) -> Expression:
        from . import operators
        return operators.negated(self)

    def __pos__(self) -> Expression:
        return self

    def __abs__(self) -> Expression:
        from . import atoms
        return atoms.abs(self)

    def __le__(self, other: Operand) -> Constraint:
        return _operator("at_most", self, other)

    def __ge__(self, other: Operand) -> Constraint:
        return _operator("at_least", self, other)

    def __eq__(self, other: Operand) -> Constraint:  # type: ignore[override]
        return _operator("equal", self, other)

    def __ne__(self, other):
        raise UnsupportedError("a constraint `!=` isn't convex and isn't offered; `is not` tells whether two "
                               "expressions are the same object", sites.here())

    def __lt__(self, other):
        raise UnsupportedError(f"Strict inequalities are not allowed: write `<=`. {_COMPARED}", sites.here())

    def __gt__(self, other):
        raise UnsupportedError(f"Strict inequalities are not allowed: write `>=`. {_COMPARED}", sites.here())

    def __lshift__(self, other):
        raise UnsupportedError("a constraint on the eigenvalues of a matrix isn't piecewise linear, so `<<` isn't "
                               "offered; `<=` compares entry by entry", sites.here())

    def __rshift__(self, other):
        raise UnsupportedError("a constraint on the eigenvalues of a matrix isn't piecewise linear, so `>>` isn't "
                               "offered; `>=` compares entry by entry", sites.here())

    __rlshift__ = __lshift__
    __rrshift__ = __rshift__

    def __floordiv__(self, other):
        raise UnsupportedError("`//` and `%` of an expression aren't convex; an integer variable takes whole numbers",
                               sites.here())

    __rfloordiv__ = __mod__ = __rmod__ = __floordiv__

    def __hash__(self) -> int:
        return id(self)

    def __getitem__(self, key: Any) -> Expression:
        from . import operators
        return operators.indexed(self, key)

    def __setitem__(self, key, value):
        raise UnsupportedError("an expression never changes: make a new one, or add the constraint `x[key] == value`",
                               sites.here())

    def __array_ufunc__(self, ufunc, method, *inputs, **options):
        from . import foreign
        return foreign.ufunc(self, ufunc, method, inputs, options)

    def __array_function__(self, function, types, args, options):
        from . import foreign
        return foreign.function(function, args, options)

    def __array__(self, *args, **options):
        from . import foreign
        return foreign.boxed(self)

    # ---- methods that stand for calls

    @property
    def T(self) -> Expression:
        """The transpose; what has fewer than two sides is the same."""
        from . import operators
        return operators.transposed(self)

    def transpose(self) -> Expression:
        """The transpose."""
        return self.T

    @property
    def H(self) -> Expression:
        """The transpose: there are no complex numbers."""
        return self.T

    @property
    def flat(self) -> Iterator[Expression]:
        """The entries, column by column."""
        return iter(self.flatten(order="F"))

    def sum(self, axis: Axis = None, dtype: None = None, out: None = None, *, keepdims: bool = False) -> Expression:
        """`sum(self, axis, keepdims)`."""
        return _method("sum", self, axis, keepdims, dtype, out)

    def mean(self, axis: Axis = None, dtype: None = None, out: None = None, *, keepdims: bool = False) -> Expression:
        """`mean(self, axis, keepdims)`."""
        return _method("mean", self, axis, keepdims, dtype, out)

    def max(self, axis: Axis = None, out: None = None, *, keepdims: bool = False) -> Expression:
        """`max(self, axis, keepdims)`."""
        return _method("max", self, axis, keepdims, None, out)

    def min(self, axis: Axis = None, out: None = None, *, keepdims: bool = False) -> Expression:
        """`min(self, axis, keepdims)`."""
        return _method("min", self, axis, keepdims, None, out)

    def ptp(self, axis: Axis = None, out: None = None, *, keepdims: bool = False) -> Expression:
        """`ptp(self, axis, keepdims)`."""
        return _method("ptp", self, axis, keepdims, None, out)

    def cumsum(self, axis: int = 0) -> Expression:
        """`cumsum(self, axis)`."""
        from . import atoms
        return atoms.cumsum(self, axis)

    def trace(self) -> Expression:
        """`trace(self)`."""
        from . import atoms
        return atoms.trace(self)

    def flatten(self, order: str = "F") -> Expression:
        """`vec(self, order)`."""
        from . import atoms
        return atoms.vec(self, order)

    def reshape(self, shape: Union[int, Sequence[int]], order: str = "F") -> Expression:
        """`reshape(self, shape, order)`."""
        from . import atoms
        return atoms.reshape(self, shape, order)


missing.refuse(Expression, "expression")


def _operator(name: str, left, right):
    from . import operators
    return getattr(operators, name)(left, right)


def _method(name: str, expression, axis, keepdims, dtype, out):
    from . import atoms
    if dtype is not None or out is not None:
        raise TypeError(f"{name} of an expression takes axis and keepdims, and neither dtype nor out")
    return getattr(atoms, name)(expression, axis=axis, keepdims=keepdims)


class Compound(Expression):
    """An expression that is made of others. Were it a plain `Expression`, Python would ask a variable on the right of a
    comparison first, since that is of a subclass, and the sides of the constraint would be turned."""

    __slots__ = ()


class Constant(Expression):
    """Numbers that stand in a model, `Constant(value, name=None)`: `array` holds them, exactly.

    The value is a number, an array, a sparse matrix, or a list of numbers; in a list of lists each is a column, as in
    CVXPY. Raises `ValueError` of NaN and infinities, of lists of different lengths, of more than two sides and of lists
    of expressions, and `TypeError` of what is no number.
    """

    __slots__ = ("array", "given_name")

    def __init__(self, value: Operand, name: str | None = None):
        if isinstance(value, Expression):
            array = numbers_of(value)
            if array is None:
                raise TypeError("a constant is made of numbers, and not of an expression with variables or parameters")
        else:
            refuse_lists_of_expressions(value)
            array = arrays.array_of(value)
        super().__init__("constant", (), (), array.shape)
        self.array = array
        self.given_name = name

    def name(self) -> str:
        """The name that was given, or the numbers."""
        return self.given_name if self.given_name is not None else super().name()

    def is_constant(self) -> bool:
        """True."""
        return True

    def _array(self):
        return self.array


def refuse_lists_of_expressions(value: Operand) -> None:
    """ValueError where a list or an array of objects holds an expression, where one expression is wanted."""
    if isinstance(value, (list, tuple)):
        items, hint = value, ""
    elif getattr(getattr(value, "dtype", None), "kind", "") == "O" and getattr(value, "shape", ()):
        items = arrays.numpy().asarray(value).reshape(-1)
        hint = " An array's own A.dot(x) makes an array of expressions: write A @ x."
    else:
        return
    for item in items:
        if isinstance(item, Expression):
            raise ValueError("The input must be a single expression, not a list. Combine expressions using atoms such "
                             f"as bmat, hstack, and vstack.{hint}")
        if isinstance(item, (list, tuple)):
            refuse_lists_of_expressions(item)


def as_expression(value: Operand) -> Expression:
    """The value itself where it is an expression, else the constant of its numbers.

    ValueError of a list that holds expressions, of NaN and infinities; TypeError of what is no number.
    """
    if isinstance(value, Expression):
        return value
    if type(value) in (int, float):
        return Constant(value)
    if isinstance(value, (str, Made)) or value is None:
        raise TypeError(f"{value!r} stands where an expression or numbers are wanted")
    if hasattr(value, "__iter__") and not hasattr(value, "shape") and not isinstance(value, (list, tuple, range)):
        kind = type(value).__name__
        raise TypeError(f"a {kind} stands where an expression or numbers are wanted: write a list of what is in it")
    item = boxed_expression(value)
    return item if item is not None else Constant(value)


def numbers_of(expression: Expression) -> Array | Sparse | None:
    """The numbers of an expression in which neither variables nor parameters stand; None of any other."""
    return None if expression.variables() or expression.parameters() else expression._array()


def boxed_expression(value: Operand) -> Expression | None:
    """The expression that an array of NumPy without a side holds, if it does."""
    if getattr(value, "shape", None) == () and getattr(getattr(value, "dtype", None), "kind", "") == "O":
        item = value.item()
        return item if isinstance(item, Expression) else None
    return None


def node(kind: str, args: Sequence[Expression], options: tuple, shape: Sequence[int]) -> Expression:
    """A new expression. What has no entries is a constant, since nothing in it can vary."""
    if 0 in shape:
        return Constant(Array(shape, ()))
    return Compound(kind, args, options, shape)


def next_number() -> int:
    """A number that no variable, parameter or constraint has had."""
    return next(_numbers)


def __getattr__(name: str):
    # the leaves are expressions themselves, so their module is read behind this one
    if name in ("Leaf", "Variable", "Parameter"):
        from . import leaves
        return getattr(leaves, name)
    raise AttributeError(f"module {__name__!r} has no attribute {name!r}")
