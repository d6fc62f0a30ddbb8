"""What NumPy's operators and functions do where they meet an expression."""
from __future__ import annotations

import functools
import os
import sys

from . import sites
from .arrays import numpy
from .errors import UnsupportedError
from .questions import Questions

# NumPy's functions of two operands that stand for Python's operators
_OPERATORS = {
    "add": "added",
    "subtract": "subtracted",
    "multiply": "multiplied",
    "divide": "divided",
    "true_divide": "divided",
    "matmul": "matrix_multiplied",
    "power": "raised",
    "less_equal": "at_most",
    "greater_equal": "at_least",
    "equal": "equal",
}
_COMPARISONS = {"less": "__lt__", "greater": "__gt__", "not_equal": "__ne__", "left_shift": "__lshift__",
                "right_shift": "__rshift__"}

# functions of NumPy that ask an expression for what it tells itself, or for one of its methods
_ASKED = {"shape": "shape", "ndim": "ndim", "size": "size"}
_METHODS = {"sum": "sum", "mean": "mean", "max": "max", "amax": "max", "min": "min", "amin": "min",
            "transpose": "transpose"}

# what to write for a function of NumPy, where its own name isn't that of a call
_WRITE = {
    "absolute": "cp.abs", "fabs": "cp.abs", "negative": "-x", "positive": "x", "fmax": "cp.maximum",
    "fmin": "cp.minimum",
    "dot": "A @ x", "inner": "x @ y", "tensordot": "A @ x", "ravel": "cp.vec", "append": "cp.hstack",
    "repeat": "cp.hstack", "prod": "cp.multiply",
    "column_stack": "cp.vstack([..]).T", "row_stack": "cp.vstack", "stack": "cp.vstack or cp.hstack",
    "tile": "cp.kron", "where": "cp.multiply",
    "clip": "cp.minimum and cp.maximum", "linalg.norm": "cp.norm1 or cp.norm_inf", "diagonal": "cp.diag",
    "block": "cp.bmat",
    "triu": "cp.multiply", "tril": "cp.multiply", "average": "cp.mean",
    # what SciPy asks for where one of its sparse arrays stands before `*`
    "atleast_2d": "S @ x, or cp.multiply(S, x), where a sparse array S stands before x",
}


_PANDAS = os.sep + "pandas" + os.sep
_SPARSE = ("bsr", "coo", "csc", "csr", "dia", "dok", "lil")
_COMPARED_BY = ("__eq__", "__le__", "__ge__")
_yielding: set = set()


def yield_comparisons() -> None:
    """Has SciPy's sparse matrices leave `==`, `<=` and `>=` to an expression on the right, as CVXPY has them do: by
    themselves they answer False, or that it can't be compared. Nothing is done before SciPy is loaded."""
    module = sys.modules.get("scipy.sparse")
    for name in () if module is None or module in _yielding else _SPARSE:
        for kind in ("matrix", "array"):
            sort = getattr(module, f"{name}_{kind}", None)
            for word in () if sort is None else _COMPARED_BY:
                setattr(sort, word, _yielding_to_expressions(getattr(sort, word)))
    _yielding.add(module)


def _yielding_to_expressions(method):
    @functools.wraps(method)
    def compared(self, other):
        return NotImplemented if isinstance(other, Questions) else method(self, other)
    return compared


def _refuse_to_pandas(frame, words: tuple = ()) -> None:
    """UnsupportedError where a table of pandas asks, in a function of one of these names if any are given: it would
    repeat the outcome for each row, or fail with words of its own."""
    if _PANDAS in frame.f_code.co_filename and (not words or frame.f_code.co_name in words):
        raise UnsupportedError("a table of pandas before an operator takes an expression apart: write table.values, "
                               "or the expression first", sites.here())


def boxed(expression):
    """An array of NumPy without a side that holds the expression, so that NumPy and SciPy leave it whole."""
    # behind this function and `__array__` stands who asks
    _refuse_to_pandas(sys._getframe(2), ("dot",))
    module = numpy()
    if module is None:
        raise TypeError("an expression is no array")
    box = module.empty((), dtype=object)
    box[()] = expression
    return box


def ufunc(expression, function, method: str, inputs: tuple, options: dict):
    """What an operator between an array and an expression gives. Where `a += x` stands, with an array a, a new
    expression.

    UnsupportedError for every other function, with what to write.
    """
    from . import operators
    # behind this function and `__array_ufunc__` stands who asks
    _refuse_to_pandas(sys._getframe(2))
    name = function.__name__
    out = options.pop("out", None)
    in_place = out is not None and len(out) == 1 and out[0] is inputs[0]
    if method == "__call__" and len(inputs) == 2 and not options and (out is None or in_place):
        if name == "equal" and inputs[1] is expression:
            # what `==` does where the array leaves it to the expression, so that multipliers have the same sign
            inputs = inputs[::-1]
        if name in _OPERATORS:
            return getattr(operators, _OPERATORS[name])(*inputs)
        if name in _COMPARISONS:
            return getattr(expression, _COMPARISONS[name])(inputs[0])
    raise _refusal(name)


def function(function, arguments: tuple, options: dict):
    """What one of NumPy's functions of arrays gives of an expression: its shape, or its sum, mean, greatest or least
    entry.

    UnsupportedError for every other one, with what to write.
    """
    name = function.__name__
    first = arguments[0] if arguments else None
    if name in _ASKED and len(arguments) == 1 and not options:
        return getattr(first, _ASKED[name])
    if name in _METHODS and hasattr(first, "kind"):
        return getattr(first, _METHODS[name])(*arguments[1:], **options)
    module = (function.__module__ or "").replace("numpy.", "", 1).replace("numpy", "", 1)
    raise _refusal(f"{module}.{name}" if module == "linalg" else name)


def _refusal(name: str) -> UnsupportedError:
    from . import atoms, unsupported
    if name in unsupported.NAMES:
        why, write = unsupported.NAMES[name]
        return UnsupportedError(f"np.{name} is a function of NumPy and isn't defined on expressions, and {why}. Write "
                                f"{write}.", sites.here())
    write = _WRITE.get(name) or (f"cp.{name}" if hasattr(atoms, name) else None)
    return UnsupportedError(f"np.{name} is a function of NumPy and isn't defined on expressions"
                            + (f": write {write}" if write else ", which have no numbers before they are solved"),
                            sites.here())
