"""Where a run in whole numbers starts: at a basis that floating-point numbers found. Nothing rests on it."""
from __future__ import annotations

from typing import Optional

from .arithmetic import Floats
from .run import Run
from .standard import FREE, ZERO, Standard

# A program whose rows times columns are more than this is given to HiGHS first, where SciPy can be imported. (Smaller
# ones take less time than loading SciPy, and have the same answer with it and without it, also where several are best.)
LARGE = 800_000


def first(form: Standard) -> list[int]:
    """The basis of all logical columns."""
    return [form.count + i for i in range(form.size)]


def found(form: Standard, basis: Optional[list[int]] = None) -> list[int]:
    """A basis that is optimal, or near it, as far as floating-point numbers tell; they start from the basis that is
    given, or from `first`.
    """
    try:
        numbers = Floats(form)
        if basis is None and form.size * len(form.kinds) > LARGE:
            basis = _from_highs(form, numbers)
        run = Run(form, numbers, basis or first(form), most=2000 + 20 * len(form.kinds))
        run.found()
        return run.basis
    except (ArithmeticError, ValueError):
        # (a number too large for a float, or a basis that floats find singular)
        return basis or first(form)


def _from_highs(form: Standard, numbers: Floats) -> Optional[list[int]]:
    """The columns that aren't 0 in the point that HiGHS finds; None where there is no HiGHS, or no point."""
    try:
        from scipy.optimize import linprog
        from scipy.sparse import coo_matrix
    except ImportError:
        return None
    places = [(i, c, v) for c, column in enumerate(numbers.columns) for i, v in column]
    rows, columns, values = zip(*places)
    matrix = coo_matrix((values, (rows, columns)), shape=(form.size, len(form.kinds))).tocsc()
    bounds = [{FREE: (None, None), ZERO: (0, 0)}.get(kind, (0, None)) for kind in form.kinds]
    point = linprog(numbers.costs, A_eq=matrix, b_eq=numbers.right, bounds=bounds, method="highs").x
    if point is None:
        return None
    # What is farthest from 0 comes first, since no more columns than rows can be taken.
    listed = sorted((c for c, x in enumerate(point) if abs(x) > numbers.feasible), key=lambda c: -abs(point[c]))
    return listed[: form.size]
