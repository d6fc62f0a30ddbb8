"""Exact arrays in plain Python: of no side, one or two, dense or sparse; what data they are made of, and what they give
back."""
from __future__ import annotations

import sys
from fractions import Fraction
from typing import Any, Iterable, Sequence

from .numbers import exact

ZERO = Fraction(0)
_PLAIN = (int, float, Fraction)


class Array:
    """An array of fractions, row by row. It never changes."""

    __slots__ = ("shape", "entries", "_hash")

    def __init__(self, shape: Sequence[int], entries: Iterable[Fraction]):
        self.shape = tuple(shape)
        self.entries = tuple(entries)
        self._hash = None
        if len(self.entries) != size_of(self.shape):
            raise ValueError(f"{len(self.entries)} numbers for the shape {self.shape}")

    @property
    def size(self) -> int:
        """How many entries there are."""
        return len(self.entries)

    @property
    def ndim(self) -> int:
        """How many sides there are."""
        return len(self.shape)

    def dense(self) -> Array:
        """The array itself."""
        return self

    def __eq__(self, other) -> bool:
        if not isinstance(other, Array):
            return NotImplemented
        return self.shape == other.shape and self.entries == other.entries

    def __hash__(self) -> int:
        if self._hash is None:
            self._hash = hash((self.shape, self.entries))
        return self._hash

    def __repr__(self) -> str:
        return f"Array({self.shape}, {[str(number) for number in self.entries]})"


class Sparse:
    """A matrix of which only the entries that aren't 0 are held: for each row its pairs of a column and a number, in
    order."""

    __slots__ = ("shape", "rows", "_dense", "_hash")

    def __init__(self, shape: Sequence[int], rows: Iterable[Iterable[tuple[int, Fraction]]]):
        self.shape = tuple(shape)
        self.rows = tuple(tuple(row) for row in rows)
        self._dense = None
        self._hash = None

    @property
    def size(self) -> int:
        """How many entries there are, zeros too."""
        return self.shape[0] * self.shape[1]

    @property
    def ndim(self) -> int:
        """Two."""
        return 2

    @property
    def nonzeros(self) -> int:
        """How many entries aren't 0."""
        return sum(len(row) for row in self.rows)

    def dense(self) -> Array:
        """The same matrix with its zeros."""
        if self._dense is None:
            width = self.shape[1]
            entries = []
            for row in self.rows:
                line = [ZERO] * width
                for column, number in row:
                    line[column] = number
                entries += line
            self._dense = Array(self.shape, entries)
        return self._dense

    @property
    def entries(self) -> tuple:
        """All entries, row by row."""
        return self.dense().entries

    def __eq__(self, other) -> bool:
        if not isinstance(other, Sparse):
            return NotImplemented
        return self.shape == other.shape and self.rows == other.rows

    def __hash__(self) -> int:
        if self._hash is None:
            self._hash = hash((self.shape, self.rows))
        return self._hash

    def __repr__(self) -> str:
        return f"Sparse({self.shape}, {self.nonzeros} entries that aren't 0)"


def size_of(shape: Sequence[int]) -> int:
    """How many entries an array of this shape has."""
    size = 1
    for side in shape:
        size *= side
    return size


def numpy() -> Any:
    """NumPy where it can be imported, else None."""
    if "numpy" in _modules:
        return _modules["numpy"]
    try:
        import numpy as module
    except ImportError:
        module = None
    _modules["numpy"] = module
    return module


_modules: dict = {}


# ---- in


def array_of(data) -> Array | Sparse:
    """The exact array of a number, a NumPy array, a sparse matrix of SciPy, a table of pandas, an `Array`, the entries
    of a report, or nested lists and tuples. A list of lists is read as CVXPY reads it, each inner list as a column; a
    tuple of tuples, or any other nesting that begins with a tuple, has rows.

    ValueError where the sides of nested lists differ, where there are more than two sides, or of NaN and the
    infinities; TypeError of what is no number.
    """
    if type(data) in _PLAIN:
        return Array((), (exact(data),))
    if isinstance(data, (Array, Sparse)):
        return data
    if isinstance(data, (list, tuple)):
        array = _of_nested(data)
        return transposed(array) if isinstance(data, list) else array
    if isinstance(data, range):
        return _of_nested(tuple(data))
    if hasattr(data, "tocsr"):
        return _of_sparse(data)
    if type(data).__module__.startswith("numpy") and getattr(data, "shape", None):
        return _of_numpy(data)
    if hasattr(data, "entries") and hasattr(data, "shape"):
        return Array(data.shape, (exact(number) for number in data.entries))
    if hasattr(data, "__array__") and getattr(data, "shape", None):
        return array_of(sys.modules["numpy"].asarray(data))
    return Array((), (exact(data),))


def _limited(shape: Sequence[int]) -> tuple[int, ...]:
    if len(shape) > 2:
        raise ValueError(f"an array of shape {tuple(shape)} has more than two sides")
    return tuple(int(side) for side in shape)


def _of_numpy(data) -> Array:
    shape = _limited(data.shape)
    if sys.modules["numpy"].any(getattr(data, "mask", False)):
        raise ValueError("an array with masked entries has no numbers there: write array.filled(..) with one for them")
    if data.dtype.kind in "mM":
        raise TypeError("dates and spans of time are no numbers: write how many days or hours they are")
    # a matrix of NumPy's own class stays one under `reshape`
    return Array(shape, numbers_of(sys.modules["numpy"].asarray(data).reshape(-1)))


def numbers_of(flat) -> list[Fraction]:
    """The exact numbers of a NumPy array of one side."""
    kind = flat.dtype.kind
    if kind in "biu" or kind == "f" and flat.dtype.itemsize == 8:
        return [exact(number) for number in flat.tolist()]
    return [exact(number) for number in flat]


def _of_sparse(data) -> Sparse:
    if len(data.shape) != 2:
        return array_of(data.toarray())
    matrix = data.tocsr().copy()
    matrix.sum_duplicates()
    numbers = numbers_of(matrix.data)
    columns = matrix.indices.tolist()
    ends = matrix.indptr.tolist()
    rows = (
        sorted((columns[place], numbers[place]) for place in range(start, stop) if numbers[place])
        for start, stop in zip(ends, ends[1:])
    )
    return Sparse(_limited(data.shape), rows)


def _of_nested(data) -> Array:
    """The array of nested lists and tuples, whose inner items are its rows."""
    if not any(_has_sides(item) for item in data):
        return Array((len(data),), (exact(item) for item in data))
    if not all(_has_sides(item) for item in data):
        raise ValueError("a list with numbers and lists side by side is no array")
    parts = [_of_nested(item) if isinstance(item, (list, tuple)) else array_of(item) for item in data]
    if any(part.shape != parts[0].shape for part in parts):
        raise ValueError("lists of different lengths are no matrix")
    shape = _limited((len(parts),) + parts[0].shape)
    return Array(shape, (number for part in parts for number in part.entries))


def _has_sides(item) -> bool:
    return isinstance(item, (list, tuple, range)) or bool(getattr(item, "shape", ()))


# ---- out


def nested(shape: Sequence[int], items: list) -> object:
    """Items that stand row by row as one item, a list, or a list of rows."""
    if not shape:
        return items[0]
    if len(shape) == 1:
        return items
    return [items[row * shape[1]:(row + 1) * shape[1]] for row in range(shape[0])]


def to_floats(array: Array | Sparse) -> Any:
    """The entries as floats: a NumPy array, or lists of rows where NumPy isn't there; where there is no side a float,
    that of NumPy where it is there, which has the methods that an array has."""
    array = array.dense()
    if not array.shape and numpy() is not None:
        return numpy().float64(float(array.entries[0]))
    return _out(array, float, float)


def to_fractions(array: Array | Sparse) -> Any:
    """The entries as fractions: a `Fraction` where there is no side, else a NumPy array of them, or lists of rows."""
    return _out(array.dense(), Fraction, object)


def _out(array: Array, each, dtype):
    module = numpy() if array.shape else None
    if module is None:
        return nested(array.shape, [each(number) for number in array.entries])
    result = module.empty(array.size, dtype=dtype)
    result[:] = [each(number) for number in array.entries] if dtype is float else array.entries
    return result.reshape(array.shape)


# ---- reading by places


def transposed(array: Array | Sparse) -> Array | Sparse:
    """The transpose of a matrix; what has fewer sides is the same."""
    if len(array.shape) < 2:
        return array
    height, width = array.shape
    if isinstance(array, Sparse):
        rows = [[] for _ in range(width)]
        for place, row in enumerate(array.rows):
            for column, number in row:
                rows[column].append((place, number))
        return Sparse((width, height), rows)
    entries = array.entries
    return Array((width, height), (number for column in range(width) for number in entries[column::width]))


def filled(shape: Sequence[int], number) -> Array:
    """The array of this shape with the same number everywhere."""
    return Array(shape, (exact(number),) * size_of(shape))
