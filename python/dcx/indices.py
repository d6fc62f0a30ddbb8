"""Indices as NumPy means them: whole numbers, slices, `...`, `None`, lists, arrays and masks, of expressions of at most
two sides.

An index is read as one of two things. A `Basic` one is what the program's language says too: for each side a whole
number or `('slice', start, stop, step)`, with all of them told, and `stop` None where it goes down past the first. A
`Gathered` one is a list of places, counted row by row.
"""
from __future__ import annotations

from typing import NamedTuple, Sequence, Union

from . import shapes


class Basic(NamedTuple):
    """A whole number or a slice for each side; `left` is the shape that these leave, and `shape` has what `None` adds.
    """

    sides: tuple
    left: tuple
    shape: tuple


class Gathered(NamedTuple):
    """The entries at these places, in this shape."""

    places: list
    shape: tuple


class _List(NamedTuple):
    """Whole numbers in a shape, as an index of one side."""

    shape: tuple
    entries: list


class _Mask(NamedTuple):
    """Truth values in a shape, as an index of as many sides."""

    shape: tuple
    entries: list


def read(shape: Sequence[int], key) -> Union[Basic, Gathered]:
    """What an index takes of an expression of this shape.

    IndexError where it goes outside, has too many parts, or is none.
    """
    items = [_item(part) for part in (key if isinstance(key, tuple) else (key,))]
    items = _filled(shape, items)
    if any(isinstance(item, (_List, _Mask)) for item in items):
        return _gathered(shape, items)
    sides, left, result = [], [], []
    place = 0
    for item in items:
        if item is None:
            result.append(1)
            continue
        side = _side(item, shape[place])
        sides.append(side)
        if isinstance(side, tuple):
            left.append(count(side))
            result.append(count(side))
        place += 1
    if len(result) > 2:
        raise IndexError(f"an index by None gives {len(result)} sides, and an expression has two at most")
    return Basic(tuple(sides), tuple(left), tuple(result))


def count(side: tuple) -> int:
    """How many entries a slice takes."""
    _, start, stop, step = side
    return len(range(start, -1 if stop is None else stop, step))


def range_of(side) -> range:
    """The places of a side, one of a whole number."""
    if not isinstance(side, tuple):
        return range(side, side + 1)
    _, start, stop, step = side
    return range(start, -1 if stop is None else stop, step)


def slice_of(places: range) -> tuple:
    """The slice that takes these places."""
    if not places:
        return ("slice", 0, 0, 1)
    stop = places.stop if places.stop >= 0 else None
    return ("slice", places.start, stop, places.step)


def places_of(shape: Sequence[int], sides: Sequence) -> list:
    """The places, row by row, that a whole number or a slice for each side takes."""
    if not shape:
        return [0]
    if len(shape) == 1:
        return list(range_of(sides[0]))
    columns = range_of(sides[1])
    return [row * shape[1] + column for row in range_of(sides[0]) for column in columns]


def composed(outer: Sequence, inner: Sequence) -> tuple:
    """The sides of an index of an index: `inner` is of what `outer` leaves."""
    rest = iter(inner)
    result = []
    for side in outer:
        if not isinstance(side, tuple):
            result.append(side)
            continue
        part, places = next(rest), range_of(side)
        result.append(slice_of(places[slice(part[1], part[2], part[3])]) if isinstance(part, tuple) else places[part])
    return tuple(result)


# ---- the parts of a key


def _item(part):
    if part is None or part is Ellipsis or isinstance(part, slice):
        return part
    if shapes.is_whole(part):
        return int(part)
    if isinstance(part, bool) or type(part).__name__ in ("bool_", "bool"):
        raise IndexError("a truth value alone is no index: a list of them is a mask")
    if isinstance(part, range):
        return _List((len(part),), list(part))
    if isinstance(part, (list, tuple)):
        shape, entries = _flat(part)
    elif hasattr(part, "dtype") and hasattr(part, "tolist") and hasattr(part, "reshape") and hasattr(part, "shape"):
        if part.shape == () and part.dtype.kind in "iu":
            return int(part)
        shape, entries = tuple(part.shape), part.reshape(-1).tolist()
    elif hasattr(part, "__array__") and getattr(part, "shape", None):
        return _item(part.__array__())
    else:
        raise IndexError(f"{part!r} is no index: whole numbers, slices, lists, arrays and masks are")
    if entries and all(isinstance(entry, bool) for entry in entries):
        return _Mask(shape, entries)
    if not all(shapes.is_whole(entry) for entry in entries):
        raise IndexError("a list that is an index holds whole numbers, or truth values alone")
    return _List(shape, [int(entry) for entry in entries])


def _flat(part) -> tuple:
    """The shape and the items of nested lists."""
    if not any(isinstance(item, (list, tuple)) or getattr(item, "shape", ()) for item in part):
        return (len(part),), [bool(item) if type(item).__name__ == "bool_" else item for item in part]
    inner = [_item(item) for item in part]
    if any(not isinstance(item, (_List, _Mask)) or item.shape != inner[0].shape for item in inner):
        raise IndexError("nested lists of different lengths are no index")
    return (len(inner),) + inner[0].shape, [entry for item in inner for entry in item.entries]


def _taken(item) -> int:
    """How many sides a part speaks of."""
    return 0 if item is None else len(item.shape) if isinstance(item, _Mask) else 1


def _filled(shape: Sequence[int], items: list) -> list:
    """The parts with whole slices for the sides that they don't speak of."""
    dots = [place for place, item in enumerate(items) if item is Ellipsis]
    if len(dots) > 1:
        raise IndexError("an index can only have a single ellipsis ('...')")
    taken = sum(_taken(item) for item in items if item is not Ellipsis)
    if taken > len(shape):
        raise IndexError(f"Too many indices for expression: {taken} for the shape {tuple(shape)}")
    rest = [slice(None)] * (len(shape) - taken)
    if dots:
        return items[:dots[0]] + rest + items[dots[0] + 1:]
    return items + rest


def _whole(place: int, side: int) -> int:
    if not -side <= place < side:
        raise IndexError(f"Index {place} is out of bounds for axis with size {side}.")
    return place % side


def _side(item, side: int):
    """A whole number from 0 on, or a slice with all its parts."""
    if not isinstance(item, slice):
        return _whole(item, side)
    for part in (item.start, item.stop, item.step):
        if part is not None and not shapes.is_whole(part):
            raise IndexError(f"a slice has whole numbers, and not {part!r}")
    return slice_of(range(side)[item])


# ---- lists and masks


def _gathered(shape: Sequence[int], items: list) -> Gathered:
    if any(item is None for item in items):
        raise IndexError("None beside a list or a mask isn't offered as an index: reshape what the list takes")
    if len(items) == 1 and isinstance(items[0], _Mask) and len(items[0].shape) == 2:
        mask = items[0]
        if mask.shape != tuple(shape):
            raise IndexError(f"a mask of the shape {mask.shape} for the shape {tuple(shape)}")
        places = [place for place, is_in in enumerate(mask.entries) if is_in]
        return Gathered(places, (len(places),))
    parts = [_listed(item, side) for item, side in zip(items, shape)]
    if len(parts) == 1:
        result = parts[0]
        return Gathered(list(result.entries), _two_sided(result.shape))
    rows, columns = parts
    width = shape[1]
    if isinstance(rows, range) or isinstance(columns, range):
        outer = (len(rows),) if isinstance(rows, range) else rows.shape
        inner = (len(columns),) if isinstance(columns, range) else columns.shape
        row_list = rows if isinstance(rows, range) else rows.entries
        column_list = columns if isinstance(columns, range) else columns.entries
        return Gathered([row * width + column for row in row_list for column in column_list], _two_sided(outer + inner))
    result = shapes.broadcast(rows.shape, columns.shape)
    pairs = zip(_spread(rows, result), _spread(columns, result))
    return Gathered([row * width + column for row, column in pairs], _two_sided(result))


def _two_sided(shape: tuple) -> tuple:
    if len(shape) > 2:
        raise IndexError(f"an index by lists gives {len(shape)} sides, and an expression has two at most")
    return shape


def _listed(item, side: int):
    """A slice as a range, and a whole number, a list or a mask as a list of places from 0 on."""
    if isinstance(item, slice):
        return range_of(_side(item, side))
    if isinstance(item, int):
        return _List((), [_whole(item, side)])
    if isinstance(item, _Mask):
        if item.shape != (side,):
            raise IndexError(f"a mask of the shape {item.shape} for a side of {side} entries")
        places = [place for place, is_in in enumerate(item.entries) if is_in]
        return _List((len(places),), places)
    return _List(item.shape, [_whole(place, side) for place in item.entries])


def _spread(part: _List, shape: tuple) -> list:
    """The entries of a list, broadcast to a shape."""
    if part.shape == shape:
        return part.entries
    if len(part.entries) == 1:
        total = 1
        for side in shape:
            total *= side
        return part.entries * total
    height, width = shape
    own = (1,) * (2 - len(part.shape)) + part.shape
    return [part.entries[(row if own[0] > 1 else 0) * own[1] + (column if own[1] > 1 else 0)]
            for row in range(height) for column in range(width)]
