"""Values of a script that are no numbers (Fractions), truth values or None, and the operations on plain values."""
from fractions import Fraction

from . import shapes
from .faults import Refused
from .numbers import OF_LANGUAGE, Passes

MOST_ITEMS = 20_000
OPERATIONS = {"+": OF_LANGUAGE.add, "-": OF_LANGUAGE.sub, "*": OF_LANGUAGE.mul, "/": OF_LANGUAGE.div}


class Array:
    def __init__(self, shape, entries):
        self.shape, self.entries = shape, entries


class Text:
    def __init__(self, text):
        self.text = text


class Items:
    """A list or a tuple, with how many items count and how deep it nests."""

    def __init__(self, items, count, depth):
        self.items, self.count, self.depth = items, count, depth


class List(Items):
    pass


class Tuple(Items):
    pass


class Range:
    def __init__(self, items):
        self.items = items


class Module:
    def __init__(self, name):
        self.name = name


class Expression:
    def __init__(self, node):
        self.node = node


class Objective:
    def __init__(self, sense, node, place):
        self.sense, self.node, self.place = sense, node, place


class TheProblem:
    pass


class Result:
    pass


def is_number(value):
    return isinstance(value, Fraction)


def is_plain(value):
    return isinstance(value, (Fraction, Array))


def is_whole(value):
    return is_number(value) and value.denominator == 1


def array_of(value):
    return value if isinstance(value, Array) else Array((), [value])


def plain_of(shape, entries):
    """A plain array, or a number where the shape is ()."""
    return entries[0] if shape == () else Array(shape, entries)


def counted(value):
    """How much an item counts."""
    if isinstance(value, Array):
        return 1 + len(value.entries)
    return 1 + value.count if isinstance(value, Items) else 1


def at_most(count, most, what, place):
    """Refuses a count that is too large."""
    if count > most:
        raise Refused(18, place, f" {what} {min(count, 2**32 - 1)}")


def gathered_items(kind, values, place):
    """A list or a tuple of these values, which come one after the other."""
    items, count, depth = [], 0, 1
    for value in values:
        if isinstance(value, Items):
            depth = max(depth, value.depth + 1)
        if depth > 64:
            raise Refused(11, place)
        count += counted(value)
        at_most(count, MOST_ITEMS, "items", place)
        items.append(value)
    return kind(items, count, depth)


def is_flat(value):
    return isinstance(value, List) and all(is_number(v) for v in value.items)


def is_nested(value):
    """Whether this is a list that holds a list."""
    return isinstance(value, List) and any(isinstance(v, List) for v in value.items)


def plain_operation(sign, a, b, place):
    """An operator on plain operands."""
    a, b = array_of(a), array_of(b)
    if sign == "/" and 0 in b.entries:
        raise Refused(11, place)
    shape = shapes.matmul(a.shape, b.shape) if sign == "@" else shapes.broadcast(a.shape, b.shape)
    if shape is None:
        raise Refused(13, place)
    at_most(shapes.size(shape), MOST_ITEMS, "items", place)
    try:
        return plain_of(shape, plain_entries(sign, a, b, shape))
    except Passes as passes:
        raise Refused(20, place, " " + passes.text()) from None


def plain_entries(sign, a, b, shape):
    if sign == "@":
        pairs = shapes.matmul_pairs(a.shape, b.shape)
        return [
            OF_LANGUAGE.total(OF_LANGUAGE.mul(a.entries[left], b.entries[right]) for left, right in listed)
            for listed in pairs
        ]
    lefts = shapes.promote_places(a.shape, shape)
    rights = shapes.promote_places(b.shape, shape)
    return [OPERATIONS[sign](a.entries[i], b.entries[j]) for i, j in zip(lefts, rights)]
