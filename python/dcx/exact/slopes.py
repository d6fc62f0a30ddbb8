"""The slopes of atoms from the weights of their rows, with the first condition that the weights break."""
from fractions import Fraction

from . import shapes

ENTRYWISE = ("abs", "pos", "neg", "maximum", "minimum")
LEAST = ("minimum", "min", "sum_smallest")
PAIRED = ("abs", "norm1", "norm_inf")


class Broken(Exception):
    """A condition of a result entry that doesn't hold, with both of its sides."""

    def __init__(self, entry, stated, found):
        super().__init__(entry, stated, found)
        self.entry, self.stated, self.found = entry, stated, found


def demand(holds, entry, stated, found):
    if not holds:
        raise Broken(entry, stated, found)


def members(call, args, entry):
    """The entries of arguments, as (argument, entry), for which a result entry has rows, in the order of these."""
    word = call[0]
    if word in ("maximum", "minimum"):
        return [(a, entry) for a in range(len(args))]
    if word in ENTRYWISE:
        return [(0, entry)]
    axis = None if word in ("sum_largest", "sum_smallest") else call[1]
    return [(0, e) for e in shapes.groups(args[0], axis)[1][entry]]


def conditions(call, c, weights, numbers):
    """The conditions of a result entry with coefficient c, each as (left side, whether both are to be equal, right
    side).
    """
    word = call[0]
    side = -1 if word in LEAST else 1
    each = [w for ws in weights for w in ws]
    if word in ("abs", "norm1"):
        for ws in weights:
            yield numbers.total(ws), False, c
    elif word in ("pos", "neg", "norm_inf"):
        yield numbers.total(each), False, c
    elif word in ("sum_largest", "sum_smallest"):
        for w in each:
            yield w, False, side * c
        left = numbers.total(each)
        yield left, True, numbers.mul(Fraction(side * call[1]), c)
    else:
        yield numbers.total(each), True, side * c


def slope(call, ws, numbers):
    if call[0] in PAIRED:
        return numbers.sub(*ws)
    return -ws[0] if call[0] == "neg" or call[0] in LEAST else ws[0]


def slopes(call, args, coefficients, weights, numbers):
    """For each argument what goes to its entries, formed by the operations on `numbers`."""
    result = [[Fraction(0)] * shapes.size(s) for s in args]
    rest = iter(weights)
    if call[0] == "cummax":
        result[0] = running(coefficients, rest, numbers)
        return result
    rows = 2 if call[0] in PAIRED else 1
    for entry, c in enumerate(coefficients):
        places = members(call, args, entry)
        taken = [[next(rest) for _ in range(rows)] for _ in places]
        for w in (w for ws in taken for w in ws):
            demand(w >= 0, entry, w, Fraction(0))
        for left, is_equal, right in conditions(call, c, taken, numbers):
            demand(left == right if is_equal else left <= right, entry, left, right)
        for (a, e), ws in zip(places, taken):
            result[a][e] = slope(call, ws, numbers)
    return result


def running(coefficients, rest, numbers):
    """Of cummax, whose entries but the first have a row that carries the weight of the entry before."""
    taken = [[next(rest) for _ in range(2 if entry else 1)] for entry in range(len(coefficients))]
    for entry, c in enumerate(coefficients):
        for w in taken[entry]:
            demand(w >= 0, entry, w, Fraction(0))
        carried = taken[entry + 1][1:] if entry + 1 < len(taken) else []
        left = numbers.total(taken[entry])
        right = numbers.total([c, *carried])
        demand(left == right, entry, left, right)
    return [ws[0] for ws in taken]
