"""The calls of the language: shapes, signs, terms, graphs and values.

A call is a tuple of its word and its own fields. A sign is a pair: at least 0, at most 0.
"""
from fractions import Fraction

from . import shapes

UNKNOWN = (False, False)
ZERO = (True, True)
NONNEG = (True, False)

LINEAR = {
    "plus", "minus", "sum", "mean", "cumsum", "diff", "trace", "diag", "index", "reshape", "transpose", "hstack",
    "vstack", "promote",
}
PAIRING = {"times", "matmul", "over"}
CONVEX = {"abs", "pos", "neg", "maximum", "max", "norm1", "norm_inf", "sum_largest", "cummax"}
CONCAVE = {"minimum", "min", "sum_smallest"}


# Shapes


def stack_shape(shape):
    """A scalar or a vector as a row of a vertical stack."""
    return shape if len(shape) == 2 else (1, shapes.size(shape))


def hstack_shape(args):
    if all(len(s) < 2 for s in args):
        return (sum(shapes.size(s) for s in args),)
    if any(len(s) < 2 for s in args) or len({s[0] for s in args}) > 1:
        return None
    return (args[0][0], sum(s[1] for s in args))


def vstack_shape(args):
    rows = [stack_shape(s) for s in args]
    if len({s[1] for s in rows}) > 1:
        return None
    return (sum(s[0] for s in rows), rows[0][1])


def diag_shape(shape):
    if len(shape) == 1:
        return shape * 2
    return shape[:1] if len(shape) == 2 and shape[0] == shape[1] else None


def result_shape(call, args):
    """The shape of a call on arguments of these shapes, or None where there is none."""
    word, first = call[0], args[0]
    if word in ("sum", "mean", "max", "min", "norm1", "norm_inf"):
        shape = shapes.groups(first, call[1])[0]
    elif word == "diff":
        shape = (first[0] - 1,) if len(first) == 1 and first[0] > 1 else None
    elif word == "trace":
        shape = () if len(first) == 2 and first[0] == first[1] else None
    elif word == "diag":
        shape = diag_shape(first)
    elif word == "cumsum":
        shape = first if first else None
    elif word == "cummax":
        shape = first if len(first) == 1 else None
    elif word in ("index", "promote"):
        shape = call[1]
    elif word == "reshape":
        shape = call[1] if shapes.size(call[1]) == shapes.size(first) else None
    elif word == "transpose":
        shape = first[::-1]
    elif word == "hstack":
        shape = hstack_shape(args)
    elif word == "vstack":
        shape = vstack_shape(args)
    elif word == "matmul":
        shape = shapes.matmul(*args)
    elif word in ("sum_largest", "sum_smallest"):
        shape = ()
    else:
        shape = first
    return None if shape is None or shapes.size(shape) > shapes.MOST_ENTRIES else shape


# Signs and trends


def turned(sign):
    return (sign[1], sign[0])


def every(signs):
    return (all(s[0] for s in signs), all(s[1] for s in signs))


def product_sign(a, b):
    if ZERO in (a, b):
        return ZERO
    return ((a[0] and b[0]) or (a[1] and b[1]), (a[0] and b[1]) or (a[1] and b[0]))


def result_sign(call, args):
    word, first = call[0], args[0]
    if word in PAIRING:
        return product_sign(*args)
    if word == "minus":
        return turned(first)
    if word == "diff":
        return ZERO if first == ZERO else UNKNOWN
    if word in ("abs", "pos", "neg", "norm1", "norm_inf"):
        return NONNEG
    if word == "maximum":
        return (any(s[0] for s in args), all(s[1] for s in args))
    if word == "minimum":
        return (all(s[0] for s in args), any(s[1] for s in args))
    return every(args)


def trend(call, args, i):
    """Whether a call rises in argument i, and whether it falls, where the arguments have these signs."""
    word = call[0]
    if word in ("times", "matmul") or (word == "over" and i == 0):
        return args[1 - i]
    if word in ("over", "diff"):
        return (False, False)
    if word in ("minus", "neg"):
        return (False, True)
    if word in ("abs", "norm1", "norm_inf"):
        return args[i]
    return (True, False)


# What linear calls and pairings add up


def one(argument, entry, coefficient=1):
    return (argument, entry, Fraction(coefficient))


def sum_terms(shape, axis, coefficient_of):
    return [[one(0, e, coefficient_of(group)) for e in group] for group in shapes.groups(shape, axis)[1]]


def cumsum_terms(shape, axis):
    result = [None] * shapes.size(shape)
    for group in shapes.groups(shape, axis)[1]:
        for i, entry in enumerate(group):
            result[entry] = [one(0, e) for e in group[: i + 1]]
    return result


def diag_terms(shape):
    if len(shape) == 2:
        return [[one(0, i * shape[0] + i)] for i in range(shape[0])]
    n = shape[0]
    return [[one(0, i)] if i == j else [] for i in range(n) for j in range(n)]


def hstack_terms(args):
    if len(args[0]) < 2:
        return [[one(a, e)] for a, s in enumerate(args) for e in range(shapes.size(s))]
    return [[one(a, i * s[1] + j)] for i in range(args[0][0]) for a, s in enumerate(args) for j in range(s[1])]


def placed(places):
    return [[one(0, place)] for place in places]


def terms(call, args):
    """For each entry of a linear call's result what is added up: argument, entry, coefficient."""
    word, first = call[0], args[0]
    if word == "plus":
        return [[one(0, e), one(1, e)] for e in range(shapes.size(first))]
    if word == "minus":
        return [[one(0, e, -1)] for e in range(shapes.size(first))]
    if word == "sum":
        return sum_terms(first, call[1], lambda group: 1)
    if word == "mean":
        return sum_terms(first, call[1], lambda group: Fraction(1, len(group)))
    if word == "cumsum":
        return cumsum_terms(first, call[1])
    if word == "diff":
        return [[one(0, e, -1), one(0, e + 1)] for e in range(first[0] - 1)]
    if word == "trace":
        return [[one(0, i * first[0] + i) for i in range(first[0])]]
    if word == "diag":
        return diag_terms(first)
    if word == "index":
        return placed(call[2])
    if word == "reshape":
        return placed(shapes.reshape_places(first, call[1], call[2]))
    if word == "transpose":
        return placed([i * first[1] + j for j in range(first[1]) for i in range(first[0])])
    if word == "hstack":
        return hstack_terms(args)
    if word == "vstack":
        return [[one(a, e)] for a, s in enumerate(args) for e in range(shapes.size(s))]
    return placed(shapes.promote_places(first, call[1]))


def pairs(call, args):
    """For each entry of a product or quotient the pairs of entries."""
    if call[0] == "matmul":
        return shapes.matmul_pairs(*args)
    return [[(e, e)] for e in range(shapes.size(args[0]))]


# Graphs of atoms


class Graph:
    """Auxiliary unknowns, `free` or `nonneg`; rows that are at most 0, by result entry; for each result entry its
    terms.

    A term is the operand `(argument, entry)` or `("aux", i)` with its coefficient.
    """

    def __init__(self):
        self.aux, self.rows, self.results = [], [], []

    def unknown(self, kind):
        self.aux.append(kind)
        return ("aux", len(self.aux) - 1)

    def row(self, entry, *parts):
        self.rows.append((entry, parts))

    def result(self, *parts):
        self.results.append(parts)


def magnitude_rows(graph, result, entry, bound):
    graph.row(result, ((0, entry), 1), (bound, -1))
    graph.row(result, ((0, entry), -1), (bound, -1))


def entrywise_graph(word, graph, args):
    for e in range(shapes.size(args[0])):
        t = graph.unknown("free" if word in ("maximum", "minimum") else "nonneg")
        if word == "abs":
            magnitude_rows(graph, e, e, t)
        elif word in ("pos", "neg"):
            graph.row(e, ((0, e), 1 if word == "pos" else -1), (t, -1))
        else:
            side = 1 if word == "maximum" else -1
            for a in range(len(args)):
                graph.row(e, ((a, e), side), (t, -side))
        graph.result((t, 1))


def folded_graph(call, graph, shape):
    word = call[0]
    for r, group in enumerate(shapes.groups(shape, call[1])[1]):
        if word == "norm1":
            bounds = [graph.unknown("nonneg") for _ in group]
            for entry, t in zip(group, bounds):
                magnitude_rows(graph, r, entry, t)
            graph.result(*((t, 1) for t in bounds))
            continue
        t = graph.unknown("nonneg" if word == "norm_inf" else "free")
        for entry in group:
            if word == "norm_inf":
                magnitude_rows(graph, r, entry, t)
            else:
                side = 1 if word == "max" else -1
                graph.row(r, ((0, entry), side), (t, -side))
        graph.result((t, 1))


def ordered_graph(call, graph, shape):
    """Of sum_largest and sum_smallest."""
    side = 1 if call[0] == "sum_largest" else -1
    q = graph.unknown("free")
    excess = [graph.unknown("nonneg") for _ in range(shapes.size(shape))]
    for entry, u in enumerate(excess):
        graph.row(0, ((0, entry), side), (q, -side), (u, -1))
    graph.result((q, call[1]), *((u, side) for u in excess))


def running_graph(graph, length):
    """Of cummax."""
    bounds = [graph.unknown("free") for _ in range(length)]
    for i, t in enumerate(bounds):
        graph.row(i, ((0, i), 1), (t, -1))
        if i:
            graph.row(i, (bounds[i - 1], 1), (t, -1))
        graph.result((t, 1))


def graph_of(call, args):
    graph = Graph()
    if call[0] in ("abs", "pos", "neg", "maximum", "minimum"):
        entrywise_graph(call[0], graph, args)
    elif call[0] in ("sum_largest", "sum_smallest"):
        ordered_graph(call, graph, args[0])
    elif call[0] == "cummax":
        running_graph(graph, args[0][0])
    else:
        folded_graph(call, graph, args[0])
    return graph


# Values of atoms


def atom_entry(call, args, shape, entry, total):
    """Entry of an atom's value. Of the arguments the entries are given; `total` adds numbers up."""
    word = call[0]
    if word == "abs":
        return abs(args[0][entry])
    if word == "pos":
        return max(args[0][entry], Fraction(0))
    if word == "neg":
        return max(-args[0][entry], Fraction(0))
    if word == "maximum":
        return max(arg[entry] for arg in args)
    if word == "minimum":
        return min(arg[entry] for arg in args)
    if word == "cummax":
        return max(args[0][: entry + 1])
    if word == "sum_largest":
        return total(sorted(args[0], reverse=True)[: call[1]])
    if word == "sum_smallest":
        return total(sorted(args[0])[: call[1]])
    group = [args[0][e] for e in shapes.groups(shape, call[1])[1][entry]]
    if word == "norm1":
        return total(abs(n) for n in group)
    return {"max": max, "min": min, "norm_inf": lambda g: max(abs(n) for n in g)}[word](group)
