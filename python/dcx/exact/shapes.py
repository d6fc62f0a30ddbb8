"""Shapes `()`, `(n,)` and `(m, n)`, and the places that broadcasts, indices and reshapes take, row by row."""

MOST_ENTRIES = 20_000


def size(shape):
    product = 1
    for side in shape:
        product *= side
    return product


def text(shape):
    return "(" + ",".join(str(side) for side in shape) + ")"


def sides(shape):
    """Rows and columns, where a vector is one row."""
    return ((1, 1) + tuple(shape))[-2:]


def broadcast(a, b):
    """The shape of both, sides aligned from the right, or None."""
    rank = max(len(a), len(b))
    pairs = zip((1,) * (rank - len(a)) + a, (1,) * (rank - len(b)) + b)
    result = []
    for left, right in pairs:
        if left != right and 1 not in (left, right):
            return None
        result.append(max(left, right))
    return tuple(result)


def matmul(a, b):
    """The shape of a product of vectors and matrices, or None."""
    if not a or not b or a[-1] != b[0]:
        return None
    return a[:-1] + b[1:]


def promote_places(source, target):
    """For each entry of the target the entry of the source that is spread there."""
    rows, columns = sides(source)
    width = sides(target)[1]
    return [(k // width % rows) * columns + k % width % columns for k in range(size(target))]


def matmul_pairs(a, b):
    """For each entry of a product the pairs of entries whose products are added."""
    inner = a[-1]
    left_rows = a[0] if len(a) == 2 else 1
    right_columns = b[1] if len(b) == 2 else 1
    return [
        [(i * inner + k, k * right_columns + j) for k in range(inner)]
        for i in range(left_rows)
        for j in range(right_columns)
    ]


def slice_places(length, start, stop, step):
    return list(range(length)[start:stop:step])


def index_places(shape, picks):
    """The shape and the places of picks, each a place or a list of places of its side."""
    picks = picks + [list(range(side)) for side in shape[len(picks):]]
    result = tuple(len(pick) for pick in picks if isinstance(pick, list))
    places = [0]
    for side, pick in zip(shape, picks):
        taken = pick if isinstance(pick, list) else [pick]
        places = [place * side + at for place in places for at in taken]
    return result, places


def by_columns(shape):
    """The entries of a shape by columns, as entries by rows."""
    rows, columns = sides(shape)
    return [i * columns + j for j in range(columns) for i in range(rows)]


def reshape_places(source, target, columns_first):
    if not columns_first:
        return list(range(size(source)))
    places = [0] * size(target)
    for at, place in zip(by_columns(target), by_columns(source)):
        places[at] = place
    return places


def groups(shape, axis):
    """The shape of what is folded along an axis, and the entries of each group."""
    if axis is None or len(shape) < 2:
        return (), [list(range(size(shape)))]
    rows, columns = shape
    if axis == 0:
        return (columns,), [[i * columns + j for i in range(rows)] for j in range(columns)]
    return (rows,), [[i * columns + j for j in range(columns)] for i in range(rows)]
