"""The distinct parts of a model: equal expressions become one part, in the order in which the language counts them.

The language counts the parts of a script and their entries, and takes 20,000 of each. So a product with a matrix in
which most entries are 0 is written out by rows where that has fewer entries than the matrix; all else is as the user
wrote it.
"""

from __future__ import annotations

from fractions import Fraction
from typing import Any, Iterable, Optional, Union

from .arrays import ZERO, Array, Sparse, size_of, transposed
from .trees import postorder

__all__ = ["Graph", "Part", "MOST", "PLAIN"]

MOST = 20_000  # of nodes, and of entries over all nodes (docs/LANGUAGE.md, "Limits")
_WIDE = 1_000  # a matrix that isn't stored as a sparse one is looked at for zeros from so many entries on

# what gives a plain value of plain values
PLAIN = {"+", "-", "*", "/", "@", "minus", "T", "index"}


class Part:
    """One distinct expression. `source` is the user's expression that it was first made for, `uses` counts where it
    stands. `plain` tells whether it is numbers alone, which the language works out at once, and counts only beside
    what isn't."""

    __slots__ = ("kind", "args", "options", "shape", "source", "uses", "plain")

    def __init__(self, kind: str, args: tuple[Part, ...], options: tuple, shape: tuple[int, ...], source: Any):
        self.kind = kind
        self.args = args
        self.options = options
        self.shape = shape
        self.source = source
        self.uses = 0
        self.plain = kind == "constant" or (kind in PLAIN and all(arg.plain for arg in args))

    @property
    def size(self) -> int:
        """How many entries the part has."""
        return size_of(self.shape)

    @property
    def array(self) -> Union[Array, Sparse]:
        """The numbers of a constant."""
        return self.options[0]


class Graph:
    """The distinct parts of some expressions, the roots. A part comes behind its arguments."""

    def __init__(self, roots: Iterable[Any]):
        self.parts: list[Part] = []
        self._known: dict[tuple, Part] = {}
        roots = list(roots)
        order = list(postorder(roots))
        self._sparse = _written_by_rows(order, roots)
        self._parts_of: dict[int, Part] = {}
        for expression in order:
            self._parts_of[id(expression)] = self._made(expression)
        self._kept = order  # what is known by its id stays alive
        self.roots = [self._parts_of[id(root)] for root in roots]
        for root in self.roots:
            root.uses += 1
        for part in reversed(self.parts):
            if part.uses:
                for arg in part.args:
                    arg.uses += 1

    def part_of(self, expression: Any) -> Part:
        """The part that stands for an expression of the graph."""
        return self._parts_of[id(expression)]

    def leaves(self) -> list[Any]:
        """The variables and parameters of the roots, in the order in which the user made them."""
        leaves = [expression for expression in self._kept if expression.kind in ("variable", "parameter")]
        return sorted(leaves, key=lambda leaf: leaf.id)

    def used(self) -> list[Part]:
        """The parts that something needs, arguments first."""
        return [part for part in self.parts if part.uses]

    def counted(self, objective: Any, constraints: Iterable[Any]) -> list[tuple[Any, int, int]]:
        """For each part that something needs, the objective and each constraint, in order, how many nodes and entries
        the language counts that nothing before has."""
        count = _Count()
        counted: list[tuple[Any, int, int]] = []
        for part in self.used():
            counted.append((part.source, *count.of_part(part)))
        least = self.part_of(objective.args[0])
        counted.append((objective, *count.of_sides([least], least.shape)))
        for constraint in constraints:
            counted.append((constraint, *count.of_sides(map(self.part_of, constraint.sides), constraint.shape)))
        return counted

    # -- how parts are made

    def _part(
        self, kind: str, args: tuple[Part, ...], options: tuple, shape: tuple[int, ...], source: Any, key: Any = None
    ) -> Part:
        """The part of this form: the one that is there already, or a new one."""
        key = (kind, tuple(map(id, args)), options, shape) if key is None else key
        part = self._known.get(key)
        if part is None:
            part = self._known[key] = Part(kind, args, options, shape, source)
            self.parts.append(part)
        return part

    def _constant(self, array: Union[Array, Sparse], source: Any) -> Part:
        array = array.dense() if array.size <= MOST else array
        return self._part("constant", (), (array,), array.shape, source, ("constant", array))

    def _number(self, value: Fraction, source: Any) -> Part:
        return self._constant(Array((), (value,)), source)

    def _made(self, expression: Any) -> Part:
        kind = expression.kind
        if kind == "constant":
            if id(expression) in self._sparse:
                return Part("rows", (), (), expression.shape, expression)  # in products alone, which don't look at it
            return self._constant(expression.array, expression)
        if kind in ("variable", "parameter"):
            return self._part(kind, (), (), expression.shape, expression, (kind, id(expression)))
        args = tuple(self._parts_of[id(arg)] for arg in expression.args)
        if kind == "T" and len(expression.shape) < 2:
            return args[0]
        if kind == "hstack" and len(expression.shape) == 1:
            args = tuple(self._unwrapped(arg) for arg in args)
        if kind == "@":
            left, right = expression.args
            if args[0].kind == "rows":
                return self._by_rows(self._sparse[id(left)], args[1], expression)
            if args[1].kind == "rows":
                return self._by_columns(self._sparse[id(right)], args[0], expression)
        return self._part(kind, args, tuple(expression.options), expression.shape, expression)

    def _unwrapped(self, part: Part) -> Part:
        """The number of which a vector of one entry is made, which may stand in a stack of vectors by itself."""
        if part.shape == (1,) and part.kind == "constant":
            return self._number(part.array.entries[0], part.source)
        if part.kind == "reshape" and part.shape == (1,) and part.args[0].shape == ():
            return part.args[0]
        return part

    # -- products with matrices in which most entries are 0

    def _by_rows(self, matrix: Sparse, other: Part, source: Any) -> Part:
        """A matrix times a vector or a matrix: a sum for each row, over what isn't 0 in it."""
        side = other.shape[1:]
        sums = tuple(self._sum(row, other, False, side, source) for row in matrix.rows)
        return self._part("vstack" if side else "hstack", sums, (), (len(sums), *side), source)

    def _by_columns(self, matrix: Sparse, other: Part, source: Any) -> Part:
        """A vector or a matrix times a matrix: a sum for each column, over what isn't 0 in it."""
        side = other.shape[:-1]
        sums = tuple(self._sum(column, other, True, side, source) for column in transposed(matrix).rows)
        stacked = self._part("vstack" if side else "hstack", sums, (), (len(sums), *side), source)
        return self._part("T", (stacked,), (), (*side, len(sums)), source) if side else stacked

    def _sum(self, row: list, other: Part, last: bool, side: tuple[int, ...], source: Any) -> Part:
        """The sum of numbers times entries, or rows, or (with `last`) columns of a part."""
        total: Optional[Part] = None
        for place, number in row:
            size = abs(number)
            term = self._entry(other, place, last, side, source)
            if size != 1:
                factor = self._number(number if total is None else size, source)
                term = self._part("*", (factor, term), (), side, source)
            elif total is None and number < 0:
                term = self._part("minus", (term,), (), side, source)
            if total is not None:
                term = self._part("+" if number > 0 else "-", (total, term), (), side, source)
            total = term
        return self._constant(Array(side, (ZERO,) * size_of(side)), source) if total is None else total

    def _entry(self, other: Part, place: int, last: bool, side: tuple[int, ...], source: Any) -> Part:
        """An entry of a vector, or a row or a column of a matrix; an entry of a slice is one of what is sliced."""
        if other.kind == "index" and len(other.options) == 1 and len(other.args[0].shape) == 1:
            _, start, _, step = other.options[0]
            return self._entry(other.args[0], start + place * step, last, side, source)
        index: tuple = (place,)
        if len(other.shape) == 2:
            every = ("slice", 0, other.shape[0 if last else 1], 1)
            index = (every, place) if last else (place, every)
        return self._part("index", (other,), index, side, source)


def _written_by_rows(order: list[Any], roots: list[Any]) -> dict[int, Sparse]:
    """The matrices, by the id of their constants, whose products have fewer entries when they are written out by
    rows. Equal matrices are one, whose own entries count once."""
    users: dict[int, list] = {}
    constants: dict[int, Any] = {}
    for expression in order:
        if expression.kind == "constant" and len(expression.shape) == 2:
            if isinstance(expression.array, Sparse) or expression.array.size >= _WIDE:
                constants[id(expression)] = expression
                users[id(expression)] = []
        for arg in expression.args:
            if id(arg) in users:
                users[id(arg)].append(expression)
    whole = {root.array for root in roots if id(root) in constants}  # those that stand as one anyway
    products: dict[Any, list] = {}
    for key, constant in constants.items():
        of_numbers = [all(arg.kind == "constant" for arg in user.args) for user in users[key]]
        if all(user.kind == "@" and not known for user, known in zip(users[key], of_numbers)):
            products.setdefault(constant.array, []).extend((constant, user) for user in users[key])
        elif not all(of_numbers):
            whole.add(constant.array)
    found = {}
    for array, pairs in products.items():
        matrix = _sparse(array)
        as_one = sum(product.size for _, product in pairs) + (0 if array in whole else array.size)
        if sum(_entries_by_rows(matrix, constant, product) for constant, product in pairs) < as_one:
            found.update((id(constant), matrix) for constant, _ in pairs)
    return found


def _sparse(array: Union[Array, Sparse]) -> Sparse:
    """A matrix by what isn't 0 in it."""
    if isinstance(array, Sparse):
        return array
    width = array.shape[1]
    rows = (array.entries[start : start + width] for start in range(0, array.size, width))
    return Sparse(array.shape, ([(column, number) for column, number in enumerate(row) if number] for row in rows))


def _entries_by_rows(matrix: Sparse, constant: Any, product: Any) -> int:
    """How many entries the parts have by which a product is written out by rows, or by columns where the matrix
    stands on the right."""
    left, right = product.args
    columns = right is constant
    rows = transposed(matrix).rows if columns else matrix.rows
    side = left.shape[:-1] if columns else right.shape[1:]
    terms = {(place, abs(number)) for row in rows for place, number in row}
    negative = {pair for row in rows for pair in row if pair[1] < 0}
    factors = {size for _, size in terms if size != 1}
    count = len({place for place, _ in terms}) + sum(size != 1 for _, size in terms) + len(negative)
    count += sum(max(0, len(row) - 1) for row in rows) + (len(factors) if side else 0)
    return count * size_of(side) + len(factors) + product.size * (2 if columns and side else 1)


class _Count:
    """What the language counts: beside the parts themselves what spreads an argument to a shape, the negation in a
    difference, and each difference of neighbours before the last one. What is counted has a number, once."""

    def __init__(self):
        self.numbers: dict[tuple, int] = {}
        self.of_parts: dict[int, int] = {}  # the numbers of parts, by their ids
        self.nodes = 0
        self.entries = 0

    def of_part(self, part: Part) -> tuple[int, int]:
        """The new nodes and entries of a part, whose arguments came before it."""
        self.nodes = self.entries = 0
        if not part.plain:
            self.of_parts[id(part)] = self.number(part)
        return self.nodes, self.entries

    def of_sides(self, sides: Iterable[Part], shape: tuple[int, ...]) -> tuple[int, int]:
        """The new nodes and entries of a constraint of this shape."""
        self.nodes = self.entries = 0
        for side in sides:
            self.spread(self.known(side), side.shape, shape)
        return self.nodes, self.entries

    def number(self, part: Part) -> int:
        """The number of a part, which is counted where it is new."""
        kind, args, shape, options = part.kind, part.args, part.shape, part.options
        known = [self.known(arg) for arg in args]
        if not args:
            return self.node((kind, id(part)), part.size)
        if kind == "-":
            kind, known[1] = "+", self.node(("minus", known[1]), args[1].size)
        if kind == "minus":
            return self.node(("minus", known[0]), part.size)
        if kind in ("diff", "tv"):
            number = known[0]
            for times in range(1, (options[0] if kind == "diff" else 1) + 1):
                number = self.node(("diff", number), args[0].size - times)
            return number if kind == "diff" else self.node(("norm1", (number,), (None,), ()), 1)
        if kind in ("+", "*", "/", "multiply", "maximum", "minimum"):
            known = [self.spread(number, arg.shape, shape) for number, arg in zip(known, args)]
        return self.node((kind, tuple(known), options, shape), part.size)

    def known(self, part: Part) -> int:
        """The number of an argument: numbers are counted where they stand beside what isn't plain."""
        number = self.of_parts.get(id(part))
        return self.node(("plain", id(part)), part.size) if number is None else number

    def spread(self, number: int, shape: tuple[int, ...], to: tuple[int, ...]) -> int:
        """The number of what is spread from one shape to another."""
        return number if shape == to else self.node(("spread", number, to), size_of(to))

    def node(self, key: tuple, size: int) -> int:
        """The number of what a key stands for, which is counted where it is new."""
        number = self.numbers.get(key)
        if number is None:
            number = self.numbers[key] = len(self.numbers)
            self.nodes += 1
            self.entries += size
        return number
