"""Variables whose entries are to be whole, by branch and bound: a point with the least objective among the whole ones,
or that there is none.
"""
from fractions import Fraction
from math import floor

from . import shapes
from .affine import Form
from .faults import STOPS, Stopped
from .reduce import Layout, Program, Row, TooLarge, Wide, stopped
from .verify import root_box, verify_whole

MOST_NODES = 10_000


def marked(problem):
    """The entries that are to be whole, each with the position of its variable."""
    variables = [(v, problem.nodes[n]) for v, (_, n) in enumerate(problem.variables)]
    return [(v, entry) for v, node in variables if node.call[3] for entry in range(shapes.size(node.shape))]


def below(box, entry, k):
    return {**box, entry: (box.get(entry, (None, None))[0], k)}


def above(box, entry, k):
    return {**box, entry: (k + 1, box.get(entry, (None, None))[1])}


def bounds(box):
    """Each bound of a box: variable, entry, whether it is an upper one, and its number."""
    for (v, entry), (lower, upper) in sorted(box.items()):
        if lower is not None:
            yield v, entry, False, lower
        if upper is not None:
            yield v, entry, True, upper


class Leaf:
    """A node that isn't split: `bound` with a value that nothing in its box is below, or `empty` with a gap.

    It has the multipliers of the constraints, those of the graphs' rows by node, and those of the bounds of its box, in
    order.
    """

    def __init__(self, kind, number, duals, weights, bounds):
        self.kind, self.number, self.duals, self.weights, self.bounds = kind, number, duals, weights, bounds


class Split:
    """A node of which one entry is at most k on one side and at least k + 1 on the other."""

    def __init__(self, entry, k):
        self.entry, self.k = entry, k


class WholeAnswer:
    """The value of what is minimized and a point that has it, both None where there is no whole point; and the nodes as
    they are taken.
    """

    def __init__(self):
        self.number = self.point = None
        self.nodes = []

    @property
    def kind(self):
        return "whole infeasible" if self.number is None else "whole optimal"


class Branching:
    """Nodes are numbered from 1 as they are taken, and the program of each is that of the setting with a row for each
    bound of its box.

    Of a node that is split the side below is taken first, with all that follows from it.
    """

    def __init__(self, session, setting, limit, most=MOST_NODES):
        self.session, self.problem, self.setting, self.limit, self.most = session, session.problem, setting, limit, most
        self.program = session.formed(setting)
        self.unknowns = [Layout(self.problem).entries[n] for _, n in self.problem.variables]
        self.marked = marked(self.problem)
        self.answer = WholeAnswer()

    def found(self):
        waiting = [root_box(self.problem)]
        while waiting:
            if len(self.answer.nodes) >= self.most:
                raise Stopped(32, f" {self.most}")
            box = waiting.pop()
            node = self.node(len(self.answer.nodes) + 1, box)
            self.answer.nodes.append(node)
            if isinstance(node, Split):
                waiting += [above(box, node.entry, node.k), below(box, node.entry, node.k)]
        verify_whole(self.problem, self.setting, self.answer)
        return self.answer

    def node(self, number, box):
        """What becomes of a node; where it has a better whole point, that is the best one."""
        try:
            reading = self.session.ended(self.tableau(box), self.limit)
            if reading.end.kind == "infeasible":
                return self.leaf("empty", reading, box)
            if reading.end.kind == "unbounded":
                assert number == 1
                raise Unbounded
            if self.answer.number is not None and reading.number >= self.answer.number:
                return self.leaf("bound", reading, box)
            point = self.session.arrays(reading.point())
            for v, entry in self.marked:
                if Fraction(point[v][entry]).denominator > 1:
                    return Split((v, entry), floor(point[v][entry]))
            leaf = self.leaf("bound", reading, box)
        except Unbounded:
            raise Stopped(30, "") from None
        except (TooLarge, Wide) as fault:
            raise self.stopped(number, stopped(self.problem, fault)) from None
        except Stopped as stop:
            raise self.stopped(number, stop) from None
        self.answer.number, self.answer.point = reading.number, point
        return leaf

    def stopped(self, number, stop):
        return Stopped(33, f" node {number} {stop.kind} {STOPS[stop.kind]}{stop.carried}")

    def tableau(self, box):
        rows = self.program.rows + [self.row(*bound) for bound in bounds(box)]
        program = Program(self.program.kinds, rows, self.program.objective)
        columns = sum(2 if kind == "free" else 1 for kind in program.kinds) + sum(not row.is_equal for row in rows)
        if not self.session.limits.hold(len(rows), columns):
            raise TooLarge(len(rows), columns)
        return self.session.tableau(program)

    def row(self, v, entry, is_upper, k):
        """An entry less its upper number, or its lower number less the entry, is at most 0."""
        sign = 1 if is_upper else -1
        return Row(
            False, Form(Fraction(-sign * k), {self.unknowns[v][entry]: Fraction(sign)}), ("bound", v, entry, is_upper)
        )

    def leaf(self, kind, reading, box):
        duals = self.session.duals(reading)
        first = len(self.program.rows)
        weights = [reading.multiplier(first + i) for i, _ in enumerate(bounds(box))]
        return Leaf(kind, reading.number, duals, self.session.weights(reading), weights)


class Unbounded(Exception):
    pass
