"""Nodes, of which equal ones are one, and the problem that a script stands for."""
from . import calls, shapes
from .faults import Refused

MOST_NODES = 20_000


class Node:
    __slots__ = ("call", "args", "shape", "place")

    def __init__(self, call, args, shape, place):
        self.call, self.args, self.shape, self.place = call, args, shape, place


class Tree:
    def __init__(self):
        self.nodes = []
        self.entries = 0
        self.known = {}

    def push(self, call, args, shape, place):
        """The number of the node of this call on these arguments, which is a new one where there is none."""
        key = (call, tuple(args))
        if key in self.known:
            return self.known[key]
        if len(self.nodes) >= MOST_NODES:
            raise Refused(18, place, f" nodes {len(self.nodes) + 1}")
        entries = self.entries + shapes.size(shape)
        if entries > shapes.MOST_ENTRIES:
            raise Refused(18, place, f" entries {min(entries, 2**32 - 1)}")
        self.entries = entries
        self.nodes.append(Node(call, tuple(args), shape, place))
        self.known[key] = len(self.nodes) - 1
        return len(self.nodes) - 1

    def result_shape(self, call, args):
        return calls.result_shape(call, [self.nodes[a].shape for a in args])


class Constraint:
    """`left <= right`, of kind `at_most`, or `left == right`, of kind `equal`."""

    def __init__(self, kind, left, right, shape, place):
        self.kind, self.left, self.right, self.shape, self.place = kind, left, right, shape, place


class Problem:
    """Nodes numbered as they are first finished, with what is to be small or large and the constraints."""

    def __init__(self, tree, sense, objective, objective_place, constraints, declared):
        self.nodes = []
        self.numbers = {}
        self.sense = sense
        self.objective = self.reach(tree, objective)
        self.objective_place = objective_place
        self.constraints = [
            Constraint(
                c.kind, self.reach(tree, c.left), self.reach(tree, c.right), c.shape, c.place
            ) for c in constraints
        ]
        self.variables = [
            (name, self.numbers[n]) for name, n in declared if n in self.numbers and tree.nodes[n].call[0] == "variable"
        ]
        self.parameters = [
            (name, self.numbers[n])
            for name, n in declared
            if n in self.numbers and tree.nodes[n].call[0] == "parameter"
        ]
        self.has_variable, self.has_parameter = (reaches(self.nodes, word) for word in ("variable", "parameter"))

    def reach(self, tree, root):
        """The number of a node of the tree, those that it stands on first."""
        waiting = [(root, False)]
        while waiting:
            at, are_args_done = waiting.pop()
            if at in self.numbers:
                continue
            node = tree.nodes[at]
            if are_args_done:
                self.numbers[at] = len(self.nodes)
                self.nodes.append(Node(node.call, tuple(self.numbers[a] for a in node.args), node.shape, node.place))
            else:
                waiting.append((at, True))
                waiting.extend((a, False) for a in reversed(node.args))
        return self.numbers[root]

    def arg_shapes(self, node):
        return [self.nodes[a].shape for a in node.args]


def reaches(nodes, word):
    """For each of the nodes, which stand behind their arguments, whether it reaches a leaf of this word."""
    found = []
    for node in nodes:
        found.append(node.call[0] == word or any(found[a] for a in node.args))
    return found
