"""Carries a script out: the problem that it stands for, the settings of its solves and the one at its end."""
from fractions import Fraction

from . import shapes
from .faults import Refused
from .functions import Call
from .tree import Constraint, Problem, Tree
from .values import (
    MOST_ITEMS, Array, Expression, List, Module, Range, Result, Text, TheProblem, Tuple, array_of, at_most,
    gathered_items, is_flat, is_nested, is_number, is_plain, is_whole, plain_of, plain_operation,
)

MOST_STEPS = 100_000
MOST_EVENTS = 1000
READ_ONLY = ("value", "status", "dual_value")


class Script:
    """A script as far as it is carried out."""

    def __init__(self):
        self.tree = Tree()
        self.names = {}
        self.declared = []
        self.problem = None
        self.setting = {}
        self.events = []
        self.steps = 0

    # Lines

    def run(self, lines):
        for line in lines:
            self.step(line[1])
            getattr(self, "line_" + line[0])(*line[1:])

    def step(self, place):
        self.steps += 1
        at_most(self.steps, MOST_STEPS, "steps", place)

    def finish(self):
        if self.problem is None:
            raise Refused(16, (1, 1))
        if not self.events:
            self.events.append(self.reached_setting())
        return self.problem, self.events, self.reached_setting()

    def reached_setting(self):
        reached = {name for name, _ in self.problem.parameters}
        return {name: value for name, value in self.setting.items() if name in reached}

    def line_import(self, place, module, bound):
        self.names[bound] = Module(module)

    def line_print(self, place):
        pass

    def line_assign(self, place, name, sign, tree):
        if tree[0] == "name" and isinstance(self.names.get(tree[2]), List):
            raise Refused(12, tree[1])
        self.names[name] = self.value(tree, target=name)

    def line_join(self, place, name, sign, tree):
        if name not in self.names:
            raise Refused(9, place)
        left = self.names[name]
        self.names[name] = self.operation("+", left, self.value(tree), sign)

    def line_set(self, place, name, word, tree):
        if name not in self.names:
            raise Refused(9, place)
        bound = self.names[name]
        value = self.value(tree)
        node = self.tree.nodes[bound.node] if isinstance(bound, Expression) else None
        if node is None or node.call[0] != "parameter" or not (is_plain(value) or is_flat(value)):
            raise Refused(11, word)
        if isinstance(value, List) and not value.items:
            raise Refused(15, word)
        self.setting[node.call[1]] = self.array(value)

    def line_expr(self, place, tree):
        self.value(tree)

    def line_for(self, place, name, tree, lines):
        for item in self.turns(self.value(tree), place):
            self.names[name] = item
            self.run(lines)

    def turns(self, value, place):
        """What a `for` goes through."""
        if isinstance(value, (Range, List)):
            return value.items
        if isinstance(value, Array) and len(value.shape) == 1:
            return value.entries
        raise Refused(12, place)

    # Expressions

    def value(self, tree, target=None):
        """The value of an expression. The target is the name that the whole right side of a `=` is bound to."""
        if tree[0] == "call":
            return self.call(*tree[1:], target)
        return getattr(self, "value_" + tree[0])(*tree[1:])

    def value_number(self, place, value):
        return Fraction(value)

    def value_text(self, place, text):
        return Text(text)

    def value_word(self, place, value):
        return value

    def value_name(self, place, name):
        if name not in self.names:
            raise Refused(9, place)
        return self.names[name]

    def value_round(self, place, tree):
        return self.value(tree)

    def value_tuple(self, place, trees):
        return gathered_items(Tuple, (self.value(tree) for tree in trees), place)

    def value_list(self, place, trees):
        return gathered_items(List, (self.value(tree) for tree in trees), place)

    def value_turns(self, place, element, element_place, word, name, tree):
        items = self.turns(self.value(tree), word)
        is_bound, before = name in self.names, self.names.get(name)
        result = gathered_items(List, (self.turn(name, item, element, element_place) for item in items), place)
        self.names.pop(name, None)
        if is_bound:
            self.names[name] = before
        return result

    def turn(self, name, item, element, place):
        self.step(place)
        self.names[name] = item
        return self.value(element)

    def value_signed(self, place, signs, tree):
        value = self.value(tree)
        return self.with_signs(signs, value)

    def with_signs(self, signs, value):
        for sign, place in reversed(signs):
            if not (is_plain(value) or isinstance(value, Expression)):
                raise Refused(11, place)
            if sign == "-":
                value = self.negative(value, place)
        return value

    def negative(self, value, place):
        if is_number(value):
            return -value
        if isinstance(value, Array):
            return Array(value.shape, [-n for n in value.entries])
        return Expression(self.push(("minus",), [value.node], place))

    def value_power(self, place, base, rest):
        self.value(base)
        sign, signs, tree = rest[0]
        self.with_signs(signs, self.value(tree))
        raise Refused(12, sign)

    def value_binary(self, place, first, rest):
        value = self.value(first)
        for sign, at, tree in rest:
            value = self.operation(sign, value, self.value(tree), at)
        return value

    def value_compare(self, place, first, rest):
        left = self.value(first)
        result = None
        for i, (sign, at, tree) in enumerate(rest):
            right = self.value(tree)
            if i or sign in ("<", ">", "!="):
                raise Refused(12, at)
            result = self.comparison(sign, left, right, at)
        return result

    def value_attribute(self, place, tree, name, name_place):
        value = self.value(tree)
        if name == "T" and isinstance(value, Array):
            return transposed(value)
        if name == "T" and isinstance(value, Expression):
            if len(self.tree.nodes[value.node].shape) < 2:
                return value
            return Expression(self.push(("transpose",), [value.node], name_place))
        raise Refused(12, name_place)

    # Operators

    def push(self, call, args, place):
        shape = self.tree.result_shape(call, args)
        if shape is None:
            raise Refused(13, place)
        return self.tree.push(call, args, shape, place)

    def constant(self, value, place):
        """The node of a plain value, a flat list or an expression."""
        if isinstance(value, Expression):
            return value.node
        array = self.array(value)
        return self.tree.push(("constant", array.shape, tuple(array.entries)), [], array.shape, place)

    def array(self, value):
        if isinstance(value, List):
            return Array((len(value.items),), list(value.items))
        return array_of(value)

    def shape(self, value):
        return self.tree.nodes[value.node].shape if isinstance(value, Expression) else self.array(value).shape

    def promote(self, node, shape, place):
        """The node, spread to a shape."""
        return node if self.tree.nodes[node].shape == shape else self.push(("promote", shape), [node], place)

    def test_operands(self, values, place):
        """Refuses operands that stand for no expression."""
        if any(is_nested(v) for v in values):
            raise Refused(12, place)
        if any(isinstance(v, List) and not v.items for v in values):
            raise Refused(15, place)
        if not all(isinstance(v, Expression) or is_plain(v) or is_flat(v) for v in values):
            raise Refused(11, place)

    def operation(self, sign, a, b, place):
        if is_plain(a) and is_plain(b):
            return plain_operation(sign, a, b, place)
        if sign == "+" and isinstance(a, List) and isinstance(b, List):
            at_most(a.count + b.count, MOST_ITEMS, "items", place)
            return List(a.items + b.items, a.count + b.count, max(a.depth, b.depth))
        if not (isinstance(a, Expression) or isinstance(b, Expression)):
            raise Refused(11, place)
        self.test_operands((a, b), place)
        if sign == "@":
            return self.product(a, b, place)
        return self.entrywise(sign, a, b, place)

    def product(self, a, b, place):
        shape = shapes.matmul(self.shape(a), self.shape(b))
        self.test_shape(shape, place)
        return Expression(self.push(("matmul",), [self.constant(a, place), self.constant(b, place)], place))

    def test_shape(self, shape, place):
        if shape is None or shapes.size(shape) > shapes.MOST_ENTRIES:
            raise Refused(13, place)

    def entrywise(self, sign, a, b, place):
        if sign == "*" and 1 not in (shapes.size(self.shape(a)), shapes.size(self.shape(b))):
            raise Refused(12, place)
        call = {"+": "plus", "-": "plus", "*": "times", "/": "over"}[sign]
        shape = shapes.broadcast(self.shape(a), self.shape(b))
        self.test_shape(shape, place)
        left, right = self.constant(a, place), self.constant(b, place)
        if sign == "-":
            right = self.push(("minus",), [right], place)
        return Expression(self.spread((call,), [left, right], shape, place))

    def spread(self, call, nodes, shape, place):
        """The node of a call on nodes that are spread to a shape."""
        return self.push(call, [self.promote(node, shape, place) for node in nodes], place)

    def comparison(self, sign, a, b, place):
        if is_plain(a) and is_plain(b):
            raise Refused(12, place)
        if not (isinstance(a, Expression) or isinstance(b, Expression)):
            raise Refused(11, place)
        self.test_operands((a, b), place)
        shape = shapes.broadcast(self.shape(a), self.shape(b))
        self.test_shape(shape, place)
        sides = (b, a) if sign == ">=" else (a, b)
        left, right = (self.constant(side, place) for side in sides)
        left, right = (self.promote(node, shape, place) for node in (left, right))
        return Constraint("equal" if sign == "==" else "at_most", left, right, shape, place)

    # Indices

    def value_index(self, place, tree, bracket, picks):
        value = self.value(tree)
        picks = [
            (pick[0], [None if part is None else self.value(part) for part in pick[1:]], pick[1:]) for pick in picks
        ]
        if isinstance(value, List):
            return self.item(value, picks, bracket)
        if not isinstance(value, (Array, Expression)):
            raise Refused(11, bracket)
        shape = self.shape(value)
        result, places = places_of(shape, picks, bracket)
        if isinstance(value, Array):
            return plain_of(result, [value.entries[place] for place in places])
        return Expression(self.push(("index", result, tuple(places)), [value.node], bracket))

    def item(self, value, picks, bracket):
        """An item of a list."""
        for pick in picks:
            test_pick(pick, bracket)
        if len(picks) > 1:
            raise Refused(11, bracket)
        kind, parts, _ = picks[0]
        if kind == "slice":
            raise Refused(12, bracket)
        return value.items[place_in(len(value.items), parts[0], bracket)]

    # Calls

    def call(self, place, callee, args, target=None):
        base = None
        if callee[0] == "name":
            if callee[2] not in self.names and callee[2] != "range":
                raise Refused(9, callee[1])
        elif callee[0] == "attribute":
            base = self.value(callee[2])
        else:
            self.value(callee)
        name = callee[3] if callee[0] == "attribute" else None
        if isinstance(base, TheProblem) and name == "solve":
            return self.solve(place, args)
        given = [(word, at, self.value(tree)) for word, at, tree in args]
        if callee[0] == "name" and callee[2] == "range" and "range" not in self.names:
            return Call(self, place, "range", given).result()
        if isinstance(base, Module):
            return Call(self, place, f"{base.name}.{name}", given, target).result()
        if base is not None and name in READ_ONLY:
            raise Refused(12, callee[4])
        raise Refused(10, place)

    def solve(self, place, args):
        fault = None
        for word, at, tree in args:
            if word in ("solver", "verbose"):
                continue
            self.value(tree)
            fault = fault or at
        if fault:
            raise Refused(11, fault)
        at_most(len(self.events) + 1, MOST_EVENTS, "events", place)
        self.events.append(self.reached_setting())
        return Result()

    def declare(self, name, call, shape, place):
        """The node of a variable or a parameter."""
        node = self.tree.push(call, [], shape, place)
        self.declared.append((name, node))
        return Expression(node)

    def state(self, objective, constraints):
        """The problem of an objective and its constraints."""
        self.problem = Problem(self.tree, objective.sense, objective.node, objective.place, constraints, self.declared)
        return TheProblem()


def transposed(array):
    if len(array.shape) < 2:
        return array
    rows, columns = array.shape
    return Array((columns, rows), [array.entries[i * columns + j] for j in range(columns) for i in range(rows)])


def test_pick(pick, bracket):
    """Refuses what is no whole number, and a step of 0."""
    kind, values, trees = pick
    for value, tree in zip(values, trees):
        if tree is not None and not is_whole(value):
            raise Refused(11, bracket)
    if kind == "slice" and values[2] == 0 and trees[2] is not None:
        raise Refused(11, bracket)


def place_in(length, index, bracket):
    if not -length <= index < length:
        raise Refused(14, bracket)
    return int(index) % length


def places_of(shape, picks, bracket):
    """The shape and the places that picks take."""
    for pick in picks:
        test_pick(pick, bracket)
    if len(picks) > len(shape):
        raise Refused(13, bracket)
    taken = []
    for side, (kind, values, _) in zip(shape, picks):
        if kind == "at":
            taken.append(place_in(side, values[0], bracket))
            continue
        places = shapes.slice_places(side, *(None if v is None else int(v) for v in values))
        if not places:
            raise Refused(15, bracket)
        taken.append(places)
    return shapes.index_places(shape, taken)


def elaborate(lines):
    script = Script()
    script.run(lines)
    return script.finish()
