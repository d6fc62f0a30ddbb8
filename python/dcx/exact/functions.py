"""The calls by name: their arguments, with the first that is wrong, and what they give."""
from fractions import Fraction

from . import shapes
from .calls import result_shape
from .faults import Refused
from .values import (
    MOST_ITEMS, Array, Expression, List, Objective, Range, Text, Tuple, at_most, gathered_items, is_flat, is_nested,
    is_number, is_plain, is_whole, plain_of,
)
from .tree import Constraint

REQUIRED, OPTIONAL, BY_NAME = "required", "optional", "by name"


def table():
    """For each call its arguments: name, kind, and whether it must be given, may be, or may be by name alone."""
    x, axis = ("x", "operand", REQUIRED), ("axis", "axis", OPTIONAL)
    k = ("k", "count", REQUIRED)
    both = [("a", "operand", REQUIRED), ("b", "operand", REQUIRED)]
    flags = [(name, "truth", BY_NAME) for name in ("nonneg", "nonpos")]
    more = [(name, "truth", BY_NAME) for name in ("symmetric", "diag", "boolean", "integer")]
    shaped = [("shape", "sides", OPTIONAL), ("name", "text", BY_NAME)]
    parts = [("list", "operands", REQUIRED)]
    calls = {
        "cvxpy.Variable": shaped + flags + more,
        "cvxpy.Parameter": shaped + flags + [("value", "plain", BY_NAME)],
        "cvxpy.Constant": [("v", "plain", REQUIRED)],
        "cvxpy.Minimize": [("e", "operand", REQUIRED)],
        "cvxpy.Maximize": [("e", "operand", REQUIRED)],
        "cvxpy.Problem": [("objective", "objective", REQUIRED), ("constraints", "constraints", OPTIONAL)],
        "numpy.array": [("v", "rows", REQUIRED)],
        "numpy.ones": [("shape", "sides or none", REQUIRED)],
        "numpy.zeros": [("shape", "sides or none", REQUIRED)],
        "numpy.eye": [("n", "length", REQUIRED)],
        "cvxpy.multiply": both,
        "cvxpy.reshape": [x, ("shape", "sides", REQUIRED), ("order", "order", OPTIONAL)],
        "cvxpy.diff": [x, ("k", "times", OPTIONAL)],
        "cvxpy.trace": [("X", "operand", REQUIRED)],
        "cvxpy.hstack": parts,
        "cvxpy.vstack": parts,
        "cvxpy.norm": [x, ("", "norm", REQUIRED)],
        "cvxpy.sum_largest": [x, k],
        "cvxpy.sum_smallest": [x, k],
    }
    for name in ("sum", "mean", "cumsum", "max", "min", "norm1", "norm_inf"):
        calls["cvxpy." + name] = [x, axis]
    for name in ("vec", "diag", "abs", "pos", "neg", "tv", "cummax"):
        calls["cvxpy." + name] = [x]
    return calls


TABLE = table()
DECLARING = ("cvxpy.Variable", "cvxpy.Parameter", "cvxpy.Problem")
ATTRIBUTES = ("nonneg", "nonpos", "symmetric", "diag", "boolean", "integer")


def is_operand(value):
    return isinstance(value, Expression) or is_plain(value) or is_flat(value) or is_nested(value)


def is_sides(value, least):
    if is_whole(value):
        return value >= least
    return isinstance(value, Tuple) and len(value.items) <= 2 and all(is_whole(v) and v >= least for v in value.items)


def is_rows(value):
    """Whether this is a flat list of numbers, or a list of equally long ones."""
    if not isinstance(value, List):
        return False
    return is_flat(value) or (all(is_flat(v) for v in value.items) and len({len(v.items) for v in value.items}) == 1)


KINDS = {
    "operand": is_operand,
    "operands": lambda v: isinstance(v, List) and all(is_operand(item) for item in v.items),
    "plain": lambda v: is_plain(v) or is_flat(v),
    "sides": lambda v: is_sides(v, 1),
    "sides or none": lambda v: is_sides(v, 0),
    "length": lambda v: is_whole(v) and v >= 0,
    "text": lambda v: isinstance(v, Text),
    "truth": lambda v: isinstance(v, bool),
    "axis": lambda v: v is None or (is_number(v) and v in (0, 1)),
    "count": lambda v: is_whole(v) and v >= 1,
    "times": lambda v: is_whole(v) and v >= 0,
    "order": lambda v: isinstance(v, Text) and v.text in ("F", "C"),
    "norm": lambda v: is_number(v) or isinstance(v, Text),
    "rows": is_rows,
    "objective": lambda v: isinstance(v, Objective),
    "constraints": lambda v: isinstance(v, List) and all(isinstance(item, Constraint) for item in v.items),
}


class Call:
    """A call that is carried out. Of an argument the name, the place and the value are given."""

    def __init__(self, script, place, name, given, target=None):
        self.script, self.place, self.name, self.given, self.target = script, place, name, given, target
        self.args, self.places = {}, {}
        self.is_not_offered = False

    def refuse(self, kind, carried=""):
        raise Refused(kind, self.place, carried)

    def result(self):
        if self.name == "range":
            return self.range()
        if self.name in ("cvxpy.maximum", "cvxpy.minimum"):
            return self.extreme(self.name[6:])
        if self.name not in TABLE:
            self.refuse(10)
        if self.name in DECLARING and self.target is None:
            self.refuse(12)
        self.bind(TABLE[self.name])
        return getattr(self, "give_" + self.name.partition(".")[2], self.give_call)()

    # Arguments

    def bind(self, params):
        """Takes the arguments as written, and refuses the first that is wrong, or what is missing."""
        by_position = [p for p in params if p[2] != BY_NAME]
        is_named = False
        for i, (word, place, value) in enumerate(self.given):
            if word is None:
                if is_named or i >= len(by_position):
                    raise Refused(11, place)
                param = by_position[i]
            else:
                is_named = True
                param = next((p for p in params if p[0] == word), None)
                if self.name == "cvxpy.Parameter" and word in ATTRIBUTES[2:]:
                    self.is_not_offered = True
                    continue
            if param is None or param[0] in self.args or not KINDS[param[1]](value):
                raise Refused(11, place)
            self.args[param[0]] = value
            self.places[param[0]] = place
        self.test_fit()
        if any(p[2] == REQUIRED and p[0] not in self.args for p in params):
            self.refuse(11)

    def test_fit(self):
        """Refuses an axis that the operand hasn't, and a count above its size."""
        x = self.args.get("x")
        if x is None or is_nested(x) or (isinstance(x, List) and not x.items):
            return
        shape = self.script.shape(x)
        if self.args.get("axis") is not None and self.args["axis"] >= len(shape):
            raise Refused(11, self.places["axis"])
        if self.name in ("cvxpy.sum_largest", "cvxpy.sum_smallest") and self.args.get("k", 0) > shapes.size(shape):
            raise Refused(11, self.places["k"])

    def test_operands(self, *values):
        self.script.test_operands(values, self.place)

    def operand(self, name):
        """The node of an operand."""
        return self.script.constant(self.args[name], self.place)

    def push(self, call, *nodes):
        return Expression(self.script.push(call, nodes, self.place))

    def axis(self):
        axis = self.args.get("axis")
        return None if axis is None else int(axis)

    # Plain values

    def range(self):
        for i, (word, place, value) in enumerate(self.given):
            if word is not None or i > 2 or not is_whole(value) or (i == 2 and value == 0):
                raise Refused(11, place)
        if not self.given:
            self.refuse(11)
        items = range(*(int(value) for _, _, value in self.given))
        try:
            count = len(items)
        except OverflowError:
            count = 2**32
        at_most(count, MOST_ITEMS, "items", self.place)
        return Range([Fraction(i) for i in items])

    def give_array(self):
        value = self.args["v"]
        if not value.items or (isinstance(value.items[0], List) and not value.items[0].items):
            self.refuse(15)
        if is_flat(value):
            return Array((len(value.items),), list(value.items))
        entries = [n for row in value.items for n in row.items]
        return Array((len(value.items), len(value.items[0].items)), entries)

    def filled(self, entry_of):
        """An array of the argument's shape."""
        shape = shape_of(self.args["shape"])
        if 0 in shape:
            self.refuse(15)
        at_most(shapes.size(shape), MOST_ITEMS, "items", self.place)
        return plain_of(shape, [Fraction(entry_of(i)) for i in range(shapes.size(shape))])

    def give_ones(self):
        return self.filled(lambda i: 1)

    def give_zeros(self):
        return self.filled(lambda i: 0)

    def give_eye(self):
        n = int(self.args["n"])
        self.args["shape"] = gathered_items(Tuple, [Fraction(n)] * 2, self.place)
        return self.filled(lambda i: i % (n + 1) == 0)

    # Declarations, objectives, the problem

    def declared(self, word):
        """The node of a variable or a parameter under the target's name."""
        if self.target in (name for name, _ in self.script.declared):
            self.refuse(11)
        flags = [name for name in ATTRIBUTES if self.args.get(name)]
        if len(flags) > 1 and not (flags[-1] == "integer" and flags[:-1] in (["nonneg"], ["nonpos"])):
            self.refuse(11)
        if self.is_not_offered:
            self.refuse(12)
        shape = shape_of(self.args.get("shape", gathered_items(Tuple, [], self.place)))
        if ("symmetric" in flags or "diag" in flags) and (len(shape) != 2 or shape[0] != shape[1]):
            self.refuse(13)
        value = self.args.get("value")
        if isinstance(value, List) and not value.items:
            self.refuse(15)
        whole = next((f for f in flags if f in ("boolean", "integer")), "")
        attribute = "nonneg" if whole == "boolean" else next((f for f in flags if f != "integer"), "free")
        call = (word, self.target, attribute, whole) if word == "variable" else (word, self.target, attribute)
        return self.script.declare(self.target, call, shape, self.place)

    def give_Variable(self):
        return self.declared("variable")

    def give_Parameter(self):
        result = self.declared("parameter")
        if "value" in self.args:
            self.script.setting[self.target] = self.script.array(self.args["value"])
        return result

    def give_Constant(self):
        self.test_operands(self.args["v"])
        return Expression(self.operand("v"))

    def objective(self, sense):
        self.test_operands(self.args["e"])
        if shapes.size(self.script.shape(self.args["e"])) != 1:
            self.refuse(13)
        return Objective(sense, self.operand("e"), self.place)

    def give_Minimize(self):
        return self.objective("minimize")

    def give_Maximize(self):
        return self.objective("maximize")

    def give_Problem(self):
        if self.script.problem is not None:
            self.refuse(17)
        constraints = self.args["constraints"].items if "constraints" in self.args else []
        return self.script.state(self.args["objective"], constraints)

    # Expressions

    def give_call(self):
        """A call of one operand, and perhaps of an axis."""
        self.test_operands(self.args["x"])
        word = self.name.partition(".")[2]
        shape = self.script.shape(self.args["x"])
        if word in ("abs", "pos", "neg", "diag", "cummax"):
            call = (word,)
        else:
            if word == "cumsum" and len(shape) == 2 and self.axis() is None:
                self.refuse(11)
            call = (word, self.axis())
        self.test_shape(call, shape)
        return self.push(call, self.operand("x"))

    def test_shape(self, call, *arg_shapes):
        """Refuses a call that has no shape before anything of it is pushed."""
        if result_shape(call, arg_shapes) is None:
            self.refuse(13)

    def give_multiply(self):
        a, b = self.args["a"], self.args["b"]
        self.test_operands(a, b)
        shape = shapes.broadcast(self.script.shape(a), self.script.shape(b))
        self.script.test_shape(shape, self.place)
        return Expression(self.script.spread(("times",), [self.operand("a"), self.operand("b")], shape, self.place))

    def extreme(self, word):
        for name, place, value in self.given:
            if name is not None or not is_operand(value):
                raise Refused(11, place)
        values = [value for _, _, value in self.given]
        if len(values) < 2:
            self.refuse(11)
        self.test_operands(*values)
        shape = ()
        for value in values:
            shape = None if shape is None else shapes.broadcast(shape, self.script.shape(value))
        self.script.test_shape(shape, self.place)
        nodes = [self.script.constant(value, self.place) for value in values]
        return Expression(self.script.spread((word,), nodes, shape, self.place))

    def reshaped(self, shape, columns_first):
        call = ("reshape", shape, columns_first)
        self.test_shape(call, self.script.shape(self.args["x"]))
        return self.push(call, self.operand("x"))

    def give_vec(self):
        self.test_operands(self.args["x"])
        return self.reshaped((shapes.size(self.script.shape(self.args["x"])),), True)

    def give_reshape(self):
        self.test_operands(self.args["x"])
        order = self.args["order"].text if "order" in self.args else "F"
        return self.reshaped(shape_of(self.args["shape"]), order == "F")

    def give_diff(self):
        self.test_operands(self.args["x"])
        shape = self.script.shape(self.args["x"])
        times = int(self.args.get("k", 1))
        if len(shape) != 1:
            self.refuse(13)
        if times >= shape[0]:
            self.refuse(15)
        node = self.operand("x")
        for _ in range(times):
            node = self.script.push(("diff",), [node], self.place)
        return Expression(node)

    def give_tv(self):
        self.args["k"] = 1
        return self.push(("norm1", None), self.give_diff().node)

    def give_trace(self):
        self.test_operands(self.args["X"])
        self.test_shape(("trace",), self.script.shape(self.args["X"]))
        return self.push(("trace",), self.operand("X"))

    def stacked(self, word):
        values = self.args["list"].items
        if any(is_nested(v) for v in values):
            self.refuse(12)
        if not values:
            self.refuse(15)
        self.test_operands(*values)
        self.test_shape((word,), *(self.script.shape(v) for v in values))
        return self.push((word,), *[self.script.constant(v, self.place) for v in values])

    def give_hstack(self):
        return self.stacked("hstack")

    def give_vstack(self):
        return self.stacked("vstack")

    def give_norm(self):
        order = self.args[""]
        is_one = order == 1 if is_number(order) else False
        is_greatest = isinstance(order, Text) and order.text == "inf"
        if not (is_one or is_greatest):
            self.refuse(12)
        self.test_operands(self.args["x"])
        if len(self.script.shape(self.args["x"])) == 2:
            self.refuse(12)
        return self.push(("norm1" if is_one else "norm_inf", None), self.operand("x"))

    def ordered(self, word):
        self.test_operands(self.args["x"])
        return self.push((word, int(self.args["k"])), self.operand("x"))

    def give_sum_largest(self):
        return self.ordered("sum_largest")

    def give_sum_smallest(self):
        return self.ordered("sum_smallest")


def shape_of(value):
    return (int(value),) if is_number(value) else tuple(int(v) for v in value.items)
