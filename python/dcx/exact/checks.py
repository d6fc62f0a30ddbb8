"""The checks of a section of a certificate at its setting, in their order."""
from fractions import Fraction

from . import calls, shapes
from .numbers import OF_LANGUAGE, Passes, number
from .slopes import Broken, slopes

ZERO = Fraction(0)
STOPS = {21: "UnknownParam", 22: "MissingParam", 23: "ParamShape", 24: "ParamSign", 25: "ZeroDivisor"}


class Fault(Exception):
    """Why a section is refused: the check, and what it carries."""

    def __init__(self, name, *carried):
        super().__init__(name, *carried)
        self.name, self.carried = name, carried

    def text(self):
        return " ".join([self.name, *(c if isinstance(c, str) else number(c) for c in self.carried)])


def test(holds, *fault):
    if not holds:
        raise Fault(*fault)


def misfit(kind):
    return Fault("Fit", kind, STOPS[kind])


def parts(problem, node):
    """The terms or the pairs of each entry."""
    return (calls.pairs if node.call[0] in calls.PAIRING else calls.terms)(node.call, problem.arg_shapes(node))


def formed(problem, node, args, numbers):
    """The entries of a node that is no leaf, one after the other, from those of its arguments."""
    word = node.call[0]
    if word in calls.PAIRING:
        for pairs in parts(problem, node):
            result = ZERO
            for left, right in pairs:
                if word == "over" and args[1][right] == 0:
                    raise misfit(25)
                result = numbers.add(
                    result, (numbers.div if word == "over" else numbers.mul)(args[0][left], args[1][right])
                )
            yield result
    elif word in calls.LINEAR:
        for terms in parts(problem, node):
            yield numbers.total(numbers.mul(coefficient, args[arg][entry]) for arg, entry, coefficient in terms)
    else:
        shape = problem.nodes[node.args[0]].shape
        for entry in range(shapes.size(node.shape)):
            yield calls.atom_entry(node.call, args, shape, entry, numbers.total)


class Table:
    """The numbers of nodes, formed as they are asked for: values at a point and a setting."""

    def __init__(self, problem, setting, point, numbers):
        self.problem, self.setting, self.numbers = problem, setting, numbers
        self.point = {n: entries for (_, n), entries in zip(problem.variables, point or [])}
        self.found = {}

    def form(self, *roots):
        """Forms what the roots reach and isn't formed, nodes rising."""
        reached, waiting = set(), list(roots)
        while waiting:
            n = waiting.pop()
            if n not in reached and n not in self.found:
                reached.add(n)
                waiting.extend(self.problem.nodes[n].args)
        for n in sorted(reached):
            self.found[n] = list(self.node(n, self.problem.nodes[n]))

    def node(self, n, node):
        word = node.call[0]
        if word == "constant":
            return node.call[2]
        if word == "parameter":
            return self.setting[node.call[1]].entries
        if word == "variable":
            return self.point[n]
        return formed(self.problem, node, [self.found[a] for a in node.args], self.numbers)


class Steepness(Table):
    """How fast nodes rise along a ray, at most, from a point whose values are formed."""

    def __init__(self, problem, ray, values):
        super().__init__(problem, values.setting, ray, values.numbers)
        self.values = values

    def node(self, n, node):
        has_variable = self.problem.has_variable
        if not has_variable[n]:
            return [ZERO] * shapes.size(node.shape)
        if node.call[0] not in calls.PAIRING:
            return super().node(n, node)
        args = [self.found[a] if has_variable[a] else self.values.found[a] for a in node.args]
        return formed(self.problem, node, args, self.numbers)


class Checker:
    def __init__(self, problem, setting, section, numbers):
        self.problem, self.setting, self.section, self.numbers = problem, setting, section, numbers
        self.values = Table(problem, setting, section.point, numbers)
        self.sense = Fraction(-1 if problem.sense == "maximize" else 1)

    def check(self):
        self.fit()
        self.divisors()
        self.told_setting()
        {"optimal": self.optimal, "infeasible": self.infeasible, "unbounded": self.unbounded}[self.section.kind]()

    def optimal(self):
        self.domain("Domain", self.section.point)
        self.constraints("Constraint", self.values)
        value = self.objective(self.values)
        test(value == self.section.number, "Value", self.section.number, value)
        self.dual_signs()
        self.bound()

    def infeasible(self):
        self.dual_signs()
        test(self.section.number > 0, "Gap", self.section.number)
        self.bound()

    def unbounded(self):
        section = self.section
        self.domain("Domain", section.point)
        self.constraints("Constraint", self.values)
        value = self.objective(self.values)
        test(value <= section.number, "Bound", section.number, value)
        test(section.slope > 0, "Descent", section.slope)
        self.domain("RayDomain", section.ray)
        steepness = Steepness(self.problem, section.ray, self.values)
        self.constraints("RayConstraint", steepness)
        fall = self.objective(steepness)
        test(fall <= -section.slope, "RayValue", -section.slope, fall)

    # The setting

    def fit(self):
        declared = {name: self.problem.nodes[n] for name, n in self.problem.parameters}
        for name in self.setting:
            if name not in declared:
                raise misfit(21)
        for name, node in declared.items():
            if name not in self.setting:
                raise misfit(22)
            array = self.setting[name]
            if array.shape != node.shape:
                raise misfit(23)
            if any(breaks_sign(node.call[2], value) for value in array.entries):
                raise misfit(24)

    def divisors(self):
        """Forms divisors and what stands below them, and tests those of the other quotients in their turn."""
        nodes = self.problem.nodes
        below = {node.args[1] for node in nodes if node.call[0] == "over"}
        for n in reversed(range(len(nodes))):
            if n in below:
                below.update(nodes[n].args)
        for n, node in enumerate(nodes):
            if n in below:
                self.values.form(n)
            elif node.call[0] == "over" and 0 in self.values.found[node.args[1]]:
                raise misfit(25)

    def told_setting(self):
        if self.section.params is None:
            return
        for p, ((name, _), entries) in enumerate(zip(self.problem.parameters, self.section.params)):
            for entry, (stated, found) in enumerate(zip(entries, self.setting[name].entries)):
                test(stated == found, "Setting", p, entry, stated, found)

    # Points and rays

    def domain(self, fault, point):
        for v, ((_, n), entries) in enumerate(zip(self.problem.variables, point)):
            node = self.problem.nodes[n]
            for entry, value in enumerate(entries):
                test(is_in_domain(node, entries, entry), fault, v, entry, value)

    def constraints(self, fault, table):
        for c, constraint in enumerate(self.problem.constraints):
            table.form(constraint.left, constraint.right)
            for entry, (left, right) in enumerate(zip(table.found[constraint.left], table.found[constraint.right])):
                test(left == right if constraint.kind == "equal" else left <= right, fault, c, entry, left, right)

    def objective(self, table):
        table.form(self.problem.objective)
        return self.sense * table.found[self.problem.objective][0]

    # Multipliers

    def dual_signs(self):
        for c, (constraint, entries) in enumerate(zip(self.problem.constraints, self.section.duals)):
            for entry, value in enumerate(entries):
                test(constraint.kind == "equal" or value >= 0, "DualSign", c, entry, value)

    def walk(self):
        """Hands the multipliers on from the objective and the constraints down to the variables."""
        problem = self.problem
        self.values.form(*(n for n in range(len(problem.nodes)) if not problem.has_variable[n]))
        self.reach = [[ZERO] * shapes.size(node.shape) for node in problem.nodes]
        self.collect()
        self.total = ZERO
        for n in reversed(range(len(problem.nodes))):
            self.hand_on(n, problem.nodes[n])

    def bound(self):
        problem, section = self.problem, self.section
        self.walk()
        for v, (_, n) in enumerate(problem.variables):
            test_variable(v, problem.nodes[n], self.reach[n], self.numbers)
        test(self.total >= section.number, "Bound", section.number, self.total)

    def put(self, n, entry, value):
        self.reach[n][entry] = self.numbers.add(self.reach[n][entry], value)

    def collect(self):
        if self.section.kind == "optimal":
            self.put(self.problem.objective, 0, self.sense)
        for constraint, entries in zip(self.problem.constraints, self.section.duals):
            for entry, value in enumerate(entries):
                self.put(constraint.left, entry, value)
            for entry, value in enumerate(entries):
                self.put(constraint.right, entry, -value)

    def hand_on(self, n, node):
        word = node.call[0]
        if not self.problem.has_variable[n]:
            for coefficient, value in zip(self.reach[n], self.values.found[n]):
                self.total = self.numbers.add(self.total, self.numbers.mul(coefficient, value))
        elif word in calls.PAIRING:
            for coefficient, pairs in zip(self.reach[n], parts(self.problem, node)):
                for left, right in pairs:
                    self.hand_on_pair(node, coefficient, left, right)
        elif word in calls.LINEAR:
            for coefficient, terms in zip(self.reach[n], parts(self.problem, node)):
                for arg, entry, by in terms:
                    self.put(node.args[arg], entry, self.numbers.mul(coefficient, by))
        elif word != "variable":
            self.hand_on_slopes(n, node)

    def hand_on_pair(self, node, coefficient, left, right):
        a, b = node.args
        if node.call[0] == "over":
            self.put(a, left, self.numbers.div(coefficient, self.values.found[b][right]))
        elif self.problem.has_variable[a]:
            self.put(a, left, self.numbers.mul(coefficient, self.values.found[b][right]))
        else:
            self.put(b, right, self.numbers.mul(coefficient, self.values.found[a][left]))

    def hand_on_slopes(self, n, node):
        try:
            found = slopes(
                node.call, self.problem.arg_shapes(node), self.reach[n], self.section.weights[n], self.numbers
            )
        except Broken as broken:
            raise Fault("Slope", n, broken.entry, broken.stated, broken.found) from None
        for arg, entries in zip(node.args, found):
            for entry, value in enumerate(entries):
                self.put(arg, entry, value)


def breaks_sign(attribute, value):
    return (attribute == "nonneg" and value < 0) or (attribute == "nonpos" and value > 0)


def is_in_domain(node, entries, entry):
    attribute, value = node.call[2], entries[entry]
    if attribute in ("symmetric", "diag"):
        n = node.shape[0]
        i, j = divmod(entry, n)
        return i == j or value == 0 if attribute == "diag" else i <= j or value == entries[j * n + i]
    return not breaks_sign(attribute, value)


def test_variable(v, node, reach, numbers):
    attribute = node.call[2]
    for entry, value in enumerate(reach):
        if attribute in ("symmetric", "diag"):
            n = node.shape[0]
            i, j = divmod(entry, n)
            if i > j or (attribute == "diag" and i != j):
                continue
            if i < j:
                value = numbers.add(value, reach[j * n + i])
        fits = {"nonneg": value >= 0, "nonpos": value <= 0}.get(attribute, value == 0)
        test(fits, "Variable", v, entry, value)


def check(problem, setting, section, numbers=OF_LANGUAGE):
    """Raises the first fault of a section at its setting, where numbers are formed by these operations."""
    if section.kind == "none":
        return
    try:
        Checker(problem, setting, section, numbers).check()
    except Passes as passes:
        raise Fault("Wide", passes.op, passes.left, passes.right) from None
