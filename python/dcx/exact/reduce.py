"""The reduced program of a problem: with numbers at a setting, or with coefficients affine in the parameters."""
from fractions import Fraction

from . import calls, shapes
from .affine import Affine, Affines, Form, Forms, Numbers
from .faults import Stopped
from .numbers import Passes


class Wide(Exception):
    """An operation that passes, with its site as it is told: `node N entry E`, `row R`, `map R`, `answer R`."""

    def __init__(self, site, passes):
        super().__init__(site, passes)
        self.site, self.passes = site, passes


class ZeroDivisor(Exception):
    def __init__(self, node, entry):
        super().__init__(node, entry)
        self.node, self.entry = node, entry


class TooLarge(Exception):
    def __init__(self, rows, columns):
        super().__init__(rows, columns)
        self.rows, self.columns = rows, columns


class Row:
    """A form that is 0, or at most 0, and where it comes from."""

    def __init__(self, is_equal, form, origin):
        self.is_equal, self.form, self.origin = is_equal, form, origin


class Program:
    def __init__(self, kinds, rows, objective):
        self.kinds, self.rows, self.objective = kinds, rows, objective


class Layout:
    """The unknowns of a problem: those of variables, and then those of graphs."""

    def __init__(self, problem):
        self.kinds = []
        self.entries = {}
        for _, number in problem.variables:
            self.entries[number] = self.variable(problem.nodes[number])

    def unknown(self, kind):
        self.kinds.append(kind)
        return len(self.kinds) - 1

    def variable(self, node):
        """For each entry of a variable its unknown, None where it is 0."""
        attribute = node.call[2]
        if attribute == "symmetric":
            return self.symmetric(node.shape[0])
        if attribute == "diag":
            n = node.shape[0]
            return [self.unknown("free") if k % (n + 1) == 0 else None for k in range(n * n)]
        return [self.unknown(attribute) for _ in range(shapes.size(node.shape))]

    def symmetric(self, n):
        entries = [None] * (n * n)
        for i in range(n):
            for j in range(i, n):
                entries[i * n + j] = entries[j * n + i] = self.unknown("free")
        return entries


class Reduction:
    """Forms of the nodes that are reduced, values of the others, and the rows. The setting is None where parameters are
    affine.
    """

    def __init__(self, problem, setting, limits):
        self.problem, self.setting, self.limits, self.numbers = problem, setting, limits, limits.numbers
        self.is_affine = setting is None
        self.kind = (Affines if self.is_affine else Numbers)(limits.numbers)
        self.forms = Forms(self.kind)
        self.layout = Layout(problem)
        self.reached = [self.is_reduced(i) for i in range(len(problem.nodes))]
        self.graphs = {i: self.graph(i) for i, node in enumerate(problem.nodes) if self.reached[i] and is_atom(node)}
        self.bases = {}
        for i, graph in self.graphs.items():
            self.bases[i] = len(self.layout.kinds)
            for kind in graph.aux:
                self.layout.unknown(kind)
        self.test_size()
        self.terms, self.terms_of = None, None
        self.found = []
        for i in range(len(problem.nodes)):
            self.found.append(self.node(i))

    def is_reduced(self, number):
        problem = self.problem
        return problem.has_variable[number] or (self.is_affine and problem.has_parameter[number])

    def graph(self, number):
        node = self.problem.nodes[number]
        return calls.graph_of(node.call, self.problem.arg_shapes(node))

    def test_size(self):
        constraints = self.problem.constraints
        graph_rows = sum(len(graph.rows) for graph in self.graphs.values())
        rows = sum(shapes.size(c.shape) for c in constraints) + graph_rows
        slacks = sum(shapes.size(c.shape) for c in constraints if c.kind == "at_most") + graph_rows
        columns = sum(2 if kind == "free" else 1 for kind in self.layout.kinds) + slacks
        if not self.limits.hold(rows, columns):
            raise TooLarge(rows, columns)

    # Nodes. What is found of a node is the list of its entries: forms where it is reduced, and else numbers.

    def node(self, number):
        node = self.problem.nodes[number]
        entries = []
        for entry in range(shapes.size(node.shape)):
            try:
                entries.append(self.entry(number, node, entry))
            except Passes as passes:
                raise Wide(("node", number, entry), passes) from None
        return entries

    def entry(self, number, node, entry):
        word = node.call[0]
        if word == "constant":
            return node.call[2][entry]
        if word == "variable":
            u = self.layout.entries[number][entry]
            return self.forms.zero if u is None else self.forms.unknown(u)
        if word == "parameter":
            return self.parameter(number, node, entry)
        if word in calls.PAIRING:
            return self.pairing(number, node, entry)
        if word in calls.LINEAR:
            return self.linear(number, node, entry)
        return self.atom(number, node, entry)

    def parameter(self, number, node, entry):
        if not self.is_affine:
            return self.setting[node.call[1]].entries[entry]
        position = [n for _, n in self.problem.parameters].index(number)
        return Form(Affine(Fraction(0), {(position, entry): Fraction(1)}), {})

    def form(self, number, entry):
        """The form of an entry of a node, that of a number where it isn't reduced."""
        found = self.found[number][entry]
        return found if self.reached[number] else self.forms.number(found)

    def terms_of_node(self, number, node):
        """For each entry of a linear call or a product what is added up, listed once for each node."""
        if self.terms_of != number:
            shapes_of_args = self.problem.arg_shapes(node)
            listed = calls.pairs if node.call[0] in calls.PAIRING else calls.terms
            self.terms, self.terms_of = listed(node.call, shapes_of_args), number
        return self.terms

    def linear(self, number, node, entry):
        terms = self.terms_of_node(number, node)[entry]
        if not self.reached[number]:
            return self.numbers.total(
                self.numbers.mul(coefficient, self.found[node.args[arg]][at]) for arg, at, coefficient in terms
            )
        return self.forms.total(
            self.forms.scaled(coefficient, self.form(node.args[arg], at)) for arg, at, coefficient in terms
        )

    def pairing(self, number, node, entry):
        pairs = self.terms_of_node(number, node)[entry]
        if not self.reached[number]:
            return self.numbers.total(self.number_pair(number, node, entry, left, right) for left, right in pairs)
        return self.forms.total(self.form_pair(number, node, entry, left, right) for left, right in pairs)

    def number_pair(self, number, node, entry, left, right):
        a, b = self.found[node.args[0]][left], self.found[node.args[1]][right]
        if node.call[0] != "over":
            return self.numbers.mul(a, b)
        if b == 0:
            raise ZeroDivisor(number, entry)
        return self.numbers.div(a, b)

    def form_pair(self, number, node, entry, left, right):
        a, b = node.args
        if node.call[0] == "over":
            divisor = self.found[b][right]
            if divisor == 0:
                raise ZeroDivisor(number, entry)
            return self.forms.divided(self.form(a, left), divisor)
        if not self.reached[a]:
            return self.forms.scaled(self.found[a][left], self.form(b, right))
        if not self.reached[b]:
            return self.forms.scaled(self.found[b][right], self.form(a, left))
        if not self.problem.has_variable[a] and not self.problem.has_parameter[b]:
            return self.forms.times(self.form(a, left).constant, self.form(b, right))
        return self.forms.times(self.form(b, right).constant, self.form(a, left))

    def atom(self, number, node, entry):
        if not self.reached[number]:
            args = [self.found[a] for a in node.args]
            return calls.atom_entry(node.call, args, self.problem.nodes[node.args[0]].shape, entry, self.numbers.total)
        result = self.graphs[number].results[entry]
        base = self.bases[number]
        terms = {base + aux[1]: self.kind.number(Fraction(coefficient)) for aux, coefficient in result}
        return Form(self.kind.zero, dict(sorted(terms.items())))

    # Rows

    def program(self):
        rows = []
        for c, constraint in enumerate(self.problem.constraints):
            for entry in range(shapes.size(constraint.shape)):
                rows.append(
                    Row(
                        constraint.kind == "equal",
                        self.difference(constraint, entry, len(rows)),
                        ("constraint", c, entry),
                    )
                )
        for number, graph in self.graphs.items():
            rows.extend(self.graph_rows(number, graph))
        objective = self.form(self.problem.objective, 0)
        if self.problem.sense == "maximize":
            objective = self.forms.scaled(Fraction(-1), objective)
        return Program(self.layout.kinds, rows, objective)

    def difference(self, constraint, entry, row):
        try:
            right = self.forms.scaled(Fraction(-1), self.form(constraint.right, entry))
            return self.forms.sum(self.form(constraint.left, entry), right)
        except Passes as passes:
            raise Wide(("row", row), passes) from None

    def graph_rows(self, number, graph):
        args = self.problem.nodes[number].args
        rows, place = [], {}
        for entry, parts in graph.rows:
            listed = (
                (self.forms.unknown(self.bases[number] + at) if kind == "aux" else self.form(args[kind], at), by)
                for (kind, at), by in parts
            )
            form = self.forms.total(self.forms.scaled(Fraction(by), part) for part, by in listed)
            place[entry] = place.get(entry, -1) + 1
            rows.append(Row(False, form, ("node", number, entry, place[entry])))
        return rows


def is_atom(node):
    return node.call[0] in calls.CONVEX or node.call[0] in calls.CONCAVE


def reduced(problem, setting, limits):
    """The program at a setting, with numbers."""
    return Reduction(problem, setting, limits).program()


def affine_map(problem, limits):
    """The program with coefficients affine in the parameters."""
    return Reduction(problem, None, limits).program()


def fixed(problem, program, setting, numbers):
    """An affine program with the numbers of a setting put in."""
    names = [name for name, _ in problem.parameters]

    def at(value):
        total = value.constant
        for (position, entry), coefficient in sorted(value.terms.items()):
            total = numbers.add(total, numbers.mul(coefficient, setting[names[position]].entries[entry]))
        return total

    def form(form, row):
        try:
            result = Form(at(form.constant), {})
            for u in sorted(form.terms):
                value = at(form.terms[u])
                if value != 0:
                    result.terms[u] = value
            return result
        except Passes as passes:
            raise Wide(("map", row), passes) from None

    rows = [Row(row.is_equal, form(row.form, r), row.origin) for r, row in enumerate(program.rows)]
    return Program(program.kinds, rows, form(program.objective, len(rows)))


def stopped(problem, fault):
    """The stop of a fault of a reduction."""
    if isinstance(fault, TooLarge):
        rows, columns = (min(n, 2**32 - 1) for n in (fault.rows, fault.columns))
        return Stopped(28, f" rows {rows} columns {columns}")
    if isinstance(fault, ZeroDivisor):
        line, column = problem.nodes[fault.node].place
        return Stopped(25, f" at {line}:{column} entry {fault.entry}")
    kind, *numbers = fault.site
    if kind == "node":
        line, column = problem.nodes[numbers[0]].place
        return Stopped(26, f" at {line}:{column} entry {numbers[1]} {fault.passes.text()}")
    return Stopped(26, f" {kind} {numbers[0]} {fault.passes.text()}")
