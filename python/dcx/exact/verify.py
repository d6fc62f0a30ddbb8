"""Shows that an answer is right, from the problem's own points and multipliers: neither the reduced rows nor the run
are looked at.

A point is put into the constraints and the objective. Of multipliers it is shown that the Lagrangian is bounded by what
is printed: each coefficient is handed from a node to its arguments, with slopes of the atoms for which the multipliers
of their graphs vouch. Along a ray each expression rises by its recession value at most. Nothing here is limited to 128
bits.
"""
from fractions import Fraction

from . import calls, shapes


class Wrong(Exception):
    pass


def demand(holds, text):
    if not holds:
        raise Wrong(text)


class Values:
    """The values of all nodes at a point and a setting."""

    def __init__(self, problem, point, setting):
        self.problem, self.setting = problem, setting
        self.point = {n: entries for (_, n), entries in zip(problem.variables, point or [])}
        self.found = []
        for number, node in enumerate(problem.nodes):
            known = point is not None or not problem.has_variable[number]
            self.found.append(self.node(number, node) if known else None)

    def node(self, number, node):
        word = node.call[0]
        if word == "constant":
            return list(node.call[2])
        if word == "parameter":
            return self.setting[node.call[1]].entries
        if word == "variable":
            return self.point[number]
        args = [self.found[a] for a in node.args]
        if word in calls.PAIRING:
            return [
                sum((self.pair(word, args, *pair) for pair in pairs), Fraction(0))
                for pairs in listed(self.problem, node)
            ]
        if word in calls.LINEAR:
            return [sum((k * args[a][e] for a, e, k in terms), Fraction(0)) for terms in listed(self.problem, node)]
        shape = self.problem.nodes[node.args[0]].shape
        return [calls.atom_entry(node.call, args, shape, e, total=sum) for e in range(shapes.size(node.shape))]

    def pair(self, word, args, left, right):
        a, b = args[0][left], args[1][right]
        return a / b if word == "over" else a * b


class Recession(Values):
    """How fast each node rises along a ray, at most, far out."""

    def __init__(self, problem, ray, values):
        self.values = values
        super().__init__(problem, ray, values.setting)

    def node(self, number, node):
        if not self.problem.has_variable[number]:
            return [Fraction(0)] * shapes.size(node.shape)
        if node.call[0] not in calls.PAIRING:
            return super().node(number, node)
        args = [self.found[a] if self.problem.has_variable[a] else self.values.found[a] for a in node.args]
        return [
            sum((self.pair(node.call[0], args, *pair) for pair in pairs), Fraction(0))
            for pairs in listed(self.problem, node)
        ]


def listed(problem, node):
    return (calls.pairs if node.call[0] in calls.PAIRING else calls.terms)(node.call, problem.arg_shapes(node))


def in_domain(problem, point):
    """Shows that a point or a ray keeps the attributes of its variables."""
    for (name, number), entries in zip(problem.variables, point):
        node = problem.nodes[number]
        attribute, n = node.call[2], node.shape[0] if node.shape else 1
        for k, value in enumerate(entries):
            i, j = divmod(k, n)
            fits = {
                "nonneg": value >= 0,
                "nonpos": value <= 0,
                "symmetric": value == entries[j * n + i] if attribute == "symmetric" else True,
                "diag": value == 0 or i == j,
                "free": True,
            }[attribute]
            demand(fits, f"entry {k} of {name} is out of its domain")


def feasible(problem, values, what, kept=None):
    """Shows that each constraint holds, or each of those that are kept."""
    for c, constraint in enumerate(problem.constraints):
        if kept is not None and c not in kept:
            continue
        for left, right in zip(values.found[constraint.left], values.found[constraint.right]):
            demand(left == right if constraint.kind == "equal" else left <= right, f"constraint {c} breaks at {what}")


def minimized(problem, values):
    value = values.found[problem.objective][0]
    return -value if problem.sense == "maximize" else value


def handed_on(call, coefficients, weights, args):
    """What an atom hands on to its arguments' entries, with the weights of its graph's rows, which must vouch for it.
    """
    word = call[0]
    result = [[Fraction(0)] * shapes.size(s) for s in args]
    weights = iter(weights)

    def take(count):
        taken = [next(weights) for _ in range(count)]
        demand(all(w >= 0 for w in taken), f"a weight of {word} is below 0")
        return taken

    if word == "cummax":
        return running(coefficients, take, result)
    for r, c in enumerate(coefficients):
        entries = [(0, r)] if word in ("abs", "pos", "neg") else [(a, r) for a in range(len(args))]
        if word not in ("abs", "pos", "neg", "maximum", "minimum"):
            axis = call[1] if word in ("max", "min", "norm1", "norm_inf") else None
            entries = [(0, e) for e in shapes.groups(args[0], axis)[1][r]]
        slopes, sums = atom_slopes(word, c, take, len(entries), call)
        demand(sums, f"the weights of {word} don't vouch for {c}")
        for (a, e), slope in zip(entries, slopes):
            result[a][e] += slope
    return result


def atom_slopes(word, c, take, count, call):
    """The slopes of one result entry, and whether the weights vouch for them."""
    if word in ("abs", "norm1", "norm_inf"):
        pairs = [take(2) for _ in range(count)]
        slopes = [up - down for up, down in pairs]
        if word == "norm_inf":
            return slopes, sum(map(sum, pairs)) <= c
        return slopes, all(sum(pair) <= c for pair in pairs)
    side = -1 if word in ("minimum", "min", "sum_smallest") else 1
    taken = take(count)
    if word in ("pos", "neg"):
        return [taken[0] if word == "pos" else -taken[0]], taken[0] <= c
    slopes = [side * w for w in taken]
    if word in ("sum_largest", "sum_smallest"):
        return slopes, all(w <= side * c for w in taken) and sum(taken) == side * call[1] * c
    return slopes, sum(taken) == side * c


def running(coefficients, take, result):
    """Of cummax: weights w of the entries and v of the steps from the one before."""
    n = len(coefficients)
    w, v = [], [Fraction(0)] * (n + 1)
    for i in range(n):
        w += take(1)
        if i:
            v[i] = take(1)[0]
    for i, c in enumerate(coefficients):
        demand(w[i] + v[i] == c + v[i + 1], "the weights of cummax don't vouch")
    result[0] = w
    return result


def bounded(problem, setting, duals, weights, with_objective, bounds=()):
    """What the Lagrangian is at least, at every point of the domain. A bound of an entry adds its multiplier times what
    the entry is beyond it.
    """
    values = Values(problem, None, setting)
    reach = [[Fraction(0)] * shapes.size(node.shape) for node in problem.nodes]
    total = Fraction(0)
    for (v, entry, is_upper, k), m in bounds:
        demand(m >= 0, "a multiplier of a bound is below 0")
        sign = 1 if is_upper else -1
        reach[problem.variables[v][1]][entry] += sign * m
        total -= sign * m * k
    if with_objective:
        reach[problem.objective][0] += -1 if problem.sense == "maximize" else 1
    for constraint, multipliers in zip(problem.constraints, duals):
        for e, m in enumerate(multipliers):
            demand(constraint.kind == "equal" or m >= 0, "a multiplier is below 0")
            reach[constraint.left][e] += m
            reach[constraint.right][e] -= m
    for number in reversed(range(len(problem.nodes))):
        node = problem.nodes[number]
        if not problem.has_variable[number]:
            total += sum((c * v for c, v in zip(reach[number], values.found[number])), Fraction(0))
        elif node.call[0] == "variable":
            test_variable(node, reach[number])
        elif number in weights:
            for arg, slopes in zip(
                node.args, handed_on(node.call, reach[number], weights[number], problem.arg_shapes(node))
            ):
                reach[arg] = [a + b for a, b in zip(reach[arg], slopes)]
        else:
            hand_on_terms(problem, number, node, reach, values)
    return total


def hand_on_terms(problem, number, node, reach, values):
    is_pairing = node.call[0] in calls.PAIRING
    for c, parts in zip(reach[number], listed(problem, node)):
        for part in parts:
            if not is_pairing:
                a, e, k = part
                reach[node.args[a]][e] += c * k
                continue
            (left, right), (a, b) = part, node.args
            if node.call[0] == "over":
                reach[a][left] += c / values.found[b][right]
            elif problem.has_variable[a]:
                reach[a][left] += c * values.found[b][right]
            else:
                reach[b][right] += c * values.found[a][left]


def test_variable(node, reach):
    attribute, n = node.call[2], node.shape[0] if node.shape else 1
    for k, c in enumerate(reach):
        i, j = divmod(k, n)
        if attribute == "symmetric":
            fits = (c if i == j else c + reach[j * n + i]) == 0
        elif attribute == "diag":
            fits = c == 0 or i != j
        else:
            fits = {"free": c == 0, "nonneg": c >= 0, "nonpos": c <= 0}[attribute]
        demand(fits, f"the Lagrangian isn't bounded in {node.call[1]}")


def verify_point(problem, setting, point):
    """Shows that a point is feasible, and gives the values at it."""
    return verify_others(problem, setting, None, point)


def verify_others(problem, setting, kept, point):
    """Shows that a point of the domain keeps these constraints."""
    values = Values(problem, point, setting)
    in_domain(problem, point)
    feasible(problem, values, "the point", kept)
    return values


def verify_set(problem, setting, duals, weights, gap):
    """Shows that no point keeps the constraints whose multipliers aren't 0."""
    demand(gap > 0, "the gap isn't above 0")
    demand(bounded(problem, setting, duals, weights, False) >= gap, "the multipliers don't show the gap")


def verify(problem, setting, answer):
    """Raises Wrong where an answer isn't shown to be right."""
    if answer.kind == "infeasible":
        verify_set(problem, setting, answer.duals, answer.weights, answer.number)
        return
    values = verify_point(problem, setting, answer.point)
    if answer.kind == "optimal":
        demand(minimized(problem, values) == answer.number, "the value isn't that of the point")
        demand(
            bounded(problem, setting, answer.duals, answer.weights, True) >= answer.number,
            "the multipliers don't bound the value",
        )
        return
    rising = Recession(problem, answer.ray, values)
    demand(minimized(problem, values) <= answer.number and answer.slope > 0, "the bound or the slope is wrong")
    in_domain(problem, answer.ray)
    feasible(problem, rising, "the ray")
    demand(minimized(problem, rising) <= -answer.slope, "the objective doesn't fall along the ray")


def verify_whole(problem, setting, answer):
    """Shows that a point is whole and has the value, and that the nodes leave no whole point with a smaller one; or
    that they leave none.
    """
    if answer.number is not None:
        values = verify_point(problem, setting, answer.point)
        demand(minimized(problem, values) == answer.number, "the value isn't that of the point")
        for (name, n), entries in zip(problem.variables, answer.point):
            mark = problem.nodes[n].call[3]
            for value in entries:
                demand(not mark or value == int(value), f"an entry of {name} isn't whole")
                demand(mark != "boolean" or value in (0, 1), f"an entry of {name} is neither 0 nor 1")
    waiting = [root_box(problem)]
    for node in answer.nodes:
        box = waiting.pop()
        if hasattr(node, "k"):
            v, entry = node.entry
            demand(problem.nodes[problem.variables[v][1]].call[3], "an entry is split that need not be whole")
            lower, upper = box.get(node.entry, (None, None))
            waiting += [{**box, node.entry: (node.k + 1, upper)}, {**box, node.entry: (lower, node.k)}]
        else:
            verify_leaf(problem, setting, box, node, answer.number)
    demand(not waiting, "a side of a node is forgotten")


def root_box(problem):
    """For the entries of variables that have one or both, a lower and an upper whole number."""
    boolean = [(v, n) for v, (_, n) in enumerate(problem.variables) if problem.nodes[n].call[3] == "boolean"]
    return {(v, e): (None, 1) for v, n in boolean for e in range(shapes.size(problem.nodes[n].shape))}


def verify_leaf(problem, setting, box, leaf, value):
    """Shows that no point of the box is below the value, or that there is no point in it."""
    sides = [
        (v, e, is_upper, k) for (v, e), ends in sorted(box.items()) for is_upper, k in enumerate(ends) if k is not None
    ]
    demand(len(sides) == len(leaf.bounds), "the bounds of a leaf aren't those of its box")
    least = bounded(problem, setting, leaf.duals, leaf.weights, leaf.kind == "bound", zip(sides, leaf.bounds))
    demand(least >= leaf.number, "the multipliers of a leaf don't show its number")
    demand(
        leaf.number > 0 if leaf.kind == "empty" else value is not None and leaf.number >= value,
        "the number of a leaf shows nothing",
    )
