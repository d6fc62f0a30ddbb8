"""Signs, curvatures and the verdict of the rules, for parameters as numbers and for parameters as affine."""
from . import calls
from .faults import Refused


class Judgement:
    """What the rules say of a node: its sign, whether it is constant, convex, concave."""

    __slots__ = ("sign", "constant", "convex", "concave")

    def __init__(self, sign, constant, convex, concave):
        self.sign, self.constant, self.convex, self.concave = sign, constant, convex, concave

    @property
    def affine(self):
        return self.convex and self.concave

    def curvature(self):
        if self.constant:
            return "constant"
        if self.affine:
            return "affine"
        return "convex" if self.convex else "concave"


def leaf_sign(call):
    if call[0] == "constant":
        return (all(n >= 0 for n in call[2]), all(n <= 0 for n in call[2]))
    return {"nonneg": (True, False), "nonpos": (False, True)}.get(call[2], calls.UNKNOWN)


def composed(call, args, side):
    """Whether a call that is convex (`side` 0) or concave (`side` 1) in itself is so on these arguments."""
    signs = [a.sign for a in args]
    for i, arg in enumerate(args):
        curved = (arg.convex, arg.concave)
        rises, falls = calls.trend(call, signs, i)
        if not (arg.affine or (curved[side] and rises) or (curved[1 - side] and falls)):
            return False
    return True


class Rules:
    """The judgement of each node, with parameters as numbers or, if so told, as affine."""

    def __init__(self, problem, parameters_are_affine):
        self.problem = problem
        self.is_affine = parameters_are_affine
        self.judged = []
        for number, node in enumerate(problem.nodes):
            self.judged.append(self.judge(number, node))

    def is_constant(self, number):
        problem = self.problem
        return not problem.has_variable[number] and not (self.is_affine and problem.has_parameter[number])

    def has_product_curvature(self, node):
        left, right = node.args
        if node.call[0] == "over":
            return self.judged[right].constant
        if self.judged[left].constant or self.judged[right].constant:
            return True
        return self.is_affine and (self.is_scaling(left, right) or self.is_scaling(right, left))

    def is_scaling(self, number, other):
        """Whether this node is an affine function of parameters, and the other has none."""
        problem = self.problem
        return not problem.has_variable[number] and self.judged[number].affine and not problem.has_parameter[other]

    def judge(self, number, node):
        word = node.call[0]
        if word in ("variable", "parameter", "constant"):
            return Judgement(leaf_sign(node.call), self.is_constant(number), True, True)
        args = [self.judged[a] for a in node.args]
        sign = calls.result_sign(node.call, [a.sign for a in args])
        if self.is_constant(number):
            return Judgement(sign, True, True, True)
        is_linear = word in calls.LINEAR or (word in calls.PAIRING and self.has_product_curvature(node))
        convex = (is_linear or word in calls.CONVEX) and composed(node.call, args, 0)
        concave = (is_linear or word in calls.CONCAVE) and composed(node.call, args, 1)
        return Judgement(sign, False, convex, concave)

    def breach(self):
        """The rule that is broken first and its place, or None."""
        problem = self.problem
        for number, node in enumerate(problem.nodes):
            judged = self.judged[number]
            if not (judged.convex or judged.concave):
                return ("composition", node.place)
        objective = self.judged[problem.objective]
        if problem.sense == "minimize" and not objective.convex:
            return ("minimize", problem.objective_place)
        if problem.sense == "maximize" and not objective.concave:
            return ("maximize", problem.objective_place)
        for constraint in problem.constraints:
            left, right = self.judged[constraint.left], self.judged[constraint.right]
            if constraint.kind == "equal" and not (left.affine and right.affine):
                return ("equal", constraint.place)
            if constraint.kind == "at_most" and not (left.convex and right.concave):
                return ("at_most", constraint.place)
        return None


class Verdict:
    def __init__(self, problem):
        self.rules = Rules(problem, parameters_are_affine=False)
        breach = self.rules.breach()
        if breach:
            raise Refused(19, breach[1], f" rule {breach[0]}")
        self.dpp = Rules(problem, parameters_are_affine=True).breach() is None
        self.objective = self.rules.judged[problem.objective]
