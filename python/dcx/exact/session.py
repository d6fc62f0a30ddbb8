"""A problem at one setting after the other: an answer each, or what stops it."""
from . import shapes
from .faults import Stopped
from .limits import OF_PROGRAM
from .numbers import number
from .reduce import Layout, TooLarge, Wide, ZeroDivisor, affine_map, fixed, reduced, stopped
from .simplex import Reading, Run, Tableau, WarmRun
from .verify import verify

FAULTS = (TooLarge, ZeroDivisor, Wide)


class Answer:
    """A kind, the number (value, gap or bound) of what is minimized, the slope, points by variable, multipliers by
    constraint.

    The weights are the multipliers of the graphs' rows, by node with a variable below it.
    """

    def __init__(self, kind, value):
        self.kind, self.number = kind, value
        self.slope = self.point = self.ray = self.duals = None
        self.weights = {}


class Session:
    """A problem with the verdict of the rules. Without a verdict it is reduced anew at each setting."""

    def __init__(self, problem, verdict=None, limits=OF_PROGRAM):
        self.problem, self.limits = problem, limits
        self.map = self.columns = None
        if verdict is not None and verdict.dpp:
            try:
                self.map = affine_map(problem, limits)
            except FAULTS:
                self.map = None

    def fit(self, setting):
        """Stops a setting that names an unknown parameter, or lacks one, or gives it a wrong value."""
        declared = {name: self.problem.nodes[n] for name, n in self.problem.parameters}
        for name in setting:
            if name not in declared:
                raise Stopped(21, f" {name}")
        for name, node in declared.items():
            if name not in setting:
                raise Stopped(22, f" {name}")
            array = setting[name]
            if array.shape != node.shape:
                raise Stopped(23, f" {name} {shapes.text(node.shape)} {shapes.text(array.shape)}")
            for entry, value in enumerate(array.entries):
                if (node.call[2] == "nonneg" and value < 0) or (node.call[2] == "nonpos" and value > 0):
                    raise Stopped(24, f" {name} entry {entry} value {number(value)}")

    def program(self, setting):
        """The program at a setting that fits."""
        if self.map is not None:
            return fixed(self.problem, self.map, setting, self.limits.numbers)
        return reduced(self.problem, setting, self.limits)

    def formed(self, setting):
        """The program at a setting, or what stops it."""
        self.fit(setting)
        try:
            return self.program(setting)
        except FAULTS as fault:
            raise stopped(self.problem, fault) from None

    def tableau(self, program):
        """The first tableau of a program."""
        return Tableau(program, self.limits.numbers)

    def ended(self, tableau, limit):
        """The numbers at the last basis of a run that comes to an end."""
        end = Run(tableau, limit).end
        if end.kind == "limit":
            raise Stopped(27, f" {limit}")
        if end.kind == "wide":
            raise Stopped(26, f" pivot {end.pivots} row {end.row} column {end.column}")
        return Reading(tableau, end)

    def answer(self, tableau, limit):
        reading = self.ended(tableau, limit)
        return self.read(reading, reading.end)

    def read(self, reading, end):
        answer = Answer(end.kind, reading.number)
        if end.kind != "infeasible":
            answer.point = self.arrays(reading.point())
        if end.kind == "unbounded":
            answer.ray, answer.slope = self.arrays(reading.ray()), reading.slope
        else:
            answer.duals = self.duals(reading)
        return answer, reading

    def solve(self, setting, limit):
        return self.solve_from(setting, limit, lambda program: self.answer(self.tableau(program), limit))

    def solve_from(self, setting, limit, found):
        """The answer that is found to the program at the setting; the basic columns of an optimal one are kept."""
        self.fit(setting)
        try:
            answer, reading = found(self.program(setting))
        except FAULTS as fault:
            raise stopped(self.problem, fault) from None
        if answer.kind != "unbounded":
            answer.weights = self.weights(reading)
        if answer.kind == "optimal":
            self.columns = list(reading.tableau.basis)
        verify(self.problem, setting, answer)
        return answer

    def solve_warm(self, setting, limit):
        """The answer from the columns that are kept, where there is one, else that of `solve`; and whether it is from
        them.
        """
        warm = False

        def found(program):
            nonlocal warm
            answer = self.warmed(program, limit)
            warm = answer is not None
            return answer or self.answer(self.tableau(program), limit)

        return self.solve_from(setting, limit, found), warm

    def warmed(self, program, limit):
        """The answer from the columns that are kept, or None."""
        if self.map is None or self.columns is None:
            return None
        try:
            tableau = self.tableau(program)
            if max(self.columns, default=0) >= tableau.plain:
                return None
            end = WarmRun(tableau, self.columns, limit).end
            return None if end is None else self.read(Reading(tableau, end), end)
        except FAULTS:
            return None

    def weights(self, reading):
        """The exact multipliers of the graphs' rows."""
        result = {}
        for r, row in enumerate(reading.tableau.program.rows):
            if row.origin[0] == "node" and self.problem.has_variable[row.origin[1]]:
                note = reading.tableau.notes[r]
                result.setdefault(row.origin[1], []).append(note.factor * reading.reduced_cost(note.slack))
        return result

    def arrays(self, unknowns):
        """The entries of each variable."""
        layout = Layout(self.problem)
        return [[0 if u is None else unknowns[u] for u in layout.entries[n]] for _, n in self.problem.variables]

    def duals(self, reading):
        return self.spread(reading.multiplier)

    def spread(self, multiplier):
        """Multipliers of the constraints' rows, by constraint."""
        result, at = [], 0
        for constraint in self.problem.constraints:
            count = shapes.size(constraint.shape)
            result.append([multiplier(at + i) for i in range(count)])
            at += count
        return result
