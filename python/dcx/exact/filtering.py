"""Why no point is feasible: constraints that no point keeps together, though some point keeps all of them but any one.
"""
from fractions import Fraction

from . import shapes
from .affine import Form
from .faults import STOPS, Stopped
from .reduce import Program, Wide, stopped
from .verify import verify_others, verify_point, verify_set


class Filtered:
    """A feasible point; or the constraints, by numbers from 0, with a point for each that keeps the others, multipliers
    and gap.
    """

    def __init__(self):
        self.point = self.members = self.points = self.duals = self.number = None


class Filter:
    """All constraints are tried first, and then each of them in order is left out for good where those that are left
    are impossible.

    The program is that of the problem at the setting, and each step solves it without the rows of the constraints that
    it leaves out.
    """

    def __init__(self, session, setting, limit):
        self.session, self.problem, self.setting, self.limit = session, session.problem, setting, limit
        self.program = session.formed(setting)

    def found(self):
        kept = list(range(len(self.problem.constraints)))
        reading = self.solved(0, kept)
        result = Filtered()
        if reading.end.kind != "infeasible":
            result.point = self.point(reading)
            verify_point(self.problem, self.setting, result.point)
            return result
        last, points = (0, kept, reading), {}
        for c in range(len(self.problem.constraints)):
            rest = [i for i in kept if i != c]
            reading = self.solved(c + 1, rest)
            if reading.end.kind == "infeasible":
                kept, last = rest, (c + 1, rest, reading)
            else:
                points[c] = self.point(reading)
                verify_others(self.problem, self.setting, rest, points[c])
        result.members, result.points = kept, [points[c] for c in kept]
        result.duals, result.number = self.multipliers(*last), last[2].number
        return result

    def solved(self, step, kept):
        """The numbers at the last basis of the program with the rows of these constraints and those of atoms."""
        try:
            reading = self.session.ended(self.session.tableau(self.program_of(kept)), self.limit)
        except Wide as wide:
            raise self.stopped(step, stopped(self.problem, wide)) from None
        except Stopped as stop:
            raise self.stopped(step, stop) from None
        if reading.end.kind == "infeasible":
            verify_set(
                self.problem,
                self.setting,
                self.spread(kept, reading.exact_multiplier),
                self.session.weights(reading),
                reading.number,
            )
        return reading

    def program_of(self, kept):
        """The program where nothing is to be small."""
        rows = [row for row in self.program.rows if row.origin[0] == "node" or row.origin[1] in kept]
        return Program(self.program.kinds, rows, Form(Fraction(0), {}))

    def stopped(self, step, stop):
        return Stopped(37, f" step {step} {stop.kind} {STOPS[stop.kind]}{stop.carried}")

    def point(self, reading):
        return self.session.arrays(reading.point())

    def multipliers(self, step, kept, reading):
        """Those of all constraints from those of the step; a number that passes stops that step."""
        try:
            return self.spread(kept, reading.multiplier)
        except Wide as wide:
            raise self.stopped(step, stopped(self.problem, wide)) from None

    def spread(self, kept, multiplier):
        """Multipliers of the rows of these constraints, by constraint; the others have zeros."""
        result, at = [], 0
        for c, constraint in enumerate(self.problem.constraints):
            count = shapes.size(constraint.shape)
            if c in kept:
                result.append([multiplier(at + i) for i in range(count)])
                at += count
            else:
                result.append([Fraction(0)] * count)
        return result
