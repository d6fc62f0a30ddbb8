"""How far a parameter may move before another plan is best: the values at which the last basis holds, and what the
objective is at them.
"""
from fractions import Fraction

from .faults import Refused, Stopped
from .numbers import Passes
from .reduce import Wide, stopped
from .session import Answer
from .values import Array
from .verify import demand, verify

ZERO = Fraction(0)
FAR = Fraction(10**12)


def test_ranged(session, name):
    """Refuses a parameter that isn't there, is no number, or may stand in a coefficient."""
    problem = session.problem
    node = dict(problem.parameters).get(name)
    if node is None:
        raise Refused(35, (1, 1), " unknown")
    place = problem.nodes[node].place
    if problem.nodes[node].shape != ():
        raise Refused(35, place, " shape")
    if session.map is None:
        raise Refused(35, place, " map")
    key = key_of(problem, name)
    for form in [row.form for row in session.map.rows] + [session.map.objective]:
        if any(key in coefficient.terms for coefficient in form.terms.values()):
            raise Refused(35, place, " coefficient")


def key_of(problem, name):
    """How the parameter is called in an affine number."""
    return [n for n, _ in problem.parameters].index(name), 0


class Ranged:
    """`optimal` with the ends of the interval, None where there is none, and the value at p as `constant + slope * p`;
    or another kind.
    """

    def __init__(self, kind):
        self.kind = kind
        self.low = self.high = self.constant = self.slope = None


class Ranging:
    """The run at a setting, and what its last basis tells of the parameter. The session has a map whose coefficients
    are free of it.
    """

    def __init__(self, session, setting, name, limit):
        self.session, self.problem, self.setting, self.name, self.limit = session, session.problem, setting, name, limit
        self.numbers = session.limits.numbers
        self.key = key_of(self.problem, name)
        self.node = self.problem.nodes[dict(self.problem.parameters)[name]]

    def found(self):
        program = self.session.formed(self.setting)
        try:
            self.tableau = self.session.tableau(program)
            self.first = list(self.tableau.basis)
            self.reading = self.session.ended(self.tableau, self.limit)
        except Wide as wide:
            raise stopped(self.problem, wide) from None
        result = Ranged(self.reading.end.kind)
        if result.kind == "optimal":
            self.at = self.setting[self.name].entries[0]
            try:
                self.span(result)
            except Passes as passes:
                raise Stopped(36, f" {passes.text()}") from None
            Shown(self, result).show()
        return result

    # What the parameter adds to the right sides, to the basic columns, and to the objective.

    def coefficient(self, form):
        return form.constant.terms.get(self.key, ZERO)

    def span(self, result):
        self.h = [self.risen(r, row) for r, row in enumerate(self.session.map.rows)]
        self.d, lows, highs = [], [], []
        for i in range(self.tableau.count):
            self.d.append(self.total(self.tableau.rows[i]))
            self.put_ends(i, lows, highs)
        if self.node.call[2] == "nonneg":
            lows.append(ZERO)
        if self.node.call[2] == "nonpos":
            highs.append(ZERO)
        result.low, result.high = max(lows, default=None), min(highs, default=None)
        total = self.total(self.tableau.rows[self.tableau.count])
        quotient = self.numbers.div(total, Fraction(self.reading.lead))
        result.slope = self.numbers.add(quotient, self.coefficient(self.session.map.objective))
        result.constant = self.numbers.sub(self.reading.number, self.numbers.mul(result.slope, self.at))

    def risen(self, r, row):
        """By how much the right side of the row of whole numbers rises with the parameter."""
        note = self.tableau.notes[r]
        factor = -note.factor if note.is_negated else note.factor
        return self.numbers.mul(factor, -self.coefficient(row.form))

    def total(self, entries):
        """By how much the right side of a row of the tableau rises."""
        result = ZERO
        for h, column in zip(self.h, self.first):
            result = self.numbers.add(result, self.numbers.mul(h, Fraction(entries.get(column, 0))))
        return result

    def put_ends(self, i, lows, highs):
        d = self.d[i]
        if d == 0:
            return
        if self.tableau.basis[i] >= self.tableau.plain:
            lows.append(self.at)
            highs.append(self.at)
            return
        right = Fraction(self.tableau.rows[i].get(self.tableau.right, 0))
        (lows if d > 0 else highs).append(self.numbers.sub(self.at, self.numbers.div(right, d)))


class Shown:
    """Shows a span: that the basis has these columns at each value, where they may stand, and that the answers there
    are right.

    Nothing here is limited to 128 bits.
    """

    def __init__(self, ranging, result):
        self.ranging, self.result = ranging, result
        self.tableau, self.reading, self.session = ranging.tableau, ranging.reading, ranging.session

    def show(self):
        at = self.ranging.at
        self.columns_solve(at)
        self.columns_solve(at + 1)
        self.ends(at)
        self.slope()
        self.answers(at)

    def columns(self, p):
        """The basic columns at a value of the parameter."""
        result = {}
        for basic, row, d in zip(self.tableau.basis, self.tableau.rows, self.ranging.d):
            result[basic] = (row.get(self.tableau.right, 0) + d * (p - self.ranging.at)) / Fraction(row[basic])
        return result

    def setting(self, p):
        return {**self.ranging.setting, self.ranging.name: Array((), [p])}

    def number(self, affine, setting):
        names = [name for name, _ in self.session.problem.parameters]
        return affine.constant + sum(
            c * setting[names[position]].entries[entry] for (position, entry), c in affine.terms.items()
        )

    def columns_solve(self, p):
        """The columns solve the rows at the value."""
        columns, setting = self.columns(p), self.setting(p)
        unknowns = self.reading.unknowns(columns)
        for row, note in zip(self.session.map.rows, self.tableau.notes):
            total = self.number(row.form.constant, setting)
            total += sum(self.number(c, setting) * unknowns[u] for u, c in row.form.terms.items())
            rest = note.factor * total + columns.get(note.slack, ZERO)
            rest = -rest if note.is_negated else rest
            demand(rest + columns.get(note.artificial, ZERO) == 0, "the basic columns don't solve the rows")

    def ends(self, at):
        """The interval has the values at which no basic column is negative and each artificial is 0."""
        here, there = self.columns(at), self.columns(at + 1)
        lows, highs = [], []
        for column, value in here.items():
            rise = there[column] - value
            demand(value >= 0, "a basic column is negative")
            demand(value == 0 or column < self.tableau.plain, "an artificial isn't 0")
            if rise and column >= self.tableau.plain:
                lows.append(at)
                highs.append(at)
            elif rise:
                (lows if rise > 0 else highs).append(at - value / rise)
        attribute = self.ranging.node.call[2]
        if attribute == "nonneg":
            lows.append(ZERO)
        if attribute == "nonpos":
            highs.append(ZERO)
        demand(
            (max(lows, default=None), min(highs, default=None)) == (self.result.low, self.result.high),
            "the ends are others",
        )

    def slope(self):
        """The slope is what the multipliers of all rows make of the parameter."""
        rows = self.session.map.rows
        total = sum(
            (self.reading.exact_multiplier(r) * self.ranging.coefficient(row.form) for r, row in enumerate(rows)), ZERO
        )
        demand(
            total + self.ranging.coefficient(self.session.map.objective) == self.result.slope, "the slope is another"
        )

    def answers(self, at):
        """At the ends, between them, and far out where there is none, the point and the multipliers of the basis are
        right.
        """
        low, high = self.result.low, self.result.high
        low, high = at - FAR if low is None else low, at + FAR if high is None else high
        demand(low <= at <= high, "the interval doesn't hold the setting's value")
        for p in {low, (low + at) / 2, at, (at + high) / 2, high}:
            answer = Answer("optimal", self.result.constant + self.result.slope * p)
            answer.point = self.session.arrays(self.reading.unknowns(self.columns(p)))
            answer.duals = self.session.spread(self.reading.exact_multiplier)
            answer.weights = self.session.weights(self.reading)
            verify(self.session.problem, self.setting(p), answer)
