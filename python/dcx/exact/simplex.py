"""Integer rows of a reduced program, Bland's run over its tableau, and what is read from the last basis."""
from fractions import Fraction
from math import gcd

from .numbers import Passes
from .reduce import Wide


class IntegerRow:
    """Numbers by column, the right side, the positive factor by which the row was multiplied, and whether it was
    negated.

    An inequality has a column for its slack, and a row that starts without one has one for its artificial.
    """

    def __init__(self, is_equal, numbers, right, factor):
        self.is_equal, self.numbers, self.right, self.factor = is_equal, numbers, right, factor
        self.is_negated = False
        self.slack = self.artificial = None


def integers(terms, right, row, numbers):
    """Terms and a right side times the least common multiple of their denominators, and that multiple."""
    try:
        multiple = Fraction(1)
        for value in [*terms.values(), right]:
            multiple = Fraction(numbers.lcm(multiple, value.denominator))
        return {u: int(numbers.mul(multiple, v)) for u, v in terms.items()}, int(
            numbers.mul(multiple, right)
        ), int(multiple)
    except Passes as passes:
        raise Wide(("row", row), passes) from None


class Tableau:
    """Rows of whole numbers by column; behind the columns stand z, w and the right side."""

    def __init__(self, program, numbers):
        self.program, self.numbers = program, numbers
        self.column_of = self.unknown_columns(program.kinds)
        self.count = len(program.rows)
        self.notes = [self.integer_row(r, row) for r, row in enumerate(program.rows)]
        objective = self.objective()
        self.place_slacks(self.notes)
        self.place_artificials(self.notes)
        self.close(self.notes, objective)

    # Columns

    def unknown_columns(self, kinds):
        """For each unknown its columns with their signs."""
        self.columns, result = [], []
        for u, kind in enumerate(kinds):
            signs = {"free": (1, -1), "nonneg": (1,), "nonpos": (-1,)}[kind]
            result.append([(len(self.columns) + i, sign) for i, sign in enumerate(signs)])
            self.columns.extend((u, sign) for sign in signs)
        return result

    def spread(self, terms):
        return {column: sign * value for u, value in terms.items() for column, sign in self.column_of[u]}

    # Rows

    def integer_row(self, number, row):
        terms, right, multiple = integers(row.form.terms, -row.form.constant, number, self.numbers)
        shared = gcd(*terms.values(), right)
        if shared == 0:
            shared = 1
        numbers = self.spread({u: v // shared for u, v in terms.items()})
        return IntegerRow(row.is_equal, numbers, right // shared, Fraction(multiple, shared))

    def objective(self):
        form = self.program.objective
        terms, right, multiple = integers(
            {u: -v for u, v in form.terms.items()}, form.constant, self.count, self.numbers
        )
        shared = gcd(*terms.values(), right, multiple)
        return {u: v // shared for u, v in self.spread(terms).items()}, right // shared, multiple // shared

    def place_slacks(self, made):
        at = len(self.columns)
        for row in made:
            if not row.is_equal:
                row.slack = at
                row.numbers[at] = 1
                at += 1
            if row.right < 0:
                row.is_negated = True
                row.numbers = {c: -v for c, v in row.numbers.items()}
                row.right = -row.right
        self.plain = at

    def place_artificials(self, made):
        self.basis, at = [], self.plain
        for row in made:
            if row.is_equal or row.is_negated:
                row.artificial = at
                row.numbers[at] = 1
                at += 1
            self.basis.append(row.slack if row.artificial is None else row.artificial)
        self.all = at

    def close(self, made, objective):
        """Adds the objective row and the row of phase 1."""
        self.z, self.w, self.right = self.all, self.all + 1, self.all + 2
        self.rows = []
        for row in made:
            numbers = {c: v for c, v in row.numbers.items() if v}
            if row.right:
                numbers[self.right] = row.right
            self.rows.append(numbers)
        numbers, right, lead = objective
        self.rows.append({c: v for c, v in {**numbers, self.z: lead, self.right: right}.items() if v})
        self.rows.append(self.phase_row(made))

    def phase_row(self, made):
        result = {self.w: 1}
        with_artificial = [r for r, row in enumerate(made) if row.artificial is not None]
        for column in [*range(self.plain), self.right]:
            total = Fraction(0)
            for r in with_artificial:
                try:
                    total = self.numbers.add(total, Fraction(self.rows[r].get(column, 0)))
                except Passes as passes:
                    raise Wide(("row", self.count + 1), passes) from None
            if total:
                result[column] = int(total)
        return result

    # Pivots

    def pivot(self, r, c):
        """Answers false, and leaves all as it was, where the pivot is wide."""
        pivot_row = self.rows[r]
        if pivot_row[c] < 0:
            pivot_row = {k: -v for k, v in pivot_row.items()}
        p = pivot_row[c]
        changed = {}
        for i, row in enumerate(self.rows):
            a = row.get(c, 0)
            if i == r or a == 0:
                continue
            new = eliminated(row, pivot_row, p, a, self.numbers)
            if new is None:
                return False
            changed[i] = new
        self.rows[r] = pivot_row
        for i, row in changed.items():
            self.rows[i] = row
        self.basis[r] = c
        return True


def eliminated(row, pivot_row, p, a, numbers):
    """The row less a multiple of the pivot row, in lowest terms; None where a number passes."""
    shared, greatest = gcd(p, a), numbers.greatest
    p, a = p // shared, a // shared
    result, divisor = {}, 0
    for column in row.keys() | pivot_row.keys():
        left, right = p * row.get(column, 0), a * pivot_row.get(column, 0)
        value = left - right
        if greatest is not None and max(abs(left), abs(right), abs(value)) > greatest:
            return None
        if value:
            result[column] = value
            divisor = gcd(divisor, value)
    return {column: value // divisor for column, value in result.items()} if divisor > 1 else result


class End:
    """How a run ends: `optimal`, `infeasible`, `unbounded` with a column, `limit`, or `wide` with a row and a column.
    """

    def __init__(self, kind, pivots, row=None, column=None):
        self.kind, self.pivots, self.row, self.column = kind, pivots, row, column


class Run:
    def __init__(self, tableau, limit):
        self.tableau, self.limit, self.pivots = tableau, limit, 0
        self.end = self.phase_one() or self.drive_out() or self.phase(tableau.count)

    def pivot(self, row, column):
        """Does a pivot, or answers why it can't."""
        if self.pivots >= self.limit:
            return End("limit", self.pivots)
        if not self.tableau.pivot(row, column):
            return End("wide", self.pivots, row, column)
        self.pivots += 1
        return None

    def entering(self, row):
        entries = self.tableau.rows[row]
        return min((c for c, v in entries.items() if v > 0 and c < self.tableau.plain), default=None)

    def leaving(self, column):
        tableau, best = self.tableau, None
        for i in range(tableau.count):
            entry = tableau.rows[i].get(column, 0)
            if entry <= 0:
                continue
            key = (Fraction(tableau.rows[i].get(tableau.right, 0), entry), tableau.basis[i])
            if best is None or key < best[0]:
                best = (key, i)
        return None if best is None else best[1]

    def phase(self, row):
        """Pivots until no column may enter."""
        while (column := self.entering(row)) is not None:
            leaving = self.leaving(column)
            if leaving is None:
                return End("unbounded", self.pivots, column=column)
            if fault := self.pivot(leaving, column):
                return fault
        return End("optimal", self.pivots)

    def phase_one(self):
        tableau = self.tableau
        if tableau.all == tableau.plain:
            return None
        end = self.phase(tableau.count + 1)
        if end.kind != "optimal":
            return end
        if tableau.rows[tableau.count + 1].get(tableau.right, 0) > 0:
            return End("infeasible", self.pivots)
        return None

    def drive_out(self):
        tableau = self.tableau
        for r in range(tableau.count):
            if tableau.basis[r] < tableau.plain:
                continue
            column = min((c for c in tableau.rows[r] if c < tableau.plain), default=None)
            if column is not None and (fault := self.pivot(r, column)):
                return fault
        return None


class WarmRun(Run):
    """The run from columns that were basic in an earlier optimal answer, by the dual simplex. It ends optimal, or it
    fails, and `end` is None.
    """

    def __init__(self, tableau, columns, limit):
        self.tableau, self.limit, self.pivots = tableau, limit, 0
        has_ended = len(columns) == tableau.count and self.install(columns) and self.costs_are_least() and self.repair()
        self.end = End("optimal", self.pivots) if has_ended else None

    def install(self, columns):
        """Makes the columns basic."""
        tableau, listed = self.tableau, set(columns)
        for column in sorted(listed - set(tableau.basis)):
            rows = (
                r for r in range(tableau.count) if tableau.basis[r] not in listed and tableau.rows[r].get(column, 0)
            )
            row = next(rows, None)
            if row is None or self.pivot(row, column):
                return False
        return True

    def costs_are_least(self):
        return self.entering(self.tableau.count) is None

    def repair(self):
        """Pivots until no right side is negative."""
        tableau = self.tableau
        while negative := [r for r in range(tableau.count) if tableau.rows[r].get(tableau.right, 0) < 0]:
            row = min(negative, key=lambda r: tableau.basis[r])
            costs = tableau.rows[tableau.count]
            ratios = [
                (Fraction(abs(costs.get(c, 0)), -v), c)
                for c, v in tableau.rows[row].items()
                if v < 0 and c < tableau.plain
            ]
            if not ratios or self.pivot(row, min(ratios)[1]):
                return False
        return True


class Reading:
    """The numbers at the last basis."""

    def __init__(self, tableau, end):
        self.tableau, self.end = tableau, end
        self.row = tableau.rows[tableau.count + (end.kind == "infeasible")]
        self.lead = self.row[tableau.w if end.kind == "infeasible" else tableau.z]
        self.number = Fraction(self.row.get(tableau.right, 0), self.lead)
        if end.kind == "unbounded":
            self.slope = Fraction(self.row[end.column], self.lead)

    def unknowns(self, columns):
        result = []
        for placed in self.tableau.column_of:
            parts = [sign * columns.get(column, Fraction(0)) for column, sign in placed]
            assert sum(part != 0 for part in parts) < 2
            result.append(sum(parts, Fraction(0)))
        return result

    def point(self):
        tableau = self.tableau
        columns = {}
        for basic, row in zip(tableau.basis, tableau.rows):
            columns[basic] = Fraction(row.get(tableau.right, 0), row[basic])
        return self.unknowns(columns)

    def ray(self):
        tableau, column = self.tableau, self.end.column
        columns = {column: Fraction(1)}
        for basic, row in zip(tableau.basis, tableau.rows):
            columns[basic] = -Fraction(row.get(column, 0), row[basic])
        return self.unknowns(columns)

    def reduced_cost(self, column):
        return -Fraction(self.row.get(column, 0), self.lead)

    def multiplier(self, r):
        """The multiplier of a row of the reduced program."""
        note = self.tableau.notes[r]
        column = note.artificial if note.is_equal else note.slack
        value = self.reduced_cost(column)
        try:
            if note.is_equal and self.end.kind == "infeasible":
                value = self.tableau.numbers.sub(value, Fraction(1))
            value = self.tableau.numbers.mul(note.factor, value)
        except Passes as passes:
            raise Wide(("answer", r), passes) from None
        return -value if note.is_equal and note.is_negated else value

    def exact_multiplier(self, r):
        """The same, with numbers of any size."""
        note = self.tableau.notes[r]
        value = self.reduced_cost(note.artificial if note.is_equal else note.slack)
        if note.is_equal and self.end.kind == "infeasible":
            value -= 1
        return note.factor * (-value if note.is_equal and note.is_negated else value)
