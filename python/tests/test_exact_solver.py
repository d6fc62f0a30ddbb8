"""The solver of reduced programs: factors, exact solutions, and ends that are shown anew here by what they state."""
import random
import unittest
from fractions import Fraction
from unittest import mock

from scipy.optimize import linprog

from dcx.exact.affine import Form
from dcx.exact.reduce import Program, Row
from dcx.exact.solver import solved, starts
from dcx.exact.solver.factors import FLOATS, Factors, modulo
from dcx.exact.solver.lifting import fractions, lifted

P = 2**127 - 1


def program(kinds, rows, objective, constant=0):
    """Of rows (numbers, sign, right side) and an objective by unknown."""
    def form(numbers, constant):
        return Form(Fraction(constant), {u: Fraction(v) for u, v in enumerate(numbers) if v})

    listed = [Row(sign == "==", form(numbers, -Fraction(right)), None) for numbers, sign, right in rows]
    return Program(kinds, listed, form(objective, constant))


def at(form, unknowns):
    return form.constant + sum(v * unknowns[u] for u, v in form.terms.items())


def slope(form, unknowns):
    return at(form, unknowns) - form.constant


class Shown(unittest.TestCase):
    """Shows an end by its numbers, in fractions."""

    def has_signs(self, kinds, unknowns):
        for kind, x in zip(kinds, unknowns):
            self.assertTrue(x >= 0 if kind == "nonneg" else x <= 0 if kind == "nonpos" else True)

    def is_feasible(self, it, point):
        self.has_signs(it.kinds, point)
        for row in it.rows:
            self.assertTrue(at(row.form, point) == 0 if row.is_equal else at(row.form, point) <= 0)

    def bounds(self, it, multipliers, with_objective, number):
        """The multipliers show that the sum is at least the number wherever the unknowns have their signs."""
        total, left = Fraction(0), [Fraction(0)] * len(it.kinds)
        forms = [(m, row.form) for m, row in zip(multipliers, it.rows)] + [(Fraction(1), it.objective)] * with_objective
        for m, form in forms:
            total += m * form.constant
            for u, v in form.terms.items():
                left[u] += m * v
        for m, row in zip(multipliers, it.rows):
            self.assertTrue(row.is_equal or m >= 0)
        for kind, c in zip(it.kinds, left):
            self.assertTrue(c >= 0 if kind == "nonneg" else c <= 0 if kind == "nonpos" else c == 0)
        self.assertGreaterEqual(total, number)

    def show(self, it, found):
        if found.kind == "optimal":
            self.is_feasible(it, found.point)
            self.assertEqual(at(it.objective, found.point), found.number)
            self.bounds(it, found.multipliers, True, found.number)
        elif found.kind == "infeasible":
            self.assertGreater(found.number, 0)
            self.bounds(it, found.multipliers, False, found.number)
        else:
            self.assertEqual(found.kind, "unbounded")
            self.is_feasible(it, found.point)
            self.assertEqual(at(it.objective, found.point), found.number)
            self.has_signs(it.kinds, found.ray)
            for row in it.rows:
                self.assertTrue(slope(row.form, found.ray) == 0 if row.is_equal else slope(row.form, found.ray) <= 0)
            self.assertGreater(found.slope, 0)
            self.assertEqual(slope(it.objective, found.ray), -found.slope)


class Programs(Shown):
    def drawn(self, seed):
        """A small program with many ties."""
        draw = random.Random(seed)
        n, m = draw.randint(1, 5), draw.randint(0, 6)
        kinds = [draw.choice(["free", "nonneg", "nonneg", "nonpos"]) for _ in range(n)]
        numbers = [0, 0, 1, -1, 2, Fraction(1, 3)]
        rows = [
            ([draw.choice(numbers) for _ in range(n)], draw.choice(["<=", "<=", "=="]), draw.choice([0, 0, 1, -1, 3]))
            for _ in range(m)
        ]
        return program(kinds, rows, [draw.choice(numbers) for _ in range(n)], draw.choice([0, Fraction(5, 7)]))

    def test_ends_of_random_programs_are_shown(self):
        counts = {}
        for seed in range(400):
            it = self.drawn(seed)
            with self.subTest(seed):
                found = solved(it, use_floats=seed % 2 == 0)
                self.show(it, found)
                counts[found.kind] = counts.get(found.kind, 0) + 1
        self.assertGreater(min(counts.values()), 40)
        self.assertEqual(len(counts), 3)

    def test_the_kind_is_that_of_highs(self):
        compared = 0
        for seed in range(0, 400, 5):
            it = self.drawn(seed)
            if not it.rows:
                continue
            bounds = [{"free": (None, None), "nonneg": (0, None), "nonpos": (None, 0)}[kind] for kind in it.kinds]
            dense = [[float(row.form.terms.get(u, 0)) for u in range(len(bounds))] for row in it.rows]
            split = {True: ([], []), False: ([], [])}
            for row, numbers in zip(it.rows, dense):
                split[row.is_equal][0].append(numbers)
                split[row.is_equal][1].append(-float(row.form.constant))
            (a_eq, b_eq), (a_ub, b_ub) = split[True], split[False]
            costs = [float(it.objective.terms.get(u, 0)) for u in range(len(bounds))]
            highs = linprog(
                costs,
                a_ub or None,
                b_ub or None,
                a_eq or None,
                b_eq or None,
                bounds=bounds,
                options={"presolve": False},
            )
            kind = {0: "optimal", 2: "infeasible", 3: "unbounded"}.get(highs.status)
            if kind is not None:
                compared += 1
                with self.subTest(seed):
                    self.assertEqual(solved(it).kind, kind)
        self.assertGreater(compared, 60)

    def test_examples_on_which_the_simplex_method_cycles(self):
        beale = program(
            ["nonneg"] * 4,
            [
                ([Fraction(1, 4), -8, -1, 9], "<=", 0),
                ([Fraction(1, 2), -12, Fraction(-1, 2), 3], "<=", 0),
                ([0, 0, 1, 0], "<=", 1),
            ],
            [Fraction(-3, 4), 20, Fraction(-1, 2), 6],
        )
        kuhn = program(
            ["nonneg"] * 4,
            [
                ([-2, -9, 1, 9], "<=", 0),
                ([Fraction(1, 3), 1, Fraction(-1, 3), -2], "<=", 0),
                ([2, 3, -1, -12], "<=", 2),
            ],
            [-2, -3, 1, 12],
        )
        for it, value in ((beale, Fraction(-5, 4)), (kuhn, -2)):
            for use_floats in (True, False):
                found = solved(it, use_floats)
                self.show(it, found)
                self.assertEqual(found.number, value)

    def test_blands_rule_alone_ends_too(self):
        with mock.patch("dcx.exact.solver.run.PATIENCE", -1):
            for seed in range(0, 400, 7):
                it = self.drawn(seed)
                with self.subTest(seed):
                    self.show(it, solved(it, use_floats=False))

    def test_nothing_rests_on_the_start(self):
        """Starts that are wrong, from columns that depend on each other to columns that are bad."""
        draw = random.Random(11)
        for seed in range(0, 400, 4):
            it = self.drawn(seed)
            columns = range(len(it.kinds) + len(it.rows))
            wrong = [draw.choice(columns) for _ in it.rows]
            with self.subTest(seed), mock.patch.object(starts, "found", lambda form, basis: list(dict.fromkeys(wrong))):
                found = solved(it)
                self.show(it, found)
                self.assertEqual((found.kind, found.number if found.kind == "optimal" else 0), self.plain(it))

    def plain(self, it):
        found = solved(it, use_floats=False)
        return found.kind, found.number if found.kind == "optimal" else 0

    def test_highs_gives_a_start(self):
        asked = []
        real = starts._from_highs

        def noted(*args):
            asked.append(real(*args))
            return asked[-1]

        with mock.patch.object(starts, "LARGE", 0), mock.patch.object(starts, "_from_highs", noted):
            for seed in range(0, 400, 4):
                it = self.drawn(seed)
                with self.subTest(seed):
                    self.assertEqual(self.kind_and_value(it), self.plain(it))
        self.assertTrue(any(asked))

    def kind_and_value(self, it):
        found = solved(it)
        self.show(it, found)
        return found.kind, found.number if found.kind == "optimal" else 0

    def test_a_later_program_starts_from_the_basis_before(self):
        def it(right):
            return program(
                ["nonneg"] * 3,
                [([-1, -1, 0], "<=", -right), ([1, 0, -2], "<=", 1), ([0, 1, -1], "<=", right)],
                [3, 2, 1],
            )

        first = solved(it(5), use_floats=False)
        again = solved(it(5), use_floats=False, basis=first.basis)
        other = solved(it(7), use_floats=False, basis=first.basis)
        self.assertEqual((again.number, again.pivots), (first.number, 0))
        self.assertGreater(first.pivots, 0)
        self.show(it(7), other)

    def test_numbers_beyond_floats(self):
        it = program(["nonneg"], [([10**400], "==", Fraction(1, 10**400))], [10**500])
        found = solved(it)
        self.show(it, found)
        self.assertEqual(found.number, Fraction(1, 10**300))


class TheFactors(unittest.TestCase):
    def columns(self, draw, n):
        return [
            [(i, draw.choice([-3, -2, -1, 1, 2, 3])) for i in sorted(draw.sample(range(n), draw.randint(1, min(4, n))))]
            for _ in range(n)
        ]

    def test_solutions_and_prices_behind_replacements(self):
        draw, tried = random.Random(3), 0
        for _ in range(200):
            n = draw.randint(1, 9)
            columns = self.columns(draw, n)
            for field in (modulo(P), FLOATS):
                factors, now = Factors(field, n, columns), list(columns)
                if len(factors.places) < n:
                    continue
                for _ in range(4):
                    tried += 1
                    self.compare(field, factors, now, [draw.randint(-9, 9) for _ in range(n)])
                    place, column = draw.randrange(n), self.columns(draw, n)[0]
                    right = [0] * n
                    for i, v in column:
                        right[i] = v
                    alpha = factors.solve(right)
                    if abs(alpha[place]) > 1e-3:
                        factors.replace(place, alpha)
                        now[place] = column
        self.assertGreater(tried, 300)

    def compare(self, field, factors, columns, wanted):
        x, y = factors.solve(list(wanted)), factors.price(list(wanted))
        sums = [0] * len(columns)
        for column, t in zip(columns, x):
            for i, v in column:
                sums[i] += v * t
        products = [sum(v * y[i] for i, v in column) for column in columns]
        for found in (sums, products):
            for f, w in zip(found, wanted):
                if field is FLOATS:
                    self.assertAlmostEqual(f, w, places=5)
                else:
                    self.assertEqual((f - w) % P, 0)

    def test_columns_that_depend_on_others_have_no_pivot(self):
        columns = [[(0, 1), (1, 2)], [(1, 1), (2, 1)], [(0, 1), (1, 3), (2, 1)], []]
        factors = Factors(modulo(P), 4, columns)
        self.assertEqual(len(factors.places), 2)
        self.assertEqual(len(factors.rest), 2)
        self.assertIn(3, factors.rest)


class ExactSolutions(unittest.TestCase):
    def solve(self, diagonal, right):
        """A system that is diagonal: x is right / diagonal."""
        def product(x):
            return [d * v for d, v in zip(diagonal, x)]

        return lifted(lambda b: [v * pow(d, -1, P) % P for d, v in zip(diagonal, b)], product, right, P)

    def test_fractions_of_any_size(self):
        draw = random.Random(5)
        for bits in (1, 4, 60, 64, 130, 700):
            diagonal = [draw.randint(1, 2**bits) * draw.choice([1, -1]) for _ in range(4)]
            right = [draw.randint(-(2**bits), 2**bits) for _ in range(4)]
            x, denominator = self.solve(diagonal, right)
            self.assertGreater(denominator, 0)
            self.assertEqual([Fraction(v, denominator) for v in x], [Fraction(b, d) for b, d in zip(right, diagonal)])

    def test_a_half_is_no_whole_number(self):
        # (a half is next to the middle of the modulus, which a careless bound takes for a whole number)
        self.assertEqual(fractions([(P + 1) // 2], P), ([1], 2))
        self.assertEqual(self.solve([2, 2], [1, 4]), ([1, 4], 2))


if __name__ == "__main__":
    unittest.main()
