"""Models near the limits of the language: what is counted, products with matrices of zeros, deep and long
expressions, and where it is told."""

from __future__ import annotations

import unittest
from fractions import Fraction
from pathlib import Path
from unittest import mock

import numpy as np
import scipy.sparse as sparse
from scipy.optimize import linprog

import dcx.cvxpy as cp
from dcx import program, scripts
from dcx.errors import DCPError, LimitError, SolverError
from dcx.reports import read_report
from dcx.scripts import written

LINES = Path(__file__).read_text().splitlines()
MOST = 20_000


def line_of(mark):
    """The number of the line of this file that ends with a comment."""
    (number,) = [number for number, line in enumerate(LINES, 1) if line.endswith(f"# {mark}")]
    return number


def entries(objective, rules):
    """How many entries the package counts in the script of a model."""
    with mock.patch.object(scripts, "MOST", 10**9):
        writer = scripts._Writer(objective, rules)
        return sum(count for _, _, count in writer.graph.counted(objective, writer.constraints))


class Counts(unittest.TestCase):
    """The count of the package is the program's own: up to 20,000 entries the program takes the script, and one more
    it refuses."""

    def edge(self, objective, rules):
        """How many entries a variable beside the model may have, and that the program says the same."""
        free = MOST - entries(objective, rules)
        self.assertGreater(free, 0)
        with mock.patch.object(scripts, "MOST", 10**9):
            for size, accepted in ((free, True), (free + 1, False)):
                beside = cp.Variable(size)
                script = written(objective, [*rules, beside == beside])
                refusal = read_report(program.run("check", script.text).report).refusal
                taken = refusal is None or refusal.name == "NotDcp"  # which comes behind the count
                self.assertEqual(taken, accepted, refusal and refusal.text)
                if not taken:
                    told = (refusal.number, refusal.detail.what, refusal.detail.count)
                    self.assertEqual(told, (18, "entries", MOST + 1))
        written(objective, [*rules, (beside := cp.Variable(free)) == beside])
        beside = cp.Variable(free + 1)
        with self.assertRaisesRegex(LimitError, "20,001 entries, 1 more than the 20,000"):
            written(objective, [*rules, beside == beside])

    def test_each_form(self):
        v, m, s = cp.Variable(5), cp.Variable((3, 4)), cp.Variable()
        p, array = cp.Parameter((4, 3), nonneg=True), np.arange(12).reshape(3, 4)
        for expression in (
            v + 1,
            v - s,
            1 - v,
            v - [1, 2, 3, 4, 5],
            -v + v - v,
            2 * v + v * 3 - v / 7,
            m @ p,
            array.T @ m,
            m @ np.ones(4),
            cp.multiply(array, m) - cp.multiply(s, array),
            cp.maximum(v, 0, s) + cp.minimum(v, v[::-1]),
            cp.sum(m, axis=0) + cp.max(m, axis=0) - cp.mean(m, axis=0),
            cp.abs(m) + cp.pos(m) + cp.neg(m[0]),
            cp.norm1(v) + cp.norm_inf(m) + cp.tv(v),
            cp.diff(v, 2) + cp.diff(v)[1:],
            cp.cumsum(v) + cp.cummax(v),
            cp.cumsum(m, axis=1) + cp.reshape(m, (3, 4), order="C"),
            cp.sum_largest(m, 3) + cp.sum_smallest(v, 2),
            cp.trace(m @ p) + cp.diag(m @ p),
            cp.diag(v) + cp.diag(v).T,
            cp.vec(m, order="F") + cp.reshape(m.T, 12, order="F"),
            cp.vstack([v, v + 1]) + cp.vstack([v, v + 1])[::-1],
            cp.hstack([v, s, 1]) + cp.hstack([v[0], m[0], s, s]),
            cp.bmat([[m, m], [m, -m]]),
            sparse.csr_matrix(array % 5 == 2).astype(int) @ m[0],
            sparse.csr_matrix(array % 5 == 2).astype(int) @ m.T,
            m @ sparse.csr_matrix(-2 * (array.T % 5 == 2)),
            cp.Constant(array) @ np.ones(4) + 1,
        ):
            with self.subTest(str(expression)):
                self.edge(cp.Minimize(cp.sum(expression)), [cp.sum(expression) == 1])

    def test_parts_that_are_one(self):
        """What the language makes of a form may stand there already: a negation, a difference, what is spread."""
        v, m, s, p = cp.Variable(4), cp.Variable((3, 4)), cp.Variable(), cp.Parameter()
        self.edge(cp.Minimize(0), [v - s <= -s, -s <= m, 1 - p <= v, -p <= v, p <= v, v >= p + 1])
        self.edge(cp.Minimize(cp.tv(v)), [cp.diff(v) <= 1, cp.diff(v, 2) <= -cp.diff(v, 2), cp.norm1(cp.diff(v)) <= 3])
        rows = sparse.diags([1, 2, 3], [-1, 0, 1], shape=(12, 12), format="csr")
        x, y, numbers = cp.Variable(12), cp.Variable((2, 12)), cp.Constant(rows) @ cp.Constant(np.arange(12))
        self.edge(cp.Minimize(0), [rows @ x <= numbers, y @ rows >= numbers])
        self.edge(cp.Minimize(0), [rows @ x <= numbers, y @ rows >= 2, rows @ x == rows @ cp.abs(x), y[0] @ rows == 1])
        self.edge(cp.Minimize(0), [rows @ x <= numbers, cp.diag(x) >= rows, cp.multiply(rows, cp.diag(x)) <= 1])
        self.edge(cp.Minimize(5), [m <= -cp.abs(m), cp.Constant(1) <= 2, -(-v) <= 0, v + -(-v) <= v - -v])

    def test_sides_of_constraints_are_spread(self):
        v, m, s = cp.Variable(4), cp.Variable((3, 4)), cp.Variable()
        self.edge(cp.Minimize(s), [v <= s, m >= v, 2 == m, s - 1 <= m])


class Told(unittest.TestCase):
    def test_too_many_entries_at_the_place(self):
        x = cp.Variable(100)
        rules = [x >= 0, cp.sum(x) == 1]
        # by hand: 100 of x, 1 of x[0], 101 of 0 and its spread, 1 of the sum, 1 of 1, 30,000 and 300 of the product,
        # 300 of the spread of 1
        rules.append(np.arange(30_000).reshape(300, 100) % 97 @ x <= 1)  # thirty thousand
        told = "has 30,804 entries, 10,804 more than the 20,000.*the largest part, of 30,300"
        with self.assertRaisesRegex(LimitError, told) as caught:
            cp.Problem(cp.Minimize(x[0]), rules).script()
        self.assertEqual(caught.exception.site.line, line_of("thirty thousand"))

    def test_too_many_constraints(self):
        x = cp.Variable()
        rules = [x >= number % 7 for number in range(20_001)]
        with self.assertRaisesRegex(LimitError, "20,001 constraints, 1 more than the 20,000"):
            cp.Problem(cp.Minimize(x), rules).script()

    def test_too_many_bytes(self):
        x = cp.Variable(9000)
        long = np.array([Fraction(3**60 + 3 * place, 3**60 + 1) for place in range(9000)], dtype=object)
        problem = cp.Problem(cp.Minimize(x[0]), [long @ x <= 1])
        size = len(problem.script())
        with mock.patch.object(scripts, "_BYTES", size):
            self.assertEqual(len(written(problem.objective, problem.constraints).text), size)
        with mock.patch.object(scripts, "_BYTES", size - 1):
            told = f"has {size:,} bytes, 1 more than the {size - 1:,} that the program reads"
            with self.assertRaisesRegex(LimitError, told):
                written(problem.objective, problem.constraints)


class Zeros(unittest.TestCase):
    """Products with matrices in which most entries are 0."""

    def entries(self, problem):
        return entries(problem.objective, problem.constraints)

    def chain(self, n):
        return sparse.diags([np.ones(n), -2 * np.ones(n - 1), np.ones(n - 2)], [0, 1, 2], shape=(n, n), format="csr")

    def test_a_large_one_goes_by_rows(self):
        n = 180
        matrix = self.chain(n)
        x = cp.Variable(n, nonneg=True)
        right = np.arange(n) % 7 + 1
        problem = cp.Problem(cp.Minimize(cp.sum(x)), [matrix @ x >= right])
        self.assertGreater(n * n, MOST)
        self.assertLess(self.entries(problem), 9 * n)
        self.assertNotIn("@", problem.script())
        least = linprog(np.ones(n), A_ub=-matrix, b_ub=-right, method="highs")
        self.assertAlmostEqual(problem.solve() / least.fun, 1, places=6)
        self.assertTrue(np.all(matrix @ x.value >= right - 1e-9))

    def test_an_array_with_many_zeros_does_so_too(self):
        n = 180
        x = cp.Variable(n)
        self.assertNotIn("np.array", cp.Problem(cp.Minimize(x[0]), [self.chain(n).toarray() @ x >= 1]).script())

    def test_what_has_fewer_entries_as_one_stays_one(self):
        full = sparse.csr_matrix(np.arange(1, 31).reshape(5, 6))
        x = cp.Variable(6)
        problem = cp.Problem(cp.Minimize(x[0]), [full @ x >= 1])
        self.assertIn("@ x1 >= 1,", problem.script())
        self.assertEqual(self.entries(problem), 30 + 6 + 5 + 1 + 5 + 1)  # matrix, x, product, 1, spread, x[0]

    def test_whichever_has_fewer(self):
        """Over many densities: never more entries than either way has."""
        draw = np.random.default_rng(3)
        for share in np.linspace(0.02, 0.9, 12):
            dense = np.round(draw.normal(size=(12, 15)), 1) * (draw.random((12, 15)) < share)
            x = cp.Variable(15)
            problem = cp.Problem(cp.Minimize(x[0]), [sparse.csr_matrix(dense) @ x >= 1])
            as_one = self.entries(cp.Problem(cp.Minimize(x[0]), [dense @ x >= 1]))
            self.assertLessEqual(self.entries(problem), as_one)
            # by rows each number needs its factor, its entry, its product, its negation and its sum at the most
            by_rows = 5 * np.count_nonzero(dense) + 1 + 12 + 15 + 1 + 1 + 12
            self.assertLessEqual(self.entries(problem), by_rows)

    def test_from_either_side_of_vectors_and_matrices(self):
        draw = np.random.default_rng(5)
        for _ in range(6):
            matrix = sparse.random(7, 9, density=0.15, random_state=draw, format="csr")
            matrix.data = np.round(4 * matrix.data - 2, 1)
            x, y, z, w = cp.Variable(9), cp.Variable(7), cp.Variable((9, 2)), cp.Variable((2, 7))
            values = [np.round(draw.normal(size=leaf.shape), 2) for leaf in (x, y, z, w)]
            results = [cp.Variable(shape) for shape in (7, 9, (7, 2), (2, 9))]
            rules = [leaf == value for leaf, value in zip((x, y, z, w), values)]
            products = [matrix @ x, y @ matrix, matrix @ z, w @ matrix]
            rules += [result == product for result, product in zip(results, products)]
            problem = cp.Problem(cp.Minimize(0), rules)
            problem.solve()
            wanted = [matrix @ values[0], values[1] @ matrix, matrix @ values[2], values[3] @ matrix]
            for result, value in zip(results, wanted):
                np.testing.assert_allclose(result.value, value, atol=1e-12)

    def test_rows_of_zeros_alone(self):
        x = cp.Variable(40, nonneg=True)
        rules = [sparse.csr_matrix((3, 40)) @ x <= 1, sparse.csr_matrix(np.eye(40)[:1]) @ x == 2]
        problem = cp.Problem(cp.Minimize(cp.sum(x)), rules)
        self.assertEqual(problem.solve(), 2)

    def test_one_matrix_in_many_products_is_written_once(self):
        """In one product three numbers a row are shorter by rows, and in twenty the matrix is, whose own entries count
        once: also where each product has a constant of its own, as where a loop has an array before `@`."""
        matrix = sparse.diags([np.arange(1, 12), np.arange(2, 14), np.arange(3, 14)], [-1, 0, 1], format="csr")
        xs = [cp.Variable(12) for _ in range(20)]
        one = cp.Problem(cp.Minimize(xs[0][0]), [matrix @ xs[0] == 1])
        self.assertNotIn("np.array", one.script())
        constant = cp.Constant(matrix)
        for given in (lambda: constant, lambda: matrix, matrix.copy):
            problem = cp.Problem(cp.Minimize(xs[0][0]), [given() @ x == 1 for x in xs])
            self.assertEqual((problem.script().count("np.array("), problem.script().count(" @ ")), (1, 20))
            # the matrix, the variables and their products, 1 and its spread, and x[0]
            self.assertEqual(self.entries(problem), 144 + 20 * (12 + 12) + 1 + 12 + 1)
        both = cp.Problem(cp.Minimize(xs[0][0]), [matrix @ xs[0] == 1, cp.diag(xs[1]) >= matrix.copy()])
        self.assertEqual((both.script().count("np.array("), both.script().count(" @ ")), (1, 1))


class Depth(unittest.TestCase):
    def solved(self, expression, x, value):
        problem = cp.Problem(cp.Minimize(expression), [x == value])
        problem.solve()
        return problem.exact

    def test_long_sums_do_not_nest(self):
        x = cp.Variable(name="x")
        total = sum(number * x for number in range(1, 1201))
        self.assertEqual(self.solved(total, x, 2), 1200 * 1201)
        right = 3 * x
        for number in range(1200):
            right = number % 9 * x + right
        script = cp.Problem(cp.Minimize(right), [x == 1]).script()
        self.assertNotIn("(0*x", script)
        self.assertEqual(self.solved(right, x, 1), 3 + sum(number % 9 for number in range(1200)))

    def test_deep_calls(self):
        x = cp.Variable(name="x")
        deep = x
        for number in range(300):
            deep = cp.maximum(cp.abs(deep) - 1, number % 2 + 1 - x)
        value = Fraction(5, 2)
        wanted = value
        for number in range(300):
            wanted = max(abs(wanted) - 1, number % 2 + 1 - value)
        x.value = value
        self.assertEqual(deep.exact, wanted)
        script = cp.Problem(cp.Minimize(deep), [x == value]).script()
        self.assertLess(len([line for line in script.splitlines() if line.startswith("e")]), 30)
        # the rules refuse it, since `abs` of what is convex is nothing, at its place: the script is read
        refusal = read_report(program.run("check", script).report).refusal
        self.assertEqual(refusal.name, "NotDcp")

    def test_deep_brackets_are_read(self):
        x = cp.Variable(name="x")
        for start, step, wanted in (
            (x, lambda deep: cp.pos(deep + 1), 151),
            (x, lambda deep: 2 - (1 - deep), 151),
            (cp.hstack([x, x]), lambda deep: cp.hstack([deep[0], 1 + deep[1]]), 1 + 151),
        ):
            deep = start
            for _ in range(150):
                deep = step(deep)
            self.assertEqual(cp.Problem(cp.Minimize(cp.sum(deep)), [x == 1]).solve(), wanted)

    def test_what_stands_in_the_next_one(self):
        """Running sums, each of which has a constraint: each has a name, and is written once."""
        x = cp.Variable(60, name="x")
        total, rules = 0, []
        for place in range(60):
            total = total + x[place]
            rules.append(total >= place)
        problem = cp.Problem(cp.Minimize(total), rules)
        self.assertLess(len(problem.script()), 8000)
        self.assertEqual(problem.solve(), 59)


class Places(unittest.TestCase):
    """Refusals and stops are told at the user's own line."""

    def refused(self, objective, *rules):
        with self.assertRaises(DCPError) as caught:
            cp.Problem(objective, list(rules)).solve()
        return caught.exception

    def test_the_rules(self):
        x, y = cp.Variable(3, name="x"), cp.Variable(name="y")
        product = x[0] * y  # the product
        error = self.refused(cp.Minimize(y + cp.sum(x) + product), x >= 0)
        self.assertEqual(error.site.line, line_of("the product"))
        self.assertIn("product = x[0] * y", str(error))
        self.assertIn("Problem does not follow DCP rules", str(error))

        rule = cp.abs(x) >= 1  # concave side
        error = self.refused(cp.Minimize(y), y >= 0, rule)
        self.assertEqual(error.site.line, line_of("concave side"))

        rule = cp.norm1(x) == y  # equal sides
        self.assertEqual(self.refused(cp.Minimize(y), rule).site.line, line_of("equal sides"))

        goal = cp.Maximize(cp.norm1(x))  # the goal
        self.assertEqual(self.refused(goal, x <= 1).site.line, line_of("the goal"))

        part = cp.abs(x) - cp.abs(x[::-1])  # the difference
        error = self.refused(cp.Minimize(y), cp.sum(part) <= 1, cp.max(part) <= 2)
        self.assertEqual(error.site.line, line_of("the difference"))

        inner = cp.abs(x[0]) + cp.minimum(x[1], 0)  # a sum in a sum
        error = self.refused(cp.Minimize(y + inner), y >= 0)
        self.assertEqual(error.site.line, line_of("a sum in a sum"))

    def test_behind_letters_of_more_bytes(self):
        x, y = cp.Variable(name="été"), cp.Variable(name="y")
        error = self.refused(
            cp.Minimize(x + 2 * x),
            x + x / 7 - x <= y + x + 3,
            x * (x + 2) <= y + x,  # in the third
        )
        self.assertEqual(error.site.line, line_of("in the third"))

    def stopped(self, problem):
        with self.assertRaises(SolverError) as caught:
            problem.solve(exact=False)
        return caught.exception

    def test_stops(self):
        x, y = cp.Variable(name="x"), cp.Variable(name="y")
        wide = 1e30 * x  # wide
        wide = 1e30 * wide  # wider
        error = self.stopped(cp.Problem(cp.Minimize(x), [y >= 0, wide >= 1]))
        self.assertEqual((error.stop.number, error.site.line), (26, line_of("wider")))
        self.assertIn("The product of 1000000000000000000000000000000", str(error))

        p = cp.Parameter(name="p", value=0)
        quotient = x / p  # by zero
        error = self.stopped(cp.Problem(cp.Minimize(x), [quotient >= 1]))
        self.assertEqual((error.stop.number, error.site.line), (25, line_of("by zero")))

        far = x / 1e20 + 1e20 * y <= 1  # the far row
        error = self.stopped(cp.Problem(cp.Minimize(y), [x + y >= 1, cp.hstack([x, y]) >= 0, far]))
        self.assertEqual((error.stop.number, error.site.line), (26, line_of("the far row")))

    def test_too_large(self):
        share = cp.Variable((25, 25), nonneg=True)
        most = share <= 1  # six hundred
        error = self.stopped(cp.Problem(cp.Minimize(cp.sum(share)), [cp.sum(share, axis=0) == 1, most]))
        self.assertEqual((error.stop.number, error.stop.detail.rows), (28, 650))
        self.assertEqual(error.site.line, line_of("six hundred"))

    def test_every_place_leads_to_something(self):
        """Each mark of the script leads to what was recorded, and what stands between leads to what is around it."""
        x, y = cp.Variable(3, name="x"), cp.Variable(3)
        rule = cp.abs(x - 2 * y) + 1 <= cp.sum(y) + 9
        script = written(cp.Minimize(cp.max(cp.abs(x))), [rule])
        lines = script.text.splitlines()
        (place,) = [place for place, line in enumerate(lines, 1) if line.startswith("    cp.abs")]
        line = lines[place - 1]
        self.assertIs(script.at(place, line.index("<=") + 1), rule)
        self.assertEqual(script.at(place, line.index("abs") + 1).kind, "abs")
        self.assertEqual(script.at(place, line.index(" - ") + 2).kind, "-")
        self.assertEqual(script.at(place, line.index("2*") + 2).kind, "*")
        self.assertEqual(script.at(place, line.index("sum") + 1).kind, "sum")
        self.assertIs(script.at(place, line.index("+ 9") + 1), rule.args[1])
        (declared,) = [place for place, line in enumerate(lines, 1) if line.startswith("x = cp.Variable")]
        self.assertIs(script.at(declared, 5), x)
        self.assertIs(script.at(declared, 1), x)
        self.assertIsNone(script.at(1, 1))
        self.assertIsNone(script.at(1000, 1))


if __name__ == "__main__":
    unittest.main()
