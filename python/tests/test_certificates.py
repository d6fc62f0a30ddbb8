"""Certificates and their checks, constraints in the way, the range of a parameter: against brute force and what is
worked out by hand."""

from __future__ import annotations

import unittest
from fractions import Fraction
from itertools import combinations
from pathlib import Path

import numpy as np
from scipy.optimize import linprog

import dcx.cvxpy as cp
from dcx import program
from dcx.certificates import Certificate, CertificateError
from dcx.errors import DCPError, ParameterError, SolverError, UnsupportedError

LINES = Path(__file__).read_text().splitlines()


def line_of(mark):
    """The number of the line of this file that ends with a comment."""
    (number,) = [number for number, line in enumerate(LINES, 1) if line.endswith(f"# {mark}")]
    return number


class Certificates(unittest.TestCase):
    def model(self, kind=cp.Minimize, sign=1):
        """Least `|x| + p x` where x is at least 1 and `q x` at most 5."""
        self.x, self.p, self.q = cp.Variable(name="x"), cp.Parameter(name="p"), cp.Parameter(name="q", nonneg=True)
        return cp.Problem(kind(sign * (cp.abs(self.x) + self.p * self.x)), [self.x >= 1, self.q * self.x <= 5])

    def test_an_answer_of_each_kind(self):
        for kind, sign in ((cp.Minimize, 1), (cp.Maximize, -1)):
            problem = self.model(kind, sign)
            for p, q, shown in (
                (Fraction(1, 2), 1, ("optimal", sign * Fraction(3, 2))),
                (0, 10, ("infeasible", None)),
                (-3, 0, ("unbounded", sign * -2)),
            ):
                self.p.value, self.q.value = p, q
                certificate = problem.certificate()
                self.assertEqual(certificate.check(), shown)
                self.assertEqual(certificate.section.status, shown[0])
                self.assertTrue(certificate.text.startswith(f"certificate 2\nsection 1 {shown[0]}\nparam p () = {p}\n"))
                self.assertEqual(str(certificate), certificate.text)

    def test_it_is_one_for_the_script_that_is_shown(self):
        """The texts alone are enough: another process certifies them."""
        problem = self.model()
        self.p.value, self.q.value = 2, 3
        certificate = problem.certificate()
        self.assertEqual((certificate.script, certificate.settings), (problem.script(), problem.settings()))
        run = program.run("certify", certificate.script, certificate.settings, certificate.text)
        self.assertEqual((run.status, run.report), (0, b"certified 1\n"))
        # at 1, where x is least, the value is 3
        self.assertEqual(certificate.check().value, 3)

    def test_what_shows_nothing(self):
        problem = self.model()
        self.p.value, self.q.value = Fraction(1, 2), 1
        good = problem.certificate()

        def changed(old, new):
            self.assertIn(old, good.text)
            return Certificate(good.text.replace(old, new), good.script, good.settings, good.section, False)

        for old, new, told, name in (
            ("value 3/2", "value 1", "stated value|states 1", "Value"),
            ("var x () = 1", "var x () = 0", "not feasible", "Constraint"),
            ("dual 1 () = 3/2", "dual 1 () = 1", "don't balance", "Variable"),
            ("end\n", "", "Line", "Form"),
        ):
            with self.assertRaisesRegex(CertificateError, told) as caught:
                changed(old, new).check()
            self.assertEqual(caught.exception.fault.name, name)
        other = Certificate(good.text, good.script, "p = 1; q = 1\n", good.section, False)
        with self.assertRaisesRegex(CertificateError, "another setting"):
            other.check()

    def test_random_ones_hold(self):
        draw = np.random.default_rng(6)
        seen = set()
        for _ in range(25):
            x, p = cp.Variable(3, nonneg=True), cp.Parameter(4)
            A, c = draw.integers(-3, 6, (4, 3)), draw.integers(-1, 8, 3)
            problem = cp.Problem(cp.Minimize(c @ x + cp.norm_inf(x)), [A @ x >= p, cp.sum_largest(x, 2) <= 30])
            p.value = draw.integers(-5, 9, 4)
            found = problem.certificate().check()
            seen.add(found.status)
            largest = [[1, 1, 0], [1, 0, 1], [0, 1, 1]]
            most = np.hstack([np.eye(3), -np.ones((3, 1))])
            above = np.vstack([np.hstack([-A, np.zeros((4, 1))]), np.hstack([largest, np.zeros((3, 1))]), most])
            best = linprog([*c, 1], above, [*-p.value, 30, 30, 30, 0, 0, 0], method="highs")
            if best.status == 0:
                self.assertAlmostEqual(float(found.value), best.fun, places=6)
            else:
                self.assertEqual((best.status, found.status), (2, "infeasible"))
        self.assertEqual(seen, {"optimal", "infeasible"})

    def test_where_there_is_none(self):
        x = cp.Variable(2, name="x")
        problem = cp.Problem(cp.Minimize(cp.sum(x)), [x >= [1, 2], x[0] + 2 * x[1] >= 9])
        with self.assertRaisesRegex(SolverError, "27 PivotLimit"):
            problem.certificate(max_iters=1)
        z = cp.Variable(integer=True)  # whole
        whole = cp.Problem(cp.Minimize(z), [z >= 0.5])
        for ask in (whole.certificate, whole.irreducible):
            with self.assertRaises(UnsupportedError) as caught:
                ask()
            self.assertEqual(caught.exception.site.line, line_of("whole"))
        with self.assertRaises(DCPError):
            cp.Problem(cp.Maximize(cp.abs(x[0]))).certificate()
        with self.assertRaises(ParameterError):
            cp.Problem(cp.Minimize(cp.Parameter())).certificate()


class InTheWay(unittest.TestCase):
    def keeps(self, rules, point):
        """Whether a point keeps constraints, in fractions."""
        for variable, value in point.items():
            variable.save_value(value)
        return all(not np.any(rule.exact_residual) for rule in rules)

    def test_those_that_are(self):
        x, y = cp.Variable(2, name="x"), cp.Variable(name="y", bounds=[0, 3])  # the bounds of y
        rules = [x >= 1, y <= 9, cp.sum(x) <= y, x[0] - x[1] <= 4, cp.abs(y - 2) <= 5, x[1] >= 3]
        found = cp.Problem(cp.Maximize(y), rules).irreducible()
        *given, own = found.constraints
        self.assertEqual(given, [rules[0], rules[2], rules[5]])
        self.assertEqual(own.site.line, line_of("the bounds of y"))
        self.assertIsNone(found.point)
        for rule, point in found.points.items():
            self.assertTrue(self.keeps([other for other in found.constraints if other is not rule], point))
            self.assertFalse(self.keeps([rule], point))

    def test_all_can_be_kept(self):
        x, p = cp.Variable(2, nonneg=True), cp.Parameter(value=3)
        rules = [cp.sum(x) == p, x[0] >= 2 * x[1]]
        found = cp.Problem(cp.Maximize(cp.sum(x)), rules).irreducible()
        self.assertEqual((found.constraints, found.points), ((), {}))
        self.assertTrue(self.keeps(rules, found.point))
        p.value = -1
        self.assertEqual(cp.Problem(cp.Maximize(0), rules).irreducible().constraints, (rules[0],))

    def test_none_of_them_can_be_left_out(self):
        """Against HiGHS over all subsets."""
        draw = np.random.default_rng(8)
        met = 0
        while met < 6:
            A, b = draw.integers(-4, 5, (6, 3)), draw.integers(-9, 3, 6)

            def feasible(rows, A=A, b=b):
                return linprog([0, 0, 0], A[list(rows)], b[list(rows)], bounds=(None, None), method="highs").status == 0

            if feasible(range(6)):
                continue
            met += 1
            x = cp.Variable(3)
            rules = [A[row] @ x <= b[row] for row in range(6)]
            rows = [rules.index(rule) for rule in cp.Problem(cp.Minimize(0), rules).irreducible().constraints]
            self.assertFalse(feasible(rows))
            self.assertTrue(all(feasible(part) for part in combinations(rows, len(rows) - 1)))


class Ranges(unittest.TestCase):
    def test_by_hand(self):
        """Least `2 x + y` where x + y is at least p and y at most 4: y first, then x."""
        x, y, p = cp.Variable(nonneg=True), cp.Variable(nonneg=True), cp.Parameter(name="p", value=3)
        problem = cp.Problem(cp.Minimize(2 * x + y), [x + y >= p, y <= 4])
        self.assertEqual(problem.range(p), ("optimal", 0, 4, 0, 1))
        self.assertEqual(problem.range("p"), problem.range(p))
        p.value = 6
        span = problem.range(p)
        self.assertEqual(span, ("optimal", 4, None, -4, 2))
        self.assertEqual([span.at(number) for number in (4, Fraction(9, 2), 100)], [4, 5, 196])
        with self.assertRaisesRegex(ValueError, "outside of the span"):
            span.at(3)
        # Maximize has the value of its own objective
        self.assertEqual(cp.Problem(cp.Maximize(-2 * x - y), problem.constraints).range(p), ("optimal", 4, None, 4, -2))

    def test_the_value_along_the_way(self):
        draw = np.random.default_rng(9)
        met = 0
        for _ in range(8):
            x, p, q = cp.Variable(4, nonneg=True), cp.Parameter(value=5), cp.Parameter(4, value=draw.integers(1, 9, 4))
            A, c = draw.integers(0, 5, (3, 4)), draw.integers(1, 9, 4)
            problem = cp.Problem(cp.Minimize(c @ x), [cp.sum(x) >= p, A @ x >= q[:3] - p, x <= q + 9])
            span = problem.range(p)
            if span.status != "optimal":
                continue
            met += 1
            ends = [end for end in (span.low, span.high) if end is not None]
            for value in [p.exact, *ends, *[(end + p.exact) / 2 for end in ends]]:
                p.value = value
                problem.solve()
                self.assertEqual(span.at(value), problem.exact)
        self.assertGreater(met, 5)

    def test_where_there_is_none(self):
        x, p, v = cp.Variable(), cp.Parameter(value=0), cp.Parameter(2, value=[1, 2])
        q = cp.Parameter(value=2, nonneg=True)
        problem = cp.Problem(cp.Minimize(q * x), [x >= p, x >= cp.sum(v), x <= 2 + p])
        self.assertEqual(problem.range(p), ("infeasible", None, None, None, None))
        p.value = 2
        self.assertEqual(cp.Problem(cp.Maximize(x), [x >= p]).range(p).status, "unbounded")
        with self.assertRaises(UnsupportedError):
            problem.range(q)  # it multiplies a variable
        with self.assertRaises(UnsupportedError):
            problem.range(v)  # it isn't a single number
        for other in (cp.Parameter(value=1), x, "p"):
            with self.assertRaisesRegex(KeyError, "is no parameter that the problem reaches"):
                problem.range(other)


if __name__ == "__main__":
    unittest.main()
