"""What `problem.verify` shows of the values of SciPy's HiGHS: right ones, slightly wrong ones and badly wrong ones."""
from __future__ import annotations

import unittest
from fractions import Fraction
from unittest import mock

import numpy as np
from scipy.optimize import linprog

import dcx.cvxpy as cp
from dcx.certificates import CertificateError
from dcx.errors import UnsupportedError
from dcx.shown import asking
from tests import wide


class Outside(unittest.TestCase):
    def setUp(self):
        draw = np.random.default_rng(5)
        self.A, self.c = wide.numbers(draw, 2, 7, 4, low=0, high=5), wide.numbers(draw, 2, 4, low=1, high=4)
        self.b = np.round(self.A @ np.full(4, 1.5), 2)
        self.x = cp.Variable(4, name="x", nonneg=True)
        self.rules = [self.A @ self.x <= self.b, cp.sum(self.x) == 3]
        self.problem = cp.Problem(cp.Maximize(self.c @ self.x), self.rules)
        self.problem.solve()
        self.best = self.problem.exact
        self.found = linprog(-self.c, A_ub=self.A, b_ub=self.b, A_eq=np.ones((1, 4)), b_eq=[3])

    def holds(self, verified, width):
        interval = verified.interval
        self.assertTrue(interval.low <= self.best <= interval.high)
        self.assertLess(interval.width, width)
        self.assertEqual(verified.gap, interval.high - interval.low)
        interval.point.check()
        interval.bound.check()

    def keeps(self, point):
        """The point keeps the constraints, in fractions."""
        self.assertEqual(sum(point), 3)
        for row, bound in zip(self.A.tolist(), self.b.tolist()):
            self.assertLessEqual(sum(Fraction(repr(a)) * v for a, v in zip(row, point)), Fraction(repr(bound)))

    def test_right_values(self):
        verified = self.problem.verify({"x": self.found.x})
        self.holds(verified, 1e-9)
        self.keeps(verified.point[self.x])
        self.assertLess(verified.moved, Fraction(1, 10**9))
        self.assertEqual(verified.interval.boxed, ())

    def test_with_multipliers(self):
        """They are enough: nothing is solved."""
        duals = {self.rules[0]: -self.found.ineqlin.marginals, self.rules[1]: -self.found.eqlin.marginals[0]}
        values = {self.x: np.array([float(v) for v in self.x.exact])}
        verified = self.problem.verify(values, duals)
        self.holds(verified, 1e-8)
        wrong = self.problem.verify(values, {self.rules[0]: np.full(7, 3.0), self.rules[1]: 0})
        self.holds(wrong, 1e-9)  # the exact solver's own multipliers show more

    def test_slightly_wrong_values(self):
        verified = self.problem.verify({"x": self.found.x + 1e-8})
        self.assertFalse(verified.feasible)
        self.assertIn(self.rules[1], verified.broken)
        self.assertAlmostEqual(float(verified.broken[self.rules[1]]), 4e-8, delta=1e-12)
        self.holds(verified, 1e-7)
        self.keeps(verified.point[self.x])
        self.assertTrue(0 < verified.moved < Fraction(1, 10**7))
        self.assertIn("sum(x) == 3", str(verified))

    def test_badly_wrong_values(self):
        verified = self.problem.verify({"x": self.found.x + 0.3})
        self.assertFalse(verified.feasible)
        self.assertAlmostEqual(float(verified.broken[self.rules[1]]), 1.2, delta=1e-9)
        self.assertEqual((verified.point, verified.moved, verified.gap), (None, None, None))
        self.assertIsNone(verified.interval.point)
        self.assertGreaterEqual(verified.interval.high, self.best)
        self.assertIn("nearest feasible point", verified.why)
        negative = self.problem.verify({"x": [-1, 2, 1, 1]})
        self.assertEqual(negative.broken[self.x], 1)

    def test_feasible_values_that_are_not_the_best(self):
        verified = self.problem.verify({"x": [0.75] * 4})
        self.assertEqual((verified.feasible, verified.moved, verified.broken), (True, 0, {}))
        self.assertEqual(verified.value, verified.interval.low)
        self.assertAlmostEqual(float(verified.gap), float(self.best) - 0.75 * self.c.sum(), places=8)
        self.assertIn("keep all constraints", str(verified))

    def test_the_program_catches_a_search_that_lies(self):
        asked = asking.asked

        def lie(*arguments, **options):
            made, *rest = asked(*arguments, **options)
            script, certificate = made.lower
            made.lower = (script, certificate.replace("\ngap ", "\ngap 9"))
            return (made, *rest)

        with mock.patch.object(asking, "asked", lie), self.assertRaises(CertificateError):
            self.problem.verify({"x": self.found.x})

    def test_what_is_no_answer(self):
        for values, error in (
            ({}, KeyError),
            ({"x": None}, KeyError),
            ({"y": [1] * 4}, KeyError),
            ({"x": [1, 2]}, ValueError),
            ({"x": [1, 2, 3, float("nan")]}, ValueError),
        ):
            with self.assertRaises(error):
                self.problem.verify(values)
        with self.assertRaisesRegex(ValueError, "two values of x: by itself, and by its name"):
            self.problem.verify({"x": [1] * 4, self.x: [2] * 4})
        with self.assertRaises(KeyError):
            self.problem.verify({"x": [1] * 4}, {self.x >= 1: 1})
        with self.assertRaises(ValueError):
            self.problem.verify({"x": [1] * 4}, {self.rules[0]: [1, 2]})
        y, z = cp.Variable(name="y"), cp.Variable(name="y")
        with self.assertRaisesRegex(KeyError, "'y' is the name of 2 variables"):
            cp.Problem(cp.Minimize(y + z), [y >= 1, z >= 2]).verify({"y": 1})
        for given in ((self.found.x,), (None,), ({"x": [1] * 4}, [1, 2])):
            with self.assertRaisesRegex(TypeError, "in a dictionary"):
                self.problem.verify(*given)
        X = cp.Variable((2, 3), name="X")
        rule = X >= 1
        told = r"the shape \(3, 2\) are given for X >= 1, which has the shape \(2, 3\)"
        with self.assertRaisesRegex(ValueError, told):
            cp.Problem(cp.Minimize(cp.sum(X)), [rule]).verify({X: np.ones((2, 3))}, {rule: np.ones((3, 2))})
        for limit in ({"time_limit": 0}, {"time_limit": "9"}, {"box": 0}):
            with self.assertRaises(ValueError):
                self.problem.verify({"x": [0.75] * 4}, **limit)
        whole = cp.Variable(integer=True, name="w")
        with self.assertRaises(UnsupportedError):
            cp.Problem(cp.Minimize(whole), [whole >= 1.5]).verify({"w": 2})


class Fits(unittest.TestCase):
    def test_atoms_get_their_weights(self):
        """No solver tells multipliers of absolute values: they are found beside those that it tells."""
        problem, x, found = wide.fit(6, 4, 10, 3)
        limit = cp.norm_inf(x) <= 1
        limited = cp.Problem(problem.objective, [limit])
        limited.solve()
        verified = limited.verify({"x": x.value}, {limit: limit.dual_value})
        self.assertTrue(verified.interval.low <= limited.exact <= verified.interval.high)
        self.assertLess(verified.interval.width, 1e-9)
        free = problem.verify({x: found.x[:4]}, box=100)
        problem.solve()
        self.assertTrue(free.interval.low <= problem.exact <= free.interval.high)
        self.assertLess(free.interval.width, 1e-9)
        self.assertTrue(free.feasible)
        self.assertEqual((free.interval.box, free.interval.boxed), (100, ("x",)))


if __name__ == "__main__":
    unittest.main()
