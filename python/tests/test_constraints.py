"""Constraints: their sides, what breaks them, and what the rules say of them."""
from __future__ import annotations

import pickle
import unittest
from fractions import Fraction

import numpy as np

import dcx.cvxpy as cp
from dcx.arrays import array_of
from dcx.constraints import Constraint
from dcx.errors import UnsupportedError


class Sides(unittest.TestCase):
    """What comparisons record."""

    def test_each_sign_on_either_side(self):
        x = cp.Variable(3, "x")
        a = np.array([1, 2, 3])
        for made, op, left_is_x, text in [
            (x <= 2, "<=", True, "x <= 2"), (x >= 2, "<=", False, "x >= 2"), (2 <= x, "<=", False, "x >= 2"),
            (2 >= x, "<=", True, "x <= 2"),
            (x == 2, "==", True, "x == 2"), (2 == x, "==", True, "x == 2"), (x <= a, "<=", True, "x <= [1, 2, 3]"),
            (x >= a, "<=", False, "x >= [1, 2, 3]"),
            (a <= x, "<=", False, "[1, 2, 3] <= x"), (a >= x, "<=", True, "[1, 2, 3] >= x"),
            (np.int64(2) <= x, "<=", False, "2 <= x"),
            (np.float64(2) >= x, "<=", True, "2 >= x"), (x == a, "==", True, "x == [1, 2, 3]"),
        ]:
            with self.subTest(text):
                self.assertIsInstance(made, Constraint)
                self.assertEqual(made.op, op)
                self.assertEqual(made.args[0] is x, left_is_x)
                self.assertEqual(str(made), text)
                self.assertEqual(made.shape, (3,))
        made = a == x
        self.assertIsInstance(made, Constraint)
        self.assertEqual((made.op, made.shape), ("==", (3,)))

    def test_shapes(self):
        X = cp.Variable((2, 3))
        self.assertEqual((X <= 1).shape, (2, 3))
        self.assertEqual((X >= np.ones(3)).shape, (2, 3))
        self.assertEqual((X == np.ones((2, 1))).size, 6)
        self.assertEqual((cp.Variable((1, 1)) <= cp.Variable(3)).shape, (3,))
        self.assertRaises(ValueError, lambda: X <= np.ones(2))
        self.assertRaises(ValueError, lambda: X == X.T)
        self.assertRaises(TypeError, lambda: X == "x")

    def test_classes_of_comparisons(self):
        x = cp.Variable(2, "x")
        kinds = [cp.Zero, cp.NonNeg, cp.NonPos, cp.constraints.Equality, cp.constraints.Inequality]
        for made, kind in [(x == 0, cp.constraints.Equality), (0 == x, cp.constraints.Equality),
                           (x <= 0, cp.constraints.Inequality), (x >= 0, cp.constraints.Inequality),
                           (cp.Zero(x), cp.Zero), (cp.NonNeg(x), cp.NonNeg), (cp.NonPos(x), cp.NonPos)]:
            self.assertIsInstance(made, cp.Constraint)
            self.assertEqual([isinstance(made, one) for one in kinds], [one is kind for one in kinds], str(made))
            self.assertEqual(repr(made), f"{kind.__name__}({made})")
            self.assertIs(type(pickle.loads(pickle.dumps(made))), kind)

        with self.assertRaisesRegex(TypeError, "made by <=, >= or =="):
            cp.Constraint(x, 1)

    def test_constraints_of_one_expression(self):
        x = cp.Variable((2, 2), "x")
        x.value = point = np.array([[1, -1], [0, 2.5]])
        wanted = {cp.Zero: abs(point), cp.NonNeg: np.maximum(-point, 0), cp.NonPos: np.maximum(point, 0)}
        for kind, text in ((cp.Zero, "x == 0"), (cp.NonNeg, "x >= 0"), (cp.NonPos, "x <= 0")):
            made = kind(x)
            self.assertEqual((made.args, str(made), made.shape, made.size), ((x,), text, (2, 2), 4))
            self.assertIs(made.expr, x)
            np.testing.assert_array_equal(made.residual, wanted[kind])
            np.testing.assert_array_equal(made.violation(), wanted[kind])
            self.assertEqual(made.site.text, "made = kind(x)")
            self.assertFalse(made.value(0.5))
            self.assertTrue(made.value(2.5))
            self.assertIsNone(made.dual_value)
            self.assertRaises(TypeError, lambda: kind("x"))
        self.assertEqual([kind(cp.abs(x)).is_dcp() for kind in wanted], [False, False, True])

    def test_multipliers_of_one_expression(self):
        """Least 2a + 3b where a + b is 4, both are at least 1, and a is at most 9: a is 3, so its bounds have none."""
        x = cp.Variable(2)
        total, least, most = cp.Zero(cp.sum(x) - 4), cp.NonNeg(x - 1), cp.NonPos(x[:1] - 9)
        problem = cp.Problem(cp.Minimize(2 * x[0] + 3 * x[1]), [total, least, most])
        self.assertEqual((problem.solve(), x.value.tolist()), (9, [3, 1]))
        # (2, 3) + y (1, 1) - z is 0, with z of the bounds, which has no first entry
        self.assertEqual((total.dual_value, least.dual_value.tolist(), most.dual_value.tolist()), (-2, [0, 1], [0]))
        self.assertEqual(problem.size_metrics[2:], (1, 3))

    def test_sides_of_one_entry_fit_the_others(self):
        X, s = cp.Variable(3), cp.Variable((1, 1))
        for kind in (cp.constraints.Equality, cp.constraints.Inequality):
            problem = cp.Problem(cp.Minimize(cp.sum(X)), [kind(s, X), s == 2])
            self.assertEqual((problem.solve(), X.value.tolist()), (6, [2, 2, 2]))

    def test_parts(self):
        x, p = cp.Variable(2, "x"), cp.Parameter(name="p")
        made = p * x <= x[0] + 3
        self.assertEqual([item.name() for item in made.variables() + made.parameters()], ["x", "p"])
        self.assertEqual(made.site.file, __file__)
        self.assertEqual(made.site.text, "made = p * x <= x[0] + 3")
        self.assertEqual(made.expr.shape, (2,))
        self.assertEqual(len({made, made, x <= 1}), 2)
        self.assertTrue(made in [x <= 0, made])
        self.assertFalse(made in [x <= 0])

    def test_no_truth_value(self):
        x = cp.Variable()
        for ask in [lambda: bool(x <= 1), lambda: 1 >= x >= 0, lambda: 0 <= x <= 1, lambda: (x <= 1) <= 2,
                    lambda: (x <= 1) == 2 or (x >= 1) > 1,
                    lambda: not x == 1, lambda: 1 if x >= 0 else 2, lambda: (x >= 0) and (x <= 1)]:
            with self.assertRaisesRegex(UnsupportedError, "truth value"):
                ask()


class Values(unittest.TestCase):
    """What breaks a constraint, and its multipliers."""

    def test_violation(self):
        x = cp.Variable(3)
        a = np.array([1, 2, 3])
        made = [x <= a, x >= a, x == a]
        for constraint in made:
            self.assertIsNone(constraint.residual)
            self.assertRaises(ValueError, constraint.violation)
            self.assertRaises(ValueError, constraint.value)
        x.value = [2, 2, Fraction(5, 3)]
        gap = np.array(x.value) - a
        for constraint, wanted in zip(made, [np.maximum(gap, 0), np.maximum(-gap, 0), abs(gap)]):
            np.testing.assert_allclose(constraint.violation(), wanted)
            self.assertFalse(constraint.value())
        self.assertEqual(made[1].exact_residual[2], Fraction(4, 3))
        self.assertTrue(made[1].value(Fraction(4, 3)))
        x.value = a
        self.assertTrue(all(constraint.value() for constraint in made))

    def test_broadcast_violation(self):
        X, s = cp.Variable((2, 3)), cp.Variable((1, 1))
        X.value, s.value = np.arange(6).reshape(2, 3), [[2]]
        np.testing.assert_array_equal((X <= s).residual, np.maximum(X.value - 2, 0))
        np.testing.assert_array_equal((X[0] >= s).residual, [2, 1, 0])
        np.testing.assert_array_equal((X == np.array([[1], [2]])).residual, abs(X.value - [[1], [2]]))

    def test_multipliers(self):
        made = cp.Variable((2, 2)) <= 1
        self.assertIsNone(made.dual_value)
        self.assertIsNone(made.exact_dual)
        made._set_dual(array_of([1, Fraction(1, 3), 0, 2]))
        np.testing.assert_array_equal(made.dual_value, [[1, 1 / 3], [0, 2]])
        self.assertEqual(made.exact_dual[0, 1], Fraction(1, 3))
        made._set_dual(None)
        self.assertIsNone(made.dual_value)

    def test_duals_of_a_problem(self):
        x, s = cp.Variable(2), cp.Variable((1, 1))
        constraints = [x >= [2, 3], x[0] + s == 1, s <= 5, x[:0] >= 7]
        problem = cp.Problem(cp.Minimize(cp.sum(x) + 2 * s), constraints)
        problem.solve()
        self.assertEqual(problem.status, "unbounded")
        problem = cp.Problem(cp.Minimize(cp.sum(x) - 2 * s), constraints)
        self.assertEqual(problem.solve(), 7)
        self.assertEqual(constraints[0].dual_value.tolist(), [3, 1])
        self.assertEqual(constraints[1].dual_value.tolist(), [[2]])
        self.assertEqual(constraints[2].dual_value.tolist(), [[0]])
        self.assertEqual(constraints[3].dual_value.shape, (0,))


class Rules(unittest.TestCase):
    """What the rules accept."""

    def test_curvatures(self):
        x, p = cp.Variable(2), cp.Parameter(nonneg=True)
        for made, is_dcp, is_dpp in [
            (cp.abs(x) <= 1, True, True), (cp.abs(x) >= 1, False, False), (cp.minimum(x, 0) >= p, True, True),
            (x == 1, True, True), (cp.abs(x) == 1, False, False),
            (p * cp.abs(x) <= 1, True, True), (p * p * x <= 1, True, False),
            (cp.abs(x) <= cp.minimum(x, 1), True, True), (cp.abs(x) - 1 <= cp.max(x), False, False),
        ]:
            with self.subTest(str(made)):
                self.assertEqual((made.is_dcp(), made.is_dpp(), made.is_dcp(dpp=True)), (is_dcp, is_dpp, is_dpp))

    def test_there_is_one_set_of_rules(self):
        x = cp.Variable()
        least = cp.Minimize(x)
        for one in (x + 1, x >= 1, least, cp.Problem(least)):
            self.assertTrue(one.is_dpp("dcp"))
            with self.assertRaisesRegex(UnsupportedError, "no rules of the name 'dgp'"):
                one.is_dpp("dgp")


if __name__ == "__main__":
    unittest.main()
