"""Operators, broadcasting, indices, attributes and values of expressions, beside NumPy's."""
from __future__ import annotations

import itertools
import os
import random
import subprocess
import sys
import textwrap
import unittest
import warnings
from fractions import Fraction

import numpy as np
from scipy import sparse

import dcx.cvxpy as cp
from dcx.constraints import Constraint
from dcx.errors import UnsupportedError
from dcx.expressions import Expression
from dcx.trees import postorder

from .recorded import program_value, variable, weights_of

SHAPES = [(), (1,), (3,), (1, 1), (1, 3), (2, 1), (2, 3)]


def cvxpy_pair(a, b):
    """Two arrays as CVXPY takes them beside each other: one entry has no sides of its own."""
    if a.size == 1 and b.size > 1:
        a = a.reshape(())
    if b.size == 1 and a.size > 1:
        b = b.reshape(())
    return a, b


def cvxpy_product(a, b):
    """What CVXPY's `*` makes of two arrays of which one has one entry: the matrix product where their sides fit."""
    if a.ndim and b.ndim and a.shape[-1] == b.shape[0]:
        return a @ b
    p, q = cvxpy_pair(a, b)
    return p * q


class Operators(unittest.TestCase):
    """Python's operators between expressions, arrays and numbers, in both orders."""

    def same(self, expression, wanted, by_program=True):
        wanted = np.asarray(wanted, dtype=float)
        self.assertIsInstance(expression, Expression)
        self.assertEqual(expression.shape, wanted.shape, str(expression))
        np.testing.assert_allclose(np.asarray(expression.value, dtype=float), wanted, rtol=0, atol=1e-12,
                                   err_msg=str(expression))
        if by_program:
            self.assertAlmostEqual(float(program_value(expression)), float((weights_of(wanted.shape) * wanted).sum()),
                                   9, str(expression))

    def test_sums_of_all_shapes(self):
        rng = random.Random(1)
        for left, right in itertools.product(SHAPES, SHAPES):
            x, y = variable(rng, left), variable(rng, right)
            a, b = np.asarray(x.value), np.asarray(y.value)
            p, q = cvxpy_pair(a, b)
            try:
                wanted = p + q, p - q
            except ValueError:
                for ask in (lambda: x + y, lambda: x - y, lambda: x <= y, lambda: x == y, lambda: cp.multiply(x, b)):
                    self.assertRaises(ValueError, ask)
                continue
            with self.subTest(left=left, right=right):
                self.same(x + y, wanted[0])
                self.same(x - y, wanted[1])
                self.same(x + b, p + q, False)
                self.same(a + y, p + q, False)
                self.same(a - y, p - q, False)
                self.same(x - b, p - q, False)
                self.same(cp.multiply(a, y), p * q)
                self.same(cp.multiply(x, b), p * q, False)

    def test_one_entry_of_two_sides_beside_a_vector(self):
        s, x, a = variable_at([[2.5]]), variable_at([1, -2, 4]), np.array([3.0, 1, 2])
        for made, wanted in [(s + x, 2.5 + x.value), (x + s, 2.5 + x.value), (s - x, 2.5 - x.value),
                             (x - s, x.value - 2.5), (s * a, 2.5 * a), (a * s, 2.5 * a),
                             (cp.multiply(a, s), 2.5 * a), (s / a, 2.5 / a), (x / np.array([[2]]), x.value / 2)]:
            # a product with it has to be that of two vectors in the program's language too
            self.same(made @ a, wanted @ a)
            self.same(a @ made, wanted @ a)
        for made in (s <= x, x <= s, s == x, x >= s):
            self.assertEqual({side.ndim for side in made.args}, {0, 1})

    def test_products_and_quotients(self):
        rng = random.Random(2)
        for left, right in itertools.product(SHAPES, SHAPES):
            x, y = variable(rng, left), variable(rng, right)
            a, b = np.asarray(x.value), np.where(np.asarray(y.value) == 0, 2.5, y.value)
            p, q = cvxpy_pair(a, b)
            with self.subTest(left=left, right=right):
                try:
                    wanted = p / q
                except ValueError:
                    self.assertRaises(ValueError, lambda: x / b)
                else:
                    self.same(x / b, wanted)
                if a.size == 1 or b.size == 1:
                    self.same(x * b, cvxpy_product(a, b))
                    self.same(b * x, cvxpy_product(b, a))
                try:
                    wanted = a @ b
                except ValueError:
                    self.assertRaises(ValueError, lambda: x @ b)
                    self.assertRaises(ValueError, lambda: a @ y)
                else:
                    self.same(x @ b, wanted)
                    self.same(a @ variable_at(b), wanted)

    def test_star_is_the_matrix_product_of_what_has_more_entries(self):
        x, A = cp.Variable(3), np.array([[1, 2, 3], [4, 5, 6]])
        x.value = [1, -1, 2]
        with self.assertWarns(UserWarning) as caught:
            product = A * x
        self.assertEqual(caught.filename, __file__)
        self.same(product, A @ [1, -1, 2])
        with self.assertWarns(UserWarning):
            self.same(x * [1, 2, 3], 5)
        with warnings.catch_warnings():
            warnings.simplefilter("error")
            cp.disable_warnings()
            try:
                x * np.ones(3)
                self.assertFalse(cp.warnings_enabled())
            finally:
                cp.enable_warnings()
            self.assertRaises(UserWarning, lambda: x * np.ones(3))
        self.assertRaises(ValueError, lambda: A * cp.Variable(2))

    def test_numbers_of_each_kind(self):
        x = cp.Variable(2)
        x.value = [4, 6]
        for number in [3, 3.0, Fraction(3), np.float64(3), np.int32(3), np.float32(3), np.array(3), np.array([[3]]),
                       True + 2]:
            self.same(x + number, [7, 9], False)
            self.same(number + x, [7, 9], False)
            self.same(number - x, [-1, -3], False)
            self.same(number * x, [12, 18], False)
            self.same(x * number, [12, 18], False)
            self.same(x / number, [4 / 3, 2], False)
            self.same(-x + number, [-1, -3], False)
            self.same(+x, [4, 6], False)

    def test_what_numpy_begins(self):
        x = cp.Variable(3)
        x.value = [1, 2, 3]
        a = np.array([1.0, -1, 0.5])
        self.same(np.add(a, x), a + [1, 2, 3], False)
        self.same(np.subtract(x, a), [1, 2, 3] - a, False)
        self.same(np.matmul(a, x), a @ [1, 2, 3], False)
        self.same(np.divide(x, 2), [0.5, 1, 1.5], False)
        self.same(np.multiply(2.0, x), [2, 4, 6], False)
        # the expression comes first, as where a list stands before `==`
        for made in (a == x, np.equal(a, x), np.equal(x, a), np.float64(3) == x, np.array(3) == x, [1, 2, 3] == x):
            self.assertIs(made.args[0], x)
        self.assertEqual([side is x for made in (a <= x, a >= x) for side in made.args], [False, True, True, False])
        total = np.zeros(3)
        total += x
        self.same(total, [1, 2, 3], False)
        total -= 2 * x
        self.same(total, [-1, -2, -3], False)
        self.same(np.sum(x), 6, False)
        self.same(np.mean(x), 2, False)
        self.same(np.max(x), 3, False)
        self.same(np.transpose(x.reshape((1, 3))), [[1], [2], [3]], False)
        self.assertEqual((np.shape(x), np.ndim(x), np.size(x)), ((3,), 1, 3))
        self.same(np.sum([x[0], x[1]]), 3, False)
        self.same(np.array([x[0], x[1]]) @ np.array([2, 3]), 8, False)
        self.same(cp.hstack(np.array([x[0], x[1]])), [1, 2], False)
        for ask in [lambda: np.abs(x), lambda: np.exp(x), lambda: np.dot(a, x), lambda: np.linalg.norm(x),
                    lambda: np.maximum(x, 0), lambda: np.vstack([x, x]),
                    lambda: np.concatenate([x, x]), lambda: np.add.reduce(x), lambda: np.less(a, x),
                    lambda: np.cumsum(x)]:
            with self.assertRaises(UnsupportedError) as caught:
                ask()
        with self.assertRaisesRegex(UnsupportedError, "cp.maximum"):
            np.maximum(a, x)

    def test_sparse_matrices_on_either_side(self):
        rng = random.Random(4)
        X = variable(rng, (2, 2))
        M = np.array([[0, 2.0], [-1, 0]])
        for make in (sparse.csr_matrix, sparse.csc_matrix, sparse.csr_array):
            self.same(make(M) @ X, M @ X.value)
            self.same(X @ make(M), X.value @ M)
            self.same(X + make(M), X.value + M)
            self.same(make(M) + X, M + X.value)
            self.same(make(M) - X, M - X.value)
            self.same(cp.multiply(make(M), X), M * X.value)
            self.assertEqual((X <= make(M)).shape, (2, 2))
            self.assertEqual(cp.Constant(make(M)).array.nonzeros, 2)

    def test_sparse_matrices_before_a_comparison(self):
        X = cp.Variable((2, 2))
        dense = np.array([[0, 1.5], [2, 0]])
        for make in (sparse.csr_matrix, sparse.csc_matrix, sparse.coo_matrix, sparse.dok_matrix, sparse.lil_matrix,
                     sparse.dia_matrix, sparse.bsr_matrix, sparse.csr_array):
            S = make(dense)
            for made, text in ((S == X, "=="), (S <= X, ">="), (S >= X, "<=")):
                self.assertIsInstance(made, Constraint)
                self.assertEqual(made.name().split()[1], text)
            np.testing.assert_array_equal((S == 1.5).toarray(), dense == 1.5)

    def test_tables_before_an_operator(self):
        """Code of a file in a folder `pandas` stands for pandas, which would repeat the outcome for each row."""
        for line in ("np.array([1, 2]) * x", "np.array([1, 2]) - x", "np.array([1, 2]) <= x"):
            code = compile(line, os.path.join(os.sep, "pandas", "core", "ops.py"), "eval")
            with self.assertRaisesRegex(UnsupportedError, "table.values") as caught:
                eval(code, {"np": np, "x": cp.Variable(2)})
            self.assertEqual(caught.exception.site.file, __file__)

    def test_in_place_makes_a_new_expression(self):
        x = cp.Variable(2)
        x.value = [1, 2]
        first = total = x + 1
        total += x
        total -= 3
        total *= 2
        total /= 4
        self.same(total, [0, 1])
        self.same(first, [2, 3])

    def test_sum_and_other_functions_of_python(self):
        x = cp.Variable(3)
        x.value = [1, -5, 2]
        self.same(sum(x), -2)
        self.same(sum(x[i] * i for i in range(3)), -1)
        self.same(sum([]) + x, [1, -5, 2])
        self.same(abs(x), [1, 5, 2])
        self.same(0 + x, [1, -5, 2])
        self.assertIs(x + np.zeros(3), x)
        self.same(x[0] + np.zeros(3), [1, 1, 1])
        for ask in [lambda: max(x), lambda: max(x[0], x[1]), lambda: min(x[0], 1), lambda: sorted(x)]:
            self.assertRaises(UnsupportedError, ask)

    def test_a_sum_of_thousands(self):
        x = cp.Variable(3000)
        x.value = list(range(3000))
        total = sum(x[i] for i in range(3000))
        self.assertEqual(total.value, 3000 * 2999 / 2)
        self.assertEqual(len(total.variables()), 1)
        self.assertEqual(sum(1 for _ in postorder([total])), 3000 + 2999 + 1)
        self.assertLess(len(str(total)), 200)

    def test_powers(self):
        x = cp.Variable(2)
        self.assertIs(x ** 1, x)
        self.assertEqual((cp.Constant([1, 2, Fraction(1, 3)]) ** 2).exact.tolist(), [1, 4, Fraction(1, 9)])
        self.assertEqual((cp.Constant(2) ** -1).value, 0.5)
        for ask in [lambda: x ** 2, lambda: x ** 0.5, lambda: 2 ** x, lambda: x ** x, lambda: x // 2, lambda: x % 2,
                    lambda: cp.Constant(2) ** 0.5]:
            self.assertRaises(UnsupportedError, ask)

    def test_faults(self):
        x = cp.Variable(3)
        for ask in [lambda: x @ 2, lambda: 2 @ x, lambda: x @ np.ones((2, 3)), lambda: x + np.ones(2),
                    lambda: x + [1, 2], lambda: x + float("nan"),
                    lambda: x + np.inf, lambda: x <= np.array([1, np.nan, 2]), lambda: x + [x, x, x],
                    lambda: cp.Constant([[1, 2], [3]])]:
            self.assertRaises(ValueError, ask)
        for ask in [lambda: x / 0, lambda: x / np.array([1, 0, 2])]:
            self.assertRaises(ZeroDivisionError, ask)
        for ask in [lambda: x + "1", lambda: x + None, lambda: x + 1j, lambda: x + {1, 2, 3}, lambda: x + object(),
                    lambda: len(x[0]), lambda: list(x[0])]:
            self.assertRaises(TypeError, ask)
        with self.assertRaises(UnsupportedError):
            x[0] = 3
        for ask in (lambda: x in [cp.Variable()], lambda: 3 in x):
            self.assertRaises(UnsupportedError, ask)


def variable_at(value):
    """A variable with this value."""
    x = cp.Variable(np.shape(value))
    x.value = value
    return x


class Indices(unittest.TestCase):
    """Indices, against NumPy's."""

    VECTOR = [0, -1, np.int64(2), slice(None), slice(1, 4), slice(None, None, -1), slice(5, 0, -2), slice(-3, None),
              slice(0, 100), slice(4, 2, -1),
              [0, 2], [2, 0, 1], [1, 1, 4], [-1, 0], (), ..., None, (None, slice(None)), (slice(None), None),
              (slice(1, 4), None), (..., None),
              np.array([3, 1, 0, 5]), np.array([[0, 1], [3, 5]]), [[0, 1, 2], [3, 4, 5]],
              [True, False, True, True, False, False],
              np.array([False, True, False, True, False, True]), range(1, 6, 2), [0, 1, 2, 3, 5], ([1, 2],), [4],
              [0, 3, 1, 2, 4, 5]]
    MATRIX = [0, -1, (1, 2), (-1, -4), (slice(None), 0), (0, slice(None)), (slice(1, None), slice(None, None, 2)),
              (slice(None, None, -1), slice(3, 0, -1)),
              slice(1, 3), ..., (..., 1), (1, ...), (slice(0, 2),), (1, None), (None, 2), [0, 2], [2, 0, 1],
              (slice(None), [3, 1]), (slice(None), [0, 1, 3]),
              ([0, 1], slice(1, 3)), ([0, 2], [1, 3]), ([0, 1, 2], [0, 1, 2]), (1, [0, 3]), ([2, 0], 1),
              (slice(0, 2), [1, 2]), ([1, 0], slice(None, None, -1)),
              np.ix_([0, 2], [1, 2]), np.ix_([2, 1, 0], [3, 0]), np.ix_([0, 1], [0, 1, 3]),
              (np.array([[0, 1], [2, 0]]), np.array([[1, 1], [3, 0]])),
              (np.array([[0], [1]]), np.array([1, 3])), np.array([True, False, True]),
              (slice(None), np.array([True, False, False, True])),
              (np.array([True, False, True]), 2), ([0, 0, 1], [0, 0, 3]), ([0, 0, 0, 1], [0, 1, 2, 2]), (),
              (slice(None), slice(None)), np.array([1, 2]),
              ([True, False, True], [1, 2]), ([-1, 0], [-1, 0])]

    def same(self, x, key, by_program=True):
        wanted = np.asarray(x.value)[key]
        found = x[key]
        self.assertEqual(found.shape, wanted.shape, repr(key))
        np.testing.assert_array_equal(np.asarray(found.value), wanted, repr(key))
        if by_program:
            self.assertEqual(float(program_value(found)), float((weights_of(wanted.shape) * wanted).sum()), repr(key))

    def test_a_vector(self):
        x = variable_at([1, -2, 3.5, 4, 9, -7])
        for key in self.VECTOR:
            with self.subTest(key=repr(key)):
                self.same(x, key)

    def test_a_matrix(self):
        x = variable_at(np.arange(12.0).reshape(3, 4) ** 2 / 4)
        for key in self.MATRIX:
            with self.subTest(key=repr(key)):
                self.same(x, key)

    def test_masks_of_a_matrix(self):
        rng = np.random.default_rng(1)
        x = variable_at(np.arange(12.0).reshape(3, 4))
        for share in (0.2, 0.5, 0.9, 1):
            mask = rng.random((3, 4)) <= share
            self.same(x, mask)
            self.assertEqual(x[mask].size, mask.sum())

    def test_lists_at_random(self):
        rng = np.random.default_rng(2)
        x, X = variable_at(np.arange(20.0)), variable_at(np.arange(56.0).reshape(7, 8))
        for _ in range(60):
            count = rng.integers(1, 9)
            self.same(x, rng.integers(-20, 20, count), False)
            self.same(x, np.sort(rng.integers(0, 20, count)), False)
            rows, columns = rng.integers(-7, 7, count), rng.integers(-8, 8, count)
            for key in [rows, (slice(None), columns), (rows, columns), (rows[0], columns), (rows, columns[0]),
                        np.ix_(rows, columns),
                        (slice(5, None, -2), columns), (np.sort(rows), 3)]:
                self.same(X, key, False)
            self.same(X, (rng.integers(0, 7, (2, 3)), rng.integers(0, 8, (2, 3))), False)

    def test_an_index_of_an_index_is_one(self):
        X = variable_at(np.arange(56.0).reshape(7, 8))
        rng = random.Random(3)

        def part(side):
            start, stop, step = rng.randint(-side, side), rng.randint(-side, side), rng.choice([1, 2, -1, -3])
            return slice(start, stop, step)

        for _ in range(200):
            outer = (part(7), part(8))
            wanted = np.asarray(X.value)[outer]
            if not wanted.size:
                self.assertEqual(X[outer].shape, wanted.shape)
                continue
            inner = rng.choice([(part(wanted.shape[0]), 0), (-1, part(wanted.shape[1])), (0, -1),
                                part(wanted.shape[0])])
            found = X[outer][inner]
            np.testing.assert_array_equal(np.asarray(found.value), wanted[inner])
            self.assertIn(found.kind, ("index", "constant"))
            self.assertTrue(found.kind == "constant" or found.args[0] is X)

    def test_masks_and_runs_become_few_slices(self):
        x, X = cp.Variable(1000), cp.Variable((40, 50))
        self.assertEqual(x[list(range(10, 900))].kind, "index")
        self.assertEqual(x[np.arange(1000) % 3 == 0].kind, "index")
        self.assertEqual(x[list(range(900, 3, -7))].kind, "index")
        self.assertEqual([part.kind for part in x[[5, 1, 2, 3, 4, 9]].args], ["index"] * 3)
        self.assertEqual(len(x[np.arange(1000) != 500].args), 2)
        self.assertEqual(X[np.arange(40) % 2 == 1].kind, "index")
        self.assertEqual(sum(1 for _ in postorder([X[np.arange(40) != 7][:, np.arange(50) != 9]])), 7)
        self.assertLess(sum(1 for _ in postorder([X[np.tri(40, 50) > 0]])), 50)

    def test_entries_of_constants_are_constants(self):
        c = cp.Constant(np.arange(12).reshape(3, 4))
        for key in [1, (1, 2), (slice(None), [0, 3]), np.array([True, False, True])]:
            self.assertEqual(c[key].kind, "constant")
            np.testing.assert_array_equal(c[key].value, np.arange(12).reshape(3, 4)[key])

    def test_what_has_no_entries(self):
        x, X = cp.Variable(3), cp.Variable((2, 3))
        mask = np.array([False, False, False])
        for empty, shape in [(x[3:], (3,)), (x[mask], (0,)), (x[:0], (0,)), (X[2:], (0, 3)), (X[:, mask], (2, 0)),
                             (x[[]], (0,)), (X[X.shape[0]:, 1], (0,))]:
            if shape != (3,):
                self.assertEqual(empty.shape, shape)
            self.assertEqual(empty.size, 0)
            self.assertEqual((empty <= 3).size, 0)
            self.assertEqual(cp.sum(empty).value, 0)
            self.assertEqual((2 * empty + 1).size, 0)
            self.assertEqual(cp.abs(empty).shape, empty.shape)
        self.assertEqual(cp.sum(X[2:], axis=0).value.tolist(), [0, 0, 0])
        self.assertEqual((np.ones((2, 0)) @ x[:0]).value.tolist(), [0, 0])

    def test_iteration(self):
        x, X = variable_at([1, 2, 3]), variable_at(np.arange(6.0).reshape(2, 3))
        self.assertEqual([item.value for item in x], [1, 2, 3])
        self.assertEqual([[item.value for item in row] for row in X], [[0, 1, 2], [3, 4, 5]])
        self.assertEqual((len(x), len(X)), (3, 2))
        self.assertEqual([item.value for item in X.flat], [0, 3, 1, 4, 2, 5])
        first, *rest = x
        self.assertEqual((first.value, len(rest)), (1, 2))
        self.assertEqual([(a.value, b) for a, b in zip(x, "abc")], [(1, "a"), (2, "b"), (3, "c")])

    def test_refused(self):
        x, X = cp.Variable(3), cp.Variable((2, 3))
        for ask in [lambda: x[3], lambda: x[-4], lambda: x[0, 0], lambda: X[2], lambda: X[0, 3], lambda: X[0, 0, 0],
                    lambda: x[[0, 3]], lambda: x[1.0],
                    lambda: x["a"], lambda: x[True], lambda: x[[True, False]], lambda: X[np.ones((3, 2), bool)],
                    lambda: X[..., ..., 0], lambda: x[x],
                    lambda: X[:, :, None], lambda: x[[0.5]], lambda: X[[0, 1], [0, 1, 2]], lambda: cp.Variable()[0],
                    lambda: x[None, None, :],
                    lambda: X[np.zeros((2, 2), int)], lambda: X[None, [0]], lambda: x[0.0:2]]:
            with self.assertRaises((IndexError, ValueError)):
                ask()


class Leaves(unittest.TestCase):
    """Variables, parameters and constants."""

    def test_declarations(self):
        x = cp.Variable(3, "x")
        self.assertEqual((x.shape, x.name(), x.given_name, x.ndim, x.size), ((3,), "x", "x", 1, 3))
        self.assertEqual(cp.Variable((2, 3), name="y").shape, (2, 3))
        self.assertEqual(cp.Variable(np.int64(4)).shape, (4,))
        self.assertEqual(cp.Variable([2, 3]).shape, (2, 3))
        self.assertEqual(cp.Variable().shape, ())
        self.assertIsNone(cp.Variable().given_name)
        self.assertEqual(len({cp.Variable().id for _ in range(9)}), 9)
        self.assertEqual(str(x), "x")
        for ask in [lambda: cp.Variable(0), lambda: cp.Variable(-1), lambda: cp.Variable((2, 3, 4)),
                    lambda: cp.Variable(2.0), lambda: cp.Variable("x"),
                    lambda: cp.Variable((3, 2), symmetric=True), lambda: cp.Variable(3, diag=True),
                    lambda: cp.Variable(nonneg=True, nonpos=True),
                    lambda: cp.Variable((2, 2), symmetric=True, diag=True),
                    lambda: cp.Variable(boolean=True, integer=True), lambda: cp.Variable(True)]:
            self.assertRaises(ValueError, ask)
        for ask in [lambda: cp.Variable(3, color=True), lambda: cp.Variable(3, 4), lambda: cp.Parameter(name=3)]:
            self.assertRaises(TypeError, ask)
        for word in ("PSD", "NSD", "complex", "imag", "hermitian", "sparsity"):
            with self.assertRaisesRegex(UnsupportedError, word):
                cp.Variable((2, 2), **{word: True})
        for ask in [lambda: cp.Variable(3, boolean=[0]), lambda: cp.Variable(3, integer=[(1,)]),
                    lambda: cp.Variable(3, var_id=4)]:
            self.assertRaises(UnsupportedError, ask)
        self.assertEqual(cp.Variable(3, PSD=False).shape, (3,))

    def test_attributes_of_the_language(self):
        for given, said in [({}, ()), ({"nonneg": True}, ("nonneg",)), ({"pos": True}, ("nonneg",)),
                            ({"neg": True}, ("nonpos",)), ({"boolean": True}, ("boolean",)),
                            ({"integer": True, "nonneg": True}, ("integer", "nonneg")),
                            ({"symmetric": True}, ("symmetric",)),
                            ({"symmetric": True, "nonneg": True}, ("symmetric",)), ({"bounds": [0, 1]}, ("nonneg",)),
                            ({"bounds": [-1, 0]}, ("nonpos",)),
                            ({"bounds": [-1, 1]}, ()), ({"bounds": [None, None]}, ()),
                            ({"bounds": [1, None], "integer": True}, ("integer", "nonneg")),
                            ({"bounds": [-1, 1], "boolean": True}, ("boolean",)),
                            ({"boolean": True, "nonneg": True}, ("boolean",)),
                            ({"symmetric": True, "boolean": True}, ("boolean",)),
                            ({"diag": True, "integer": True, "nonneg": True}, ("integer", "nonneg"))]:
            x = cp.Variable((2, 2), **given)
            self.assertEqual(x.language_attributes(), said, given)

    def test_attributes_have_the_keys_of_cvxpy(self):
        keys = {"nonneg", "nonpos", "pos", "neg", "complex", "imag", "symmetric", "diag", "PSD", "NSD", "hermitian",
                "boolean", "integer", "sparsity", "bounds"}
        for given, held in [({}, set()), ({"pos": True}, {"pos", "nonneg"}), ({"neg": True}, {"neg", "nonpos"}),
                            ({"integer": True, "nonneg": True}, {"integer", "nonneg"}),
                            ({"diag": True, "PSD": False}, {"diag"}),
                            ({"bounds": [0, 4]}, {"nonneg", "bounds"}), ({"bounds": [-4, 4]}, {"bounds"})]:
            x = cp.Variable((2, 2), **given)
            self.assertEqual((set(x.attributes), {key for key in keys if x.attributes[key]}), (keys, held), given)
            self.assertEqual((x.is_pos(), x.is_neg()), ("pos" in held, "neg" in held))

    def test_bounds_are_arrays(self):
        infinite = np.full((2, 2), np.inf)
        for given, low, high in [([0, 4], np.zeros((2, 2)), np.full((2, 2), 4)),
                                 ([None, np.array([[1, 2], [np.inf, 0.5]])], -infinite, [[1, 2], [np.inf, 0.5]]),
                                 ([-np.inf, np.inf], -infinite, infinite)]:
            found = cp.Variable((2, 2), bounds=given).bounds
            np.testing.assert_array_equal(found, [low, high])
        self.assertEqual(cp.Variable(bounds=[-1, None]).bounds, [-1, np.inf])
        self.assertIsNone(cp.Variable(nonneg=True).bounds)

    def test_own_constraints(self):
        def own(shape=(), **given):
            return [str(c).replace(x.name(), "x") for x in [cp.Variable(shape, **given)] for c in x.own_constraints()]

        self.assertEqual(own(bounds=[0, None]), [])
        self.assertEqual(own(bounds=[0, 3]), ["x <= 3"])
        self.assertEqual(own(bounds=[-2, 3]), ["x >= (-2)", "x <= 3"])
        self.assertEqual(own(bounds=[-np.inf, 0]), [])
        self.assertEqual(own(bounds=(2, np.inf)), ["x >= 2"])
        self.assertEqual(own(3, bounds=[0, np.array([1, np.inf, 3])]), ["x[0:3:2] <= [1, 3]"])
        self.assertEqual(own(3, bounds=[[1, None, 1], None]), ["x[0:3:2] >= 1"])
        self.assertEqual(own((2, 2), symmetric=True, nonneg=True), ["x >= 0"])
        self.assertEqual(own((2, 2), pos=True), [])
        self.assertEqual(own((1, 1), symmetric=True, boolean=True) + own((1, 1), diag=True, integer=True), [])
        self.assertEqual(own(integer=True, bounds=[0, 5]), ["x <= 5"])
        self.assertEqual(own(boolean=True, bounds=[0, 1]), [])
        self.assertEqual(own(boolean=True, bounds=[1, 1]), ["x >= 1"])
        self.assertEqual(own(2, boolean=True, bounds=[None, [0, 1]]), ["x <= [0, 1]"])
        self.assertEqual(own(nonneg=True, bounds=[-1, 1]), ["x <= 1"])
        x = cp.Variable(2, bounds=[1, 2])
        self.assertIs(x.own_constraints()[0], x.own_constraints()[0])
        self.assertEqual(x.own_constraints()[0].site, x.site)
        for bounds in ([1], 3, [2, 1], [float("nan"), 1], [np.array([1, 2, 3]), None], [np.inf, None]):
            self.assertRaises(ValueError, lambda: cp.Variable(2, bounds=bounds))
        self.assertRaises(UnsupportedError, lambda: cp.Variable(bounds=[cp.Parameter(), 1]))

    def test_bounds_hold_in_answers(self):
        rng = np.random.default_rng(5)
        for _ in range(10):
            low, high = np.sort(rng.integers(-5, 6, (2, 3)), axis=0) / 2
            costs = rng.integers(-3, 4, 3)
            x = cp.Variable(3, bounds=[low, high])
            problem = cp.Problem(cp.Minimize(costs @ x))
            problem.solve()
            self.assertEqual(problem.value, np.minimum(costs * low, costs * high).sum())
        x = cp.Variable((2, 2), symmetric=True, bounds=[[[1, -np.inf], [-1, 2]], 4])
        cp.Problem(cp.Minimize(cp.trace(x) + x[0, 1])).solve()
        self.assertEqual(x.value.tolist(), [[1, -1], [-1, 2]])

    def test_matrices_of_whole_numbers(self):
        """Against all matrices of few entries."""
        rng = np.random.default_rng(8)
        for _ in range(4):
            C, most = rng.integers(-4, 5, (3, 3)), int(rng.integers(1, 4))
            X = cp.Variable((3, 3), symmetric=True, boolean=True)
            problem = cp.Problem(cp.Maximize(cp.sum(cp.multiply(C, X))), [cp.sum(X, axis=1) <= most])
            best = -np.inf
            for bits in itertools.product((0, 1), repeat=6):
                made = np.zeros((3, 3))
                made[np.triu_indices(3)] = bits
                made = np.maximum(made, made.T)
                if (made.sum(axis=1) <= most).all():
                    best = max(best, (C * made).sum())
            self.assertEqual(problem.solve(), best)
            np.testing.assert_array_equal(X.value, X.value.T)
            D = cp.Variable((3, 3), diag=True, integer=True, bounds=[-1, 2])
            problem = cp.Problem(cp.Minimize(cp.sum(cp.multiply(C, D)) + cp.abs(cp.trace(D))))
            points = itertools.product(range(-1, 3), repeat=3)
            self.assertEqual(problem.solve(), min(np.diag(C) @ point + abs(sum(point)) for point in points))
            np.testing.assert_array_equal(D.value, np.diag(np.diag(D.value)))

    def test_values(self):
        x = cp.Variable((2, 2))
        self.assertIsNone(x.value)
        self.assertIsNone((x + 1).value)
        self.assertIsNone((x + 1).exact)
        for value in [np.array([[1, 3], [2, 4]]), [[1, 2], [3, 4]], ((1, 3), (2, 4)),
                      sparse.csr_matrix([[1, 3], [2, 4]]), sparse.csr_matrix([[1, 3], [2, 4]]).todense(),
                      [(1, 2), (3, 4)], [np.array([1, 2]), np.array([3, 4])], cp.Constant([[1, 2], [3, 4]])]:
            x.value = value
            self.assertEqual(x.value.tolist(), [[1, 3], [2, 4]], type(value))
        x.value = None
        self.assertIsNone(x.value)
        p = cp.Parameter(value=Fraction(1, 3))
        self.assertEqual((p.value, p.exact), (1 / 3, Fraction(1, 3)))
        q = cp.Parameter(2)
        q.value = [p.exact, 0.1]
        self.assertEqual(list(q.exact), [Fraction(1, 3), Fraction(1, 10)])
        y = cp.Variable(2)
        y.value = q.exact
        self.assertEqual(list(y.exact), [Fraction(1, 3), Fraction(1, 10)])
        self.assertIsInstance(y.value, np.ndarray)
        self.assertIsInstance(p.value, float)

    def test_entries_that_are_set_in_a_parameters_value(self):
        p, q = cp.Parameter(3, value=[Fraction(1, 3), 2, 3]), cp.Parameter((2, 2), value=np.eye(2), nonneg=True)
        p.value[1] = 0.5
        p.value[1:] *= 2
        self.assertEqual(list(p.exact), [Fraction(1, 3), 1, 6])
        self.assertEqual((cp.sum(p) * 3).exact, 22)
        q.value[0, 1] = 4
        q.value[0, 0] += 0.1
        self.assertEqual(q.exact.tolist(), [[Fraction(11, 10), 4], [0, 1]])
        x = cp.Variable(2)
        prob = cp.Problem(cp.Minimize(cp.sum(x)), [x >= q @ np.ones(2)])
        self.assertEqual(prob.solve(), 6.1)
        before = q.value
        q.value = np.ones((2, 2))
        before[0, 0] = 9
        self.assertEqual(prob.solve(), 4)
        q.value[1, 1] = -1
        self.assertRaisesRegex(ValueError, "nonnegative", prob.solve)

    def test_entries_that_are_set_in_a_variables_value(self):
        """What is evaluated has them, as NumPy has them in an array; the others stay the fractions that they were."""
        third = Fraction(1, 3)
        x = cp.Variable(3, nonneg=True)
        rule = x >= [third, 2, 3]
        problem = cp.Problem(cp.Minimize(cp.sum(x)), [rule])
        problem.solve()
        array, held = np.array([1 / 3, 2, 3]), x.value
        for each in (array, held):
            each[1] = 7.5
            each[2] -= 4
        np.testing.assert_array_equal(x.value, array)
        self.assertEqual(list(x.exact), [third, Fraction(15, 2), -1])
        self.assertEqual((cp.sum(x) * 6).exact, 41)
        self.assertAlmostEqual(problem.objective.value, array.sum())
        np.testing.assert_array_equal(rule.residual, [0, 0, 4])
        self.assertEqual(problem.solve(), 16 / 3)  # an answer has an array of its own
        held[0] = 9
        self.assertEqual(list(x.exact), [third, 2, 3])

    def test_values_that_do_not_fit(self):
        for made, value, words in [
            (cp.Parameter(2), [1, 2, 3], "Invalid dimensions"), (cp.Parameter(2), 3, "Invalid dimensions"),
            (cp.Parameter(nonneg=True), -1, "nonnegative"),
            (cp.Parameter(nonpos=True), 1, "nonpositive"), (cp.Parameter(pos=True), -1, "nonnegative"),
            (cp.Parameter((2, 2), symmetric=True), [[1, 2], [3, 4]], "symmetric"),
            (cp.Parameter((2, 2), diag=True), [[1, 2], [0, 4]], "diagonal"),
            (cp.Parameter(boolean=True), 2, "boolean"), (cp.Parameter(integer=True), 1.5, "integer"),
            (cp.Parameter(bounds=[0, 1]), 2, "in bounds"), (cp.Variable(nonneg=True), -1, "nonnegative"),
            (cp.Parameter(), float("nan"), "NaN"),
            (cp.Parameter(2), [1, np.inf], "infinity"), (cp.Parameter((1, 3)), np.ones((3, 1)), "Invalid dimensions"),
        ]:
            with self.assertRaisesRegex(ValueError, words):
                made.value = value
            self.assertIsNone(made.value)
        self.assertRaises(ValueError, lambda: cp.Parameter(nonneg=True, value=-1))
        named = {"shape": (2, 2), "name": "q"}
        for made, value, told in [
            (cp.Parameter(**named, nonneg=True), np.array([[1, 2], [-1e-9, -3]]),
             "nonnegative: q[1, 0] is -0.000000001"),
            (cp.Parameter(**named, symmetric=True), np.array([[1, 2], [2.5, 3]]), "symmetric: q[0, 1] is 2"),
            (cp.Parameter(**named, diag=True), np.array([[1, 0], [7, 3]]), "diagonal: q[1, 0] is 7"),
            (cp.Variable(**named, bounds=[0, 5]), np.array([[1, 0], [7, 3]]), "in bounds: q[1, 0] is 7"),
            (cp.Variable(3, "q", bounds=[[0, None, 1], None]), [0, -9, 0.5], "in bounds: q[2] is 0.5"),
            (cp.Parameter(name="q", boolean=True), Fraction(1, 3), "boolean: q is 1/3"),
        ]:
            with self.assertRaises(ValueError) as caught:
                made.value = value
            self.assertTrue(str(caught.exception).endswith(f"value must be {told}"), str(caught.exception))
        for value, kind in (([1, np.nan], ValueError), ([1, "2"], TypeError)):
            with self.assertRaisesRegex(kind, "Parameter value of speed: "):
                cp.Parameter(2, name="speed", value=value)
        kept = cp.Parameter(nonneg=True, value=1)
        with self.assertRaises(ValueError):
            kept.value = -2
        self.assertEqual(kept.value, 1)
        for value in ("1", object(), {"a": 1}):
            with self.assertRaises(TypeError):
                kept.value = value

    def test_constants(self):
        self.assertEqual(cp.Constant([[1, 2], [3, 4]]).value.tolist(), [[1, 3], [2, 4]])
        self.assertEqual(cp.Constant(np.array([[1, 2], [3, 4]])).value.tolist(), [[1, 2], [3, 4]])
        self.assertEqual(cp.Constant([1, 2]).shape, (2,))
        self.assertEqual(cp.Constant(0.1).exact, Fraction(1, 10))
        self.assertEqual(cp.Constant(np.float32(0.1)).exact, Fraction(1, 10))
        self.assertRaises(TypeError, lambda: cp.Constant(cp.Variable()))


class Questions(unittest.TestCase):
    """What is asked of an expression."""

    def test_leaves(self):
        x, y, p = cp.Variable(3, "x"), cp.Variable(name="y"), cp.Parameter(name="p")
        e = p * x + y + cp.abs(x) - 3
        self.assertEqual([item.name() for item in e.variables()], ["x", "y"])
        self.assertEqual([item.name() for item in e.parameters()], ["p"])
        self.assertEqual([item.value for item in e.constants()], [3])
        self.assertEqual(e.name(), "p * x + y + abs(x) - 3")
        self.assertEqual(str(-(x + 1)[1:] * 2 @ np.ones(2)),
                         "-(x + 1)[1:3] * 2 @ [1, 1]".replace("-(x + 1)[1:3] * 2", "(-(x + 1)[1:3]) * 2"))

    def test_shapes(self):
        for shape, scalar, vector, matrix in [((), 1, 1, 0), ((1,), 1, 1, 0), ((3,), 0, 1, 0), ((1, 3), 0, 1, 0),
                                              ((2, 3), 0, 0, 1), ((1, 1), 1, 1, 0)]:
            x = cp.Variable(shape)
            self.assertEqual((x.is_scalar(), x.is_vector(), x.is_matrix()), (bool(scalar), bool(vector), bool(matrix)),
                             shape)
        self.assertEqual(cp.Variable((2, 3)).T.shape, (3, 2))
        self.assertEqual(cp.Variable(3).T.shape, (3,))

    def test_curvature_and_sign(self):
        x, n, p, q = cp.Variable(2), cp.Variable(nonneg=True), cp.Parameter(nonneg=True), cp.Parameter()
        for e, curvature, sign, dpp in [
            (x, "AFFINE", "UNKNOWN", True), (n, "AFFINE", "NONNEGATIVE", True),
            (cp.abs(x), "CONVEX", "NONNEGATIVE", True), (-cp.abs(x), "CONCAVE", "NONPOSITIVE", True),
            (cp.Constant(3), "CONSTANT", "NONNEGATIVE", True), (cp.Constant([1, -3]), "CONSTANT", "UNKNOWN", True),
            (0 * x, "AFFINE", "ZERO", True),
            (cp.minimum(x, 0), "CONCAVE", "NONPOSITIVE", True),
            (cp.abs(x) - cp.abs(n - 1), "UNKNOWN", "UNKNOWN", False), (p * cp.abs(x), "CONVEX", "NONNEGATIVE", True),
            (q * x, "AFFINE", "UNKNOWN", True), (p * q * x, "AFFINE", "UNKNOWN", False),
            (q * cp.abs(x), "UNKNOWN", "UNKNOWN", False), (q, "CONSTANT", "UNKNOWN", True),
            (cp.Variable(bounds=[1, 2]), "AFFINE", "NONNEGATIVE", True), (x * n, "UNKNOWN", "UNKNOWN", False),
        ]:
            with self.subTest(str(e)):
                self.assertEqual((e.curvature, e.sign, e.is_dpp()), (curvature, sign, dpp))
                self.assertEqual(e.is_dcp(), curvature != "UNKNOWN")
                self.assertEqual(e.is_dcp(dpp=True), dpp)
                self.assertEqual(e.is_convex(), curvature in ("CONVEX", "AFFINE", "CONSTANT"))
                self.assertEqual(e.is_concave(), curvature in ("CONCAVE", "AFFINE", "CONSTANT"))
                self.assertEqual(e.is_affine(), curvature in ("AFFINE", "CONSTANT"))
                self.assertEqual(e.is_constant(), curvature == "CONSTANT")
                self.assertEqual(e.is_nonneg(), sign in ("NONNEGATIVE", "ZERO"))
                self.assertEqual(e.is_nonpos(), sign in ("NONPOSITIVE", "ZERO"))

    def test_what_all_that_is_offered_has_in_common(self):
        x = cp.Variable((2, 2))
        for e in (x, cp.Parameter(), cp.Constant(2), 3 * x + 1, cp.abs(x), cp.minimum(x, 0), cp.abs(x) - cp.abs(x)):
            self.assertTrue(e.is_pwl() and e.is_qpwa() and e.is_real())
            self.assertFalse(e.is_complex() or e.is_imag())
            self.assertEqual(e.is_quadratic(), e.is_affine(), str(e))
        self.assertEqual([e.is_zero() for e in (0 * x, cp.Constant(0), x, cp.abs(x))], [True, True, False, False])
        x.value = [[1, 2], [3, 4]]
        self.assertEqual(x.H.value.tolist(), x.value.T.tolist())
        self.assertEqual([entry.value for entry in x.flat], list(x.value.flatten(order="F")))
        self.assertRaises(UnsupportedError, x.project, [[0, 0], [0, 0]])
        problem = cp.Problem(cp.Minimize(cp.norm1(x)), [x >= 1])
        self.assertTrue(problem.is_qp() and problem.is_lp())
        self.assertFalse(cp.Problem(cp.Maximize(cp.norm1(x))).is_lp())
        self.assertIsNone(problem.status)
        problem.solve()
        self.assertTrue(problem.status in cp.settings.SOLUTION_PRESENT)
        self.assertFalse(problem.status in cp.settings.INF_OR_UNB)

    def test_places(self):
        x = cp.Variable(3)
        e = (x +
             1)
        self.assertEqual(e.site.file, __file__)
        self.assertEqual(e.site.text, "e = (x +")
        found = np.add(np.ones(3), x)
        self.assertEqual(found.site.text, "found = np.add(np.ones(3), x)")
        found = np.sum(x)
        self.assertEqual(found.site.text, "found = np.sum(x)")
        self.assertEqual(cp.norm(x.reshape((1, 3)), 1).args[0].site.file, __file__)

    def test_no_value_is_a_truth(self):
        x = cp.Variable(3)
        self.assertTrue(x)
        self.assertIsInstance(x == 1, Constraint)
        for ask in [lambda: x < 1, lambda: x > 1, lambda: x != 1, lambda: x >> 1, lambda: x << 1, lambda: 0 <= x <= 1,
                    lambda: bool(x <= 1), lambda: np.ones(3) < x]:
            with self.assertRaises(NotImplementedError):
                ask()


class WithoutNumPy(unittest.TestCase):
    """The package where NumPy can't be imported."""

    def run_without(self, text):
        hook = textwrap.dedent("""
            import sys
            class Out:
                def find_spec(self, name, path=None, target=None):
                    if name.split(".")[0] in ("numpy", "scipy", "pandas"):
                        raise ImportError(name)
            sys.meta_path.insert(0, Out())
            """)
        folder = os.path.join(os.path.dirname(__file__), os.pardir)
        done = subprocess.run([sys.executable, "-c", hook + textwrap.dedent(text)], capture_output=True, text=True,
                              env={**os.environ, "PYTHONPATH": folder})
        self.assertEqual(done.stderr, "")
        return done.stdout.split("\n")[:-1]

    def test_expressions(self):
        lines = self.run_without("""
            from fractions import Fraction
            import dcx.cvxpy as cp
            x, X = cp.Variable(3, "x"), cp.Variable((2, 3))
            x.value, X.value = [1, 2, Fraction(1, 3)], ((1, 2, 3), (4, 5, 6))
            print((2*x + [1, 0, 1]).value, x.exact)
            print(X.value, (X @ x).value, X[:, [2, 0]].value, X[[True, False]].value, x[0].value)
            print(cp.sum(X, axis=0).value, cp.maximum(x, 1.5).value, cp.diag(x).value[1])
            problem = cp.Problem(cp.Minimize(cp.norm1(x - [1, 2, 3])), [x >= [2, 0, 0], x[2] <= 1])
            print(problem.solve(), x.value, problem.constraints[0].dual_value)
            X.value[1][0] = 9
            print(X[1].value, cp.sum(X).value)
            try:
                import numpy
            except ImportError:
                print("out of reach")
            """)
        self.assertEqual(lines, [
            "[3.0, 4.0, 1.6666666666666667] [Fraction(1, 1), Fraction(2, 1), Fraction(1, 3)]",
            "[[1.0, 2.0, 3.0], [4.0, 5.0, 6.0]] [6.0, 16.0] [[3.0, 1.0], [6.0, 4.0]] [[1.0, 2.0, 3.0]] 1.0",
            "[5.0, 7.0, 9.0] [1.5, 2.0, 1.5] [0.0, 2.0, 0.0]",
            "3.0 [2.0, 2.0, 1.0] [1.0, 0.0, 0.0]",
            "[9.0, 5.0, 6.0] 26.0",
            "out of reach",
        ])


if __name__ == "__main__":
    unittest.main()
