"""Each call, shape, axis and option: its value by NumPy, by the package, and by the program with all variables fixed.
"""
from __future__ import annotations

import random
import unittest
from fractions import Fraction

import numpy as np
from scipy import linalg, sparse

import dcx.cvxpy as cp
from dcx.errors import UnsupportedError

from .recorded import point, program_value, variable, weights_of

C = np.array([[2.0, -1.0, 0.5], [0.0, 3.0, -2.5]])
S = np.array([[1.0, 0.0], [-2.0, 0.25]])


def _cummax(x, axis=0):
    return np.maximum.accumulate(x, axis=axis)


def _largest(x, k):
    flat = np.sort(x.ravel())[::-1]
    whole = int(k)
    return flat[:whole].sum() + (float(k - whole) * flat[whole] if whole < flat.size else 0)


def _upper(x):
    return x[np.triu_indices(x.shape[0], 1)]


def _triangle(x, side, strict):
    result = np.zeros((side + strict, side + strict))
    result[np.triu_indices(side + strict, int(strict))] = x
    return result


def _dotsort(x, w):
    w = np.concatenate([np.ravel(w), np.zeros(x.size - np.size(w))])
    return np.sort(x.ravel()) @ np.sort(w)


# for each call: the shapes of its arguments, what the recorder is asked, and what NumPy is
CASES = [
    # folds, of each number of sides, along each axis
    *[(shapes, lambda x, a=axis, k=keep, f=ours: f(x, axis=a, keepdims=k),
       lambda x, a=axis, k=keep, g=theirs: g(x, a, k))
      for ours, theirs in [
          (cp.sum, lambda x, a, k: x.sum(axis=a, keepdims=k)), (cp.mean, lambda x, a, k: x.mean(axis=a, keepdims=k)),
          (cp.max, lambda x, a, k: x.max(axis=a, keepdims=k)), (cp.min, lambda x, a, k: x.min(axis=a, keepdims=k)),
          (cp.norm1, lambda x, a, k: abs(x).sum(axis=a, keepdims=k)),
          (cp.norm_inf, lambda x, a, k: abs(x).max(axis=a, keepdims=k))]
      for shapes, axes in [([(4,)], (None, 0, -1)), ([(2, 4)], (None, 0, 1, -1, -2, (0, 1))), ([(1, 4)], (0, 1)),
                           ([(4, 1)], (0, 1)),
                           ([(1, 1)], (None, 0)), ([(1,)], (None, 0)), ([()], (None,))]
      for axis in axes for keep in (False, True)],
    # entry by entry
    *[([shape], ours, theirs)
      for ours, theirs in [(cp.abs, np.abs), (cp.pos, lambda x: np.maximum(x, 0)),
                           (cp.neg, lambda x: np.maximum(-x, 0)), (abs, np.abs),
                           (lambda x: cp.scalene(x, 3, 0.5), lambda x: 3 * np.maximum(x, 0) + 0.5 * np.maximum(-x, 0))]
      for shape in [(), (1,), (4,), (2, 4), (1, 1)]],
    *[(shapes, ours, theirs)
      for ours, theirs in [(cp.maximum, np.maximum), (cp.minimum, np.minimum)]
      for shapes in [[(), ()], [(3,), ()], [(2, 3), (3,)], [(2, 1), (1, 3)], [(1, 1), (3,)], [(2, 3), (2, 3)],
                     [(3, 1), (3,)]]],
    ([(3,), (), (2, 3)], lambda x, y, z: cp.maximum(x, y, z, 1.5),
     lambda x, y, z: np.maximum(np.maximum(np.maximum(x, y), z), 1.5)),
    ([(3,), (), (2, 3)], lambda x, y, z: cp.minimum(x, y, z, C),
     lambda x, y, z: np.minimum(np.minimum(np.minimum(x, y), z), C)),
    *[([shape], lambda x: cp.multiply(C, x), lambda x: C * x)
      for shape in [(2, 3), (3,), (2, 1), (), (1, 1), (1, 3), (1,)]],
    *[([shape], lambda x: cp.multiply(x, [1, 2, 3]), lambda x: x * np.array([1, 2, 3]))
      for shape in [(2, 3), (3,), (2, 1), (), (1, 3)]],
    # norms
    *[([shape], lambda x, p=p: cp.norm(x, p), lambda x, q=q: np.linalg.norm(x, q))
      for p, q in [(1, 1), ("inf", np.inf), ("Inf", np.inf), (np.inf, np.inf), (1.0, 1)]
      for shape in [(4,), (2, 3), (1, 3), (3, 1)]],
    *[([(2, 3)], lambda x, p=p, a=a, k=k: cp.norm(x, p, axis=a, keepdims=k),
       lambda x, p=p, a=a, k=k: np.linalg.norm(x, p, axis=a, keepdims=k))
      for p in (1, np.inf) for a in (0, 1, -1) for k in (False, True)],
    *[([shape], lambda x, p=p: cp.norm(x, p), lambda x: np.abs(x).reshape(())) for shape in [(), (1,), (1, 1)]
      for p in (1, 2, "fro", np.inf)],
    ([(1,)], cp.norm2, lambda x: np.abs(x)[0]),
    ([(2, 3)], lambda x: cp.pnorm(x, 1), lambda x: np.abs(x).sum()),
    ([(2, 3)], lambda x: cp.pnorm(x, np.inf, axis=0), lambda x: np.abs(x).max(axis=0)),
    *[([(2, 3)], lambda x, p=p, q=q: cp.mixed_norm(x, p, q),
       lambda x, p=p, q=q: np.linalg.norm(np.linalg.norm(x, p, axis=1), q))
      for p in (1, np.inf) for q in (1, np.inf)],
    # sums of sorted entries
    *[([shape], lambda x, k=k: cp.sum_largest(x, k), lambda x, k=k: _largest(x, k))
      for shape in [(5,), (2, 3)] for k in (1, 2, 4, 5, Fraction(5, 2), 0.5, np.int64(3))],
    *[([shape], lambda x, k=k: cp.sum_smallest(x, k), lambda x, k=k: -_largest(-x, k)) for shape in [(5,), (2, 3)]
      for k in (1, 3, 5, 1.25)],
    ([(4,)], lambda x: cp.cvar(x, 0.5), lambda x: np.sort(x)[2:].mean()),
    ([(5,)], lambda x: cp.cvar(x, 0.7) * 1.5, lambda x: _largest(x, Fraction(3, 2))),
    ([(5,)], lambda x: cp.dotsort(x, [3, 1, -2, 1, 0.5]), lambda x: _dotsort(x, [3, 1, -2, 1, 0.5])),
    ([(2, 3)], lambda x: cp.dotsort(x, [2, 5]), lambda x: _dotsort(x, [2, 5])),
    ([(5,)], lambda x: cp.dotsort(x, -cp.Constant([2, 5])), lambda x: _dotsort(x, [-2, -5])),
    ([(5,)], lambda x: cp.sum_largest(x, cp.Constant(5) / 2), lambda x: _largest(x, 2.5)),
    ([(2, 3)], cp.ptp, np.ptp),
    ([(2, 3)], lambda x: cp.ptp(x, axis=1, keepdims=True), lambda x: np.ptp(x, axis=1, keepdims=True)),
    # along a vector
    *[([(5,)], lambda x, k=k: cp.diff(x, k), lambda x, k=k: np.diff(x, k)) for k in (0, 1, 2, 4)],
    *[([(3, 4)], lambda x, k=k, a=a: cp.diff(x, k, axis=a), lambda x, k=k, a=a: np.diff(x, k, axis=a)) for k in (1, 2)
      for a in (0, 1, -1)],
    ([(5,)], cp.tv, lambda x: np.abs(np.diff(x)).sum()),
    ([(1,)], lambda x: cp.tv(x) + x[0], lambda x: x[0]),
    *[([shape], lambda x, a=a: cp.cumsum(x, a), lambda x, a=a: np.cumsum(x, a)) for shape,
      a in [((5,), 0), ((3, 4), 0), ((3, 4), 1), ((3, 4), -1)]],
    ([(3, 4)], cp.cumsum, lambda x: np.cumsum(x, 0)),
    *[([shape], lambda x, a=a: cp.cummax(x, a), lambda x, a=a: _cummax(x, a)) for shape,
      a in [((5,), 0), ((3, 4), 0), ((3, 4), 1), ((1,), 0)]],
    # other places
    ([(3, 3)], cp.trace, np.trace), ([(1, 1)], cp.trace, np.trace),
    *[([(4,)], lambda x, k=k: cp.diag(x, k), lambda x, k=k: np.diag(x, k)) for k in (0, 1, -2)],
    *[([(4, 4)], lambda x, k=k: cp.diag(x, k), lambda x, k=k: np.diag(x, k)) for k in (0, 1, -2, 3)],
    *[([shape], cp.diag, lambda x: np.diag(x.ravel())) for shape in [(3, 1), (1, 3), (1, 1), (1,)]],
    ([(3, 3)], cp.upper_tri, _upper),
    ([(6,)], cp.vec_to_upper_tri, lambda x: _triangle(x, 3, False)),
    ([(6,)], lambda x: cp.vec_to_upper_tri(x, strict=True), lambda x: _triangle(x, 3, True)),
    *[([shape], lambda x, o=o: cp.vec(x, o), lambda x, o=o: x.flatten(order=o))
      for shape in [(), (3,), (2, 3), (1, 3), (3, 1)] for o in "FC"],
    ([(2, 3)], cp.vec, lambda x: x.flatten(order="F")),
    *[([shape], lambda x, s=s, o=o: cp.reshape(x, s, order=o), lambda x, s=s, o=o: x.reshape(s, order=o))
      for o in "FC" for shape, s in [((2, 3), (3, 2)), ((2, 3), 6), ((2, 3), (-1, 2)), ((6,), (2, 3)), ((6,), (6, 1)),
                                     ((6,), (1, -1)), ((2, 3), -1),
                                     ((1,), ()), ((1, 1), ()), ((), (1, 1)), ((2, 3), (2, 3)), ((6, 1), (2, 3)),
                                     ((1, 6), (3, 2))]],
    ([(2, 3)], cp.transpose, np.transpose), ([(3,)], cp.transpose, np.transpose),
    ([(2, 3)], lambda x: cp.transpose(x, (0, 1)), lambda x: x),
    ([(2, 3)], lambda x: cp.permute_dims(x, (1, 0)), lambda x: x.T),
    ([(2, 3)], lambda x: cp.swapaxes(x, 0, -1), lambda x: x.T), ([(2, 3)], lambda x: x.T.T, lambda x: x),
    ([(1, 3)], cp.squeeze, np.squeeze), ([(3, 1)], lambda x: cp.squeeze(x, 1), lambda x: np.squeeze(x, 1)),
    ([(1, 1)], cp.squeeze, np.squeeze),
    *[([shape], lambda x, a=a: cp.expand_dims(x, a), lambda x, a=a: np.expand_dims(x, a)) for shape,
      a in [((3,), 0), ((3,), 1), ((3,), -1), ((), 0)]],
    *[([shape], lambda x, s=s: cp.broadcast_to(x, s), lambda x, s=s: np.broadcast_to(x, s))
      for shape, s in [((3,), (2, 3)), ((3,), 3), ((), (2,)), ((), (2, 3)), ((2, 1), (2, 3)), ((1, 1), (2, 3)),
                       ((1, 3), [2, 3]), ((2, 3), (2, 3))]],
    # stacks
    ([(3,), (2,), ()], lambda x, y, z: cp.hstack([x, y, z, 7]), lambda x, y, z: np.hstack([x, y, z, 7])),
    ([(2, 3), (2, 1)], lambda x, y: cp.hstack([x, y, C]), lambda x, y: np.hstack([x, y, C])),
    ([(3,)], lambda x: cp.hstack([x]), lambda x: x), ([()], lambda x: cp.hstack([x]), lambda x: x.reshape(1)),
    ([(3,), (3,)], lambda x, y: cp.hstack((x, y)), lambda x, y: np.hstack([x, y])),
    ([(3,), (3,)], lambda x, y: cp.vstack([x, y, C]), lambda x, y: np.vstack([x, y, C])),
    ([(3,)], lambda x: cp.vstack([x]), lambda x: x.reshape(1, 3)),
    ([()], lambda x: cp.vstack([x, 1]), lambda x: np.vstack([x, 1])),
    ([(2, 3), (1, 3)], lambda x, y: cp.vstack([x, y]), lambda x, y: np.vstack([x, y])),
    ([(2, 3), (2, 1), (1, 3), ()], lambda x, y, z, t: cp.bmat([[x, y], [z, cp.reshape(t, (1, 1))]]),
     lambda x, y, z, t: np.block([[x, y], [z, t.reshape(1, 1)]])),
    ([(), ()], lambda x, y: cp.bmat([[x, 0], [1, y]]), lambda x, y: np.array([[x, 0], [1, y]])),
    ([(3,), (2,)], lambda x, y: cp.concatenate([x, y]), lambda x, y: np.concatenate([x, y])),
    *[([(2, 3), (2, 3)], lambda x, y, a=a: cp.concatenate([x, y], axis=a),
       lambda x, y, a=a: np.concatenate([x, y], axis=a)) for a in (0, 1, -1, None)],
    *[([(3,), (3,)], lambda x, y, a=a: cp.stack([x, y], axis=a), lambda x, y, a=a: np.stack([x, y], axis=a))
      for a in (0, 1, -1)],
    ([(), ()], lambda x, y: cp.stack([x, y]), lambda x, y: np.stack([x, y])),
    ([(3,), (3,)], lambda x, y: cp.hstack([x[:0], y, x[3:]]), lambda x, y: y),
    # products
    *[([shape], lambda x: cp.kron(S, x), lambda x: np.kron(S, x)) for shape in [(2, 3), (1, 2), (2, 1), (1, 1)]],
    *[([shape], lambda x: cp.kron(x, C), lambda x: np.kron(x, C)) for shape in [(2, 2), (1, 2), (3, 1)]],
    ([(3,)], lambda x: cp.kron([1, 2], x), lambda x: np.kron([1, 2], x)),
    ([(3,)], lambda x: cp.kron(x, [1, -2]), lambda x: np.kron(x, [1, -2])),
    ([(3,)], lambda x: cp.outer(x, [1, 2]), lambda x: np.outer(x, [1, 2])),
    ([(2,)], lambda x: cp.outer([1, 0, 3], x), lambda x: np.outer([1, 0, 3], x)),
    ([(3,)], lambda x: cp.vdot([1, -2, 3], x), lambda x: np.vdot([1, -2, 3], x)),
    ([(2, 3)], lambda x: cp.vdot(x, C), lambda x: np.sum(x * C)),
    ([(), (2,)], lambda x, y: cp.scalar_product([x, y], [1, 2, 3]), lambda x, y: x + 2 * y[0] + 3 * y[1]),
    ([(3, 2)], lambda x: cp.matmul(C, x), lambda x: C @ x),
    *[([(4,)], lambda x, c=c: cp.convolve(c, x), lambda x, c=c: np.convolve(c, x))
      for c in ([1, 2, 0, -1], [3], [1, 0.5])],
    ([(4,)], lambda x: cp.convolve(x, [1, -1]), lambda x: np.convolve(x, [1, -1])),
    ([(4,)], lambda x: cp.convolve(cp.Constant([1, 2]) / 4, x), lambda x: np.convolve([0.25, 0.5], x)),
    *[([(4,)], lambda x, k=k: cp.convolve(cp.Parameter(len(k), value=k), x), lambda x, k=k: np.convolve(k, x))
      for k in ([3], [1, -2], [1, 0.5, 0, -1, 2])],
    ([(4,)], lambda x: cp.convolve(x, 1 - cp.Parameter(2, value=[0.5, 3])), lambda x: np.convolve(x, [0.5, -2])),
    ([(4, 1)], lambda x: cp.conv([1, 2], x), lambda x: np.convolve([1, 2], x.ravel()).reshape(5, 1)),
    ([(3,)], lambda x: cp.conv([1, 2], x), lambda x: np.convolve([1, 2], x)),
    # methods
    ([(2, 3)], lambda x: x.sum(axis=1), lambda x: x.sum(axis=1)),
    ([(3,)], lambda x: x * (2 * cp.Constant(3)) ** 2, lambda x: 36 * x),
    ([(2, 3)], lambda x: x.mean(0, keepdims=True), lambda x: x.mean(0, keepdims=True)),
    ([(2, 3)], lambda x: x.max(axis=0), lambda x: x.max(axis=0)), ([(2, 3)], lambda x: x.min(), lambda x: x.min()),
    ([(3, 3)], lambda x: x.trace(), np.trace), ([(2, 3)], lambda x: x.flatten(), lambda x: x.flatten(order="F")),
    ([(2, 3)], lambda x: x.flatten("C"), lambda x: x.flatten()),
    ([(2, 3)], lambda x: x.reshape((3, 2), "C"), lambda x: x.reshape((3, 2))),
    ([(3, 4)], lambda x: x.cumsum(1), lambda x: np.cumsum(x, 1)), ([(2, 3)], lambda x: x.transpose(), lambda x: x.T),
    # lists
    ([(3,), ()], lambda x, y: cp.sum([x, y, 2]), lambda x, y: x + y + 2), ([(3,)], lambda x: sum(x), lambda x: x.sum()),
    ([(3,)], lambda x: sum(i * x[i] for i in range(3)), lambda x: x[1] + 2 * x[2]),
]

# calls that aren't convex where their arguments are, and have a value all the same
CONSTANT_CASES = [
    ([(3,), (3,)], cp.vdot, np.vdot), ([(2, 3), (3, 2)], cp.matmul, np.matmul), ([(3,), (2,)], cp.outer, np.outer),
    ([(2,), (3,)], lambda x, y: cp.sum_largest(cp.kron(x, y), 2), lambda x, y: _largest(np.kron(x, y), 2)),
]


class Values(unittest.TestCase):
    """Values of calls."""

    def check(self, case, number, by_program):
        shapes, ours, theirs = case
        rng = random.Random(number)
        variables = [variable(rng, shape) for shape in shapes]
        points = [np.asarray(x.value) for x in variables]
        expression = ours(*variables)
        wanted = np.asarray(theirs(*points), dtype=float)
        where = f"case {number}, of {shapes}: {expression}"
        self.assertEqual(expression.shape, wanted.shape, where)
        found = np.asarray(expression.value, dtype=float)
        np.testing.assert_allclose(found, wanted, rtol=0, atol=1e-12, err_msg=where)
        if by_program:
            weighted = float((weights_of(wanted.shape) * wanted).sum())
            self.assertAlmostEqual(float(program_value(expression)), weighted, 9, where)

    def test_each_call(self):
        for number, case in enumerate(CASES):
            with self.subTest(number):
                self.check(case, number, True)

    def test_constants_have_the_same_values(self):
        for number, (shapes, ours, theirs) in enumerate(CASES + CONSTANT_CASES):
            with self.subTest(number):
                rng = random.Random(number)
                points = [point(rng, shape) for shape in shapes]
                # without a constant an `abs` or a `sum` of arrays is NumPy's own
                expression = ours(*[cp.Constant(item) for item in points])
                wanted = np.asarray(theirs(*points), dtype=float)
                self.assertEqual(expression.shape, wanted.shape)
                np.testing.assert_allclose(np.asarray(expression.value, dtype=float), wanted, rtol=0, atol=1e-12)
                self.assertEqual(expression.variables(), [])

    def test_the_program_evaluates_constants(self):
        rng = random.Random(5)
        for number, (shapes, ours, theirs) in enumerate(CASES[::7] + CONSTANT_CASES):
            with self.subTest(number):
                points = [point(rng, shape) for shape in shapes]
                expression = ours(*[cp.Constant(item) for item in points])
                wanted = np.asarray(theirs(*points), dtype=float)
                weighted = float((weights_of(wanted.shape) * wanted).sum())
                self.assertAlmostEqual(float(program_value(expression)), weighted, 9)

    def test_parameters(self):
        rng = random.Random(6)
        for number, (shapes, ours, theirs) in enumerate(CASES[::5]):
            with self.subTest(number):
                points = [point(rng, shape) for shape in shapes]
                parameters = [cp.Parameter(shape, value=item) for shape, item in zip(shapes, points)]
                expression = ours(*parameters)
                wanted = np.asarray(theirs(*points), dtype=float)
                np.testing.assert_allclose(np.asarray(expression.value, dtype=float), wanted, rtol=0, atol=1e-12)
                self.assertTrue(expression.is_constant())


class Exactness(unittest.TestCase):
    """Values in fractions."""

    def test_thirds(self):
        x = cp.Variable(3)
        x.value = [Fraction(1, 3), Fraction(-1, 7), 0.1]
        self.assertEqual(cp.norm1(x).exact, Fraction(1, 3) + Fraction(1, 7) + Fraction(1, 10))
        self.assertEqual(cp.mean(x).exact, (Fraction(1, 3) - Fraction(1, 7) + Fraction(1, 10)) / 3)
        self.assertEqual((np.array([[1, 2, 3]]) @ x).exact.tolist(),
                         [Fraction(1, 3) - Fraction(2, 7) + Fraction(3, 10)])
        self.assertEqual(cp.sum_largest(x, Fraction(3, 2)).exact, Fraction(1, 3) + Fraction(1, 20))

    def test_denominators_that_have_nothing_in_common(self):
        numbers = [Fraction(1, prime) for prime in range(3, 1201) if all(prime % d for d in range(2, 35) if d < prime)]
        x = cp.Variable(len(numbers))
        x.value = numbers
        self.assertEqual(cp.sum(x).exact, sum(numbers))
        self.assertEqual((np.arange(len(numbers)) @ x).exact,
                         sum(place * number for place, number in enumerate(numbers)))

    def test_sparse_products(self):
        rng = np.random.default_rng(3)
        dense = np.where(rng.random((7, 9)) < 0.3, rng.integers(-5, 5, (7, 9)) / 2, 0)
        for make in (sparse.csr_matrix, sparse.csc_matrix, sparse.coo_matrix, sparse.lil_matrix):
            x, y = cp.Variable(9), cp.Variable((7, 2))
            x.value, y.value = rng.integers(-9, 9, 9), rng.integers(-9, 9, (7, 2))
            for expression, wanted in [(make(dense) @ x, dense @ x.value), (cp.matmul(make(dense), x), dense @ x.value),
                                       (make(dense).T @ y, dense.T @ y.value), (y.T @ make(dense), y.value.T @ dense)]:
                np.testing.assert_array_equal(expression.value, wanted)
                self.assertEqual(program_value(expression), Fraction(float((weights_of(wanted.shape) * wanted).sum())))
            self.assertEqual((make(dense) + cp.Constant(1)).value.tolist(), (dense + 1).tolist())

    def test_a_kronecker_product_and_a_block_diagonal(self):
        blocks = [np.array([[1.0, 2], [3, 4]]), np.array([[5.0]])]
        x = cp.Variable(3)
        x.value = [1, -2, 3]
        np.testing.assert_array_equal((sparse.block_diag(blocks) @ x).value, linalg.block_diag(*blocks) @ x.value)


class Refused(unittest.TestCase):
    """Arguments that a call doesn't take."""

    def test_shapes(self):
        x, X = cp.Variable(3), cp.Variable((2, 3))
        for ask in [
            lambda: cp.sum(x, axis=1), lambda: cp.sum(x, axis=-2), lambda: cp.max(cp.Variable(), axis=0),
            lambda: cp.trace(X), lambda: cp.diag(X),
            lambda: cp.hstack([x, X]), lambda: cp.hstack([X, X.T]), lambda: cp.vstack([x, X.T]),
            lambda: cp.bmat([[X, X.T]]), lambda: cp.hstack([]),
            lambda: cp.reshape(X, (4, 2)), lambda: cp.reshape(X, (-1, -1)), lambda: cp.reshape(X, (1, 2, 3)),
            lambda: cp.reshape(X, 6, order="A"),
            lambda: cp.maximum(x, X.T), lambda: cp.multiply(x, X.T), lambda: cp.diff(x, 3), lambda: cp.diff(x, -1),
            lambda: cp.diff(cp.Variable()),
            lambda: cp.cumsum(X, axis=None), lambda: cp.cumsum(cp.Variable()), lambda: cp.sum_largest(x, 0),
            lambda: cp.sum_largest(x, -1),
            lambda: cp.tv(cp.Variable()), lambda: cp.outer(X, x), lambda: cp.vdot(x, X),
            lambda: cp.convolve(X, [1, 2]), lambda: cp.upper_tri(X),
            lambda: cp.vec_to_upper_tri(cp.Variable(4)), lambda: cp.max(x[:0]), lambda: cp.sum([x, [x]]),
            lambda: cp.max([x[0], x[1]]),
            lambda: cp.concatenate([x, X]), lambda: cp.stack([x, X]), lambda: cp.squeeze(X, 0),
            lambda: cp.transpose(X, (0, 0)),
            lambda: cp.dotsort(x, [1, 2, 3, 4]), lambda: cp.cvar(x, 1), lambda: cp.vec(x, "K"),
            lambda: cp.expand_dims(X, 0), lambda: cp.broadcast_to(x, (3, 2)), lambda: cp.broadcast_to(X, (3,)),
            lambda: cp.broadcast_to(X[:1, :1], 4), lambda: cp.broadcast_to(x, (2, 1, 3)),
        ]:
            with self.assertRaises(ValueError):
                ask()

    def test_kinds(self):
        x = cp.Variable(3)
        for ask in [lambda: cp.sum(x, axis="rows"), lambda: cp.sum(x, keepdims=2), lambda: cp.hstack(x),
                    lambda: cp.abs("x"), lambda: cp.abs(None),
                    lambda: cp.diag(x, 1.5), lambda: cp.maximum(x), lambda: cp.abs(x, x),
                    lambda: cp.sum(x, 0, False, 1), lambda: cp.abs(1j),
                    lambda: x.sum(dtype=float), lambda: cp.norm1(item for item in x)]:
            with self.assertRaises(TypeError):
                ask()
        for made, kind in ((lambda: cp.sum(entry for entry in x), "generator"), (lambda: x + {1: 2}, "dict"),
                           (lambda: cp.max({1, 2}), "set"), (lambda: cp.hstack([{"a": x}.values()]), "dict_values")):
            with self.assertRaisesRegex(TypeError, f"a {kind} stands where .*: write a list of what is in it"):
                made()

    def test_what_is_not_piecewise_linear(self):
        x, X = cp.Variable(3), cp.Variable((2, 3))
        for ask in [lambda: cp.norm(x), lambda: cp.norm(x, 2), lambda: cp.norm(X), lambda: cp.norm(X, "fro"),
                    lambda: cp.norm(X, "nuc"), lambda: cp.norm(x, 3),
                    lambda: cp.norm2(x), lambda: cp.pnorm(x, 1.5), lambda: cp.mixed_norm(X), lambda: cp.tv(X),
                    lambda: cp.norm(X, 2, axis=1),
                    lambda: cp.kron(x, x), lambda: cp.convolve(x, x), lambda: cp.dotsort(x, x),
                    lambda: cp.sum_largest(x, cp.Parameter(value=2))]:
            with self.assertRaises(UnsupportedError) as caught:
                ask()
            self.assertIn("test_atoms.py:", str(caught.exception))


if __name__ == "__main__":
    unittest.main()
