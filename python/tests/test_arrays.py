"""Exact arrays: what data they are made of, and what they give back."""
from __future__ import annotations

import time
import types
import unittest
from decimal import Decimal
from fractions import Fraction

import numpy as np
from scipy import sparse

import dcx.cvxpy as cp
from dcx.arrays import Array, Sparse, array_of, filled, to_floats, to_fractions, transposed


def floats(array):
    """The entries as an array of NumPy."""
    return np.array([float(number) for number in array.entries]).reshape(array.shape)


class Table:
    """What holds an array and gives it where it is asked for one, as a table of pandas does."""

    def __init__(self, rows):
        self.rows = np.array(rows)
        self.shape = self.rows.shape
        self.dtype = self.rows.dtype

    def __array__(self, *args, **options):
        return self.rows


class In(unittest.TestCase):
    """Data of each kind."""

    def test_shapes_and_numbers(self):
        matrix = [[1.5, 2, 3], [4, 5, 6.25]]
        for data, shape in [(3, ()), (np.float32(1.5), ()), (np.array(2), ()), ([1, 2], (2,)), ((1, 2), (2,)),
                            (range(3), (3,)), (np.arange(3), (3,)),
                            (np.array(matrix), (2, 3)), (np.asfortranarray(matrix), (2, 3)),
                            (np.array(matrix)[::-1, ::2], (2, 2)), (np.array(matrix).T, (3, 2)),
                            (np.ones((2, 2), bool), (2, 2)), (np.array([[Fraction(1, 3), 2]], dtype=object), (1, 2)),
                            (np.array(matrix, dtype=np.float32), (2, 3)),
                            (np.zeros((0, 3)), (0, 3)), ([], (0,)), (Table([1.5, 2]), (2,)),
                            (Table([[1, 2], [3.5, 4]]), (2, 2))]:
            found = array_of(data)
            self.assertEqual(found.shape, shape)
            np.testing.assert_array_equal(floats(found), np.asarray(data, dtype=float))
            self.assertTrue(all(type(number) is Fraction for number in found.entries))

    def test_lists_of_lists_are_columns(self):
        self.assertEqual(array_of([[1, 2], [3, 4], [5, 6]]).shape, (2, 3))
        np.testing.assert_array_equal(floats(array_of([[1, 2], [3, 4]])), [[1, 3], [2, 4]])
        np.testing.assert_array_equal(floats(array_of([np.array([1, 2]), np.array([3, 4])])), [[1, 3], [2, 4]])
        np.testing.assert_array_equal(floats(array_of(([1, 2], [3, 4]))), [[1, 2], [3, 4]])

    def test_decimals(self):
        self.assertEqual(array_of(np.array([0.1, 0.2, 1e-7])).entries,
                         (Fraction(1, 10), Fraction(1, 5), Fraction(1, 10**7)))
        self.assertEqual(array_of(np.array([0.1], dtype=np.float32)).entries, (Fraction(1, 10),))
        self.assertEqual(array_of([Decimal("0.3"), Fraction(1, 7)]).entries, (Fraction(3, 10), Fraction(1, 7)))
        self.assertEqual(array_of(np.array([2**63], dtype=np.uint64)).entries, (Fraction(2**63),))
        self.assertEqual(array_of(np.ma.array([1, 2], mask=[False, False])).entries, (Fraction(1), Fraction(2)))

    def test_sparse(self):
        dense = np.array([[0, 1.5, 0], [0, 0, 0], [2, 0, -0.1]])
        for make in (sparse.csr_matrix, sparse.csc_matrix, sparse.coo_matrix, sparse.dok_matrix, sparse.lil_matrix,
                     sparse.bsr_matrix, sparse.csr_array):
            found = array_of(make(dense))
            self.assertIsInstance(found, Sparse)
            self.assertEqual(found.rows, (((1, Fraction(3, 2)),), (), ((0, Fraction(2)), (2, Fraction(-1, 10)))))
            np.testing.assert_array_equal(floats(found), dense)
            np.testing.assert_array_equal(floats(transposed(found)), dense.T)
        twice = sparse.coo_matrix(([1, 2, 3, -3], ([0, 0, 1, 1], [1, 1, 0, 0])), shape=(2, 2))
        self.assertEqual(array_of(twice).rows, (((1, Fraction(3)),), ()))
        self.assertEqual(array_of(sparse.eye(3, dtype=np.float32) * np.float32(0.1)).rows[0], ((0, Fraction(1, 10)),))
        given = sparse.csr_matrix(dense)
        array_of(given)
        self.assertEqual(given.nnz, 3)

    def test_other_objects(self):
        entries = types.SimpleNamespace(shape=(2,), entries=(Fraction(1, 3), 2))
        self.assertEqual(array_of(entries).entries, (Fraction(1, 3), Fraction(2)))
        self.assertIs(array_of(filled((2,), 1)).shape[0], 2)

    def test_refused(self):
        for data in [[[1, 2], [3]], [1, [2]], np.ones((2, 2, 2)), [[[1]]], [1, float("nan")], np.array([np.inf]),
                     sparse.csr_matrix([[np.nan]]), np.ma.array([1, 2], mask=[False, True])]:
            self.assertRaises(ValueError, array_of, data)
        for data in ["abc", {"a": 1}, {1, 2}, None, [None], ["1"], np.array(["1"]), np.array([1j]), iter([1]),
                     object(), np.array([{}]),
                     np.array(["2020-01-01"], dtype="datetime64[D]")]:
            self.assertRaises(TypeError, array_of, data)
        self.assertRaises(ValueError, Array, (2,), (Fraction(1),))


class Out(unittest.TestCase):
    """What is given back."""

    def test_floats_and_fractions(self):
        array = array_of(np.array([[0.1, 2], [3, 4]]))
        self.assertEqual(to_floats(array).dtype, float)
        np.testing.assert_array_equal(to_floats(array), [[0.1, 2], [3, 4]])
        self.assertEqual(to_fractions(array)[0, 0], Fraction(1, 10))
        single = to_floats(array_of(0.5))
        self.assertIsInstance(single, float)
        self.assertEqual((single.item(), single.shape, single.tolist(), f"{single:.2f}"), (0.5, (), 0.5, "0.50"))
        self.assertIs(type(to_fractions(array_of(3))), Fraction)
        self.assertEqual(to_floats(array_of(np.zeros((0, 3)))).shape, (0, 3))

    def test_equal_arrays_have_one_hash(self):
        a, b = array_of([1, 0.5]), array_of(np.array([1, 0.5]))
        self.assertEqual(a, b)
        self.assertEqual(hash(a), hash(b))
        self.assertNotEqual(a, array_of([[1], [0.5]]))
        self.assertEqual(hash(array_of(sparse.eye(2))), hash(array_of(sparse.csr_matrix(np.eye(2)))))


class Speed(unittest.TestCase):
    """Models of the greatest size that the program takes are recorded in few seconds of the processor."""

    def test_large(self):
        rng = np.random.default_rng(1)
        A, b = rng.normal(size=(100, 200)), rng.normal(size=100)
        start = time.process_time()
        x = cp.Variable(200)
        x.value = rng.normal(size=200)
        found = (A @ x - b).value
        np.testing.assert_allclose(found, A @ x.value - b, rtol=1e-9)
        y = cp.Variable(5000)
        constraints = [y[i] - 2 * y[i + 1] <= i for i in range(4999)]
        total = sum(constraint.args[0] for constraint in constraints)
        y.value = np.zeros(5000)
        self.assertEqual(total.value, 0)
        self.assertLess(time.process_time() - start, 10)


if __name__ == "__main__":
    unittest.main()
