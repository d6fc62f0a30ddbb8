"""Shapes: broadcasting, products, axes, and the indices of `indices`, against NumPy."""
from __future__ import annotations

import itertools
import unittest

import numpy as np

from dcx import indices, shapes

ALL = [(), (1,), (2,), (3,), (1, 1), (1, 3), (3, 1), (2, 3), (3, 3), (0,), (0, 3)]


class Shapes(unittest.TestCase):
    """Shapes that fit and shapes that don't."""

    def test_broadcast(self):
        for sides in itertools.product(ALL, repeat=3):
            try:
                wanted = np.broadcast_shapes(*sides)
            except ValueError:
                self.assertRaises(ValueError, shapes.broadcast, *sides)
            else:
                self.assertEqual(shapes.broadcast(*sides), wanted, sides)

    def test_pairs(self):
        self.assertEqual(shapes.paired((1, 1), (3,)), (3,))
        self.assertEqual(shapes.paired((3,), (1, 1)), (3,))
        self.assertEqual(shapes.paired((1,), (1, 1)), (1, 1))
        self.assertEqual(shapes.paired((2, 1), (1, 3)), (2, 3))
        with self.assertRaisesRegex(ValueError, r"Cannot broadcast dimensions \(2,\) \(3,\)"):
            shapes.paired((2,), (3,))

    def test_products(self):
        for left, right in itertools.product(ALL, ALL):
            try:
                wanted = (np.empty(left) @ np.empty(right)).shape
            except ValueError:
                self.assertRaises(ValueError, shapes.product, left, right)
            else:
                self.assertEqual(shapes.product(left, right), wanted)

    def test_axes(self):
        # NumPy lets a number have the axis 0, and CVXPY doesn't
        self.assertRaises(ValueError, shapes.axis_of, 0, ())
        for shape in ALL[1:]:
            for axis in (None, 0, 1, 2, -1, -2, -3):
                for keepdims in (False, True):
                    try:
                        wanted = np.sum(np.empty(shape), axis=axis, keepdims=keepdims).shape
                    except ValueError:
                        self.assertRaises(ValueError, shapes.axis_of, axis, shape)
                    else:
                        self.assertEqual(shapes.folded(shape, shapes.axis_of(axis, shape), keepdims), wanted)
        self.assertIsNone(shapes.axis_of((0, 1), (2, 3)))
        self.assertIsNone(shapes.axis_of((-1, 0), (2, 3)))
        self.assertEqual(shapes.axis_of((1,), (2, 3)), 1)
        for axis in (1.0, "0", True, [0]):
            self.assertRaises(TypeError, shapes.axis_of, axis, (2, 3))

    def test_reshape(self):
        for size in (1, 4, 6, 12):
            for shape in [(), 6, (2, 3), (-1,), -1, (2, -1), (-1, 4), (-1, -1), (1, 12), (0, -1)]:
                try:
                    wanted = np.empty(size).reshape(shape).shape
                except ValueError:
                    self.assertRaises(ValueError, shapes.reshaped, shape, size)
                else:
                    self.assertEqual(shapes.reshaped(shape, size), wanted)

    def test_declared(self):
        self.assertEqual([shapes.declared(shape) for shape in [(), 3, (3,), [2, 3], np.int32(2), None]],
                         [(), (3,), (3,), (2, 3), (2,), ()])
        for shape in [0, -1, (2, 0), (1, 2, 3), 1.5, (1.5,), "a", True, (True,)]:
            self.assertRaises(ValueError, shapes.declared, shape)


class Slices(unittest.TestCase):
    """Slices of slices."""

    def test_all_slices_of_a_short_side(self):
        numbers = [None, -6, -2, -1, 0, 1, 3, 5]
        for start, stop, step in itertools.product(numbers, numbers, [None, 1, 2, -1, -2]):
            key = slice(start, stop, step)
            found = indices.read((5,), key)
            self.assertEqual(list(indices.range_of(found.sides[0])), list(range(5))[key])
            self.assertEqual(found.shape, (len(range(5)[key]),))
            _, first, behind, by = found.sides[0]
            self.assertEqual(list(range(5))[first:behind:by], list(range(5))[key])

    def test_compositions(self):
        numbers = [None, -3, 0, 2, 4]
        keys = [slice(*parts) for parts in itertools.product(numbers, numbers, [1, -1, 2])]
        for outer, inner in itertools.product(keys, keys[::3]):
            first = indices.read((6,), outer)
            if not first.shape[0]:
                continue
            second = indices.read(first.left, inner)
            composed = indices.composed(first.sides, second.sides)
            self.assertEqual(list(indices.range_of(composed[0])), list(range(6))[outer][inner])


if __name__ == "__main__":
    unittest.main()
