"""Random compositions of calls, operators and indices: by NumPy, by the package, and by the program with all variables
fixed."""
from __future__ import annotations

import random
import unittest

import numpy as np

import dcx.cvxpy as cp

from .recorded import point, program_value, variable, weights_of


class Maker:
    """Makes random expressions, each with its value by NumPy."""

    def __init__(self, seed: int):
        self.rng = random.Random(seed)
        self.variables = [variable(self.rng, shape) for shape in [(), (3,), (4,), (2, 3), (3, 3), (1, 1)]]

    def leaf(self):
        x = self.rng.choice(self.variables)
        return x, np.asarray(x.value)

    def constant(self, shape):
        return point(self.rng, shape)

    def affine(self, depth: int):
        if depth == 0:
            return self.leaf()
        e, v = self.affine(depth - 1)
        rng = self.rng
        kind = rng.randrange(12)
        if kind == 0:
            f, w = self.affine(depth - 1)
            return self.added(e, v, f, w)
        if kind == 1:
            number = rng.choice([2, -1, 0.5, np.float64(-3), 0.25])
            return (number * e, number * v) if rng.random() < 0.5 else (e / number, v / number)
        if kind == 2 and v.ndim:
            A = self.constant((rng.randint(1, 3), v.shape[0]))
            return A @ e, A @ v
        if kind == 3 and v.ndim:
            A = self.constant((v.shape[-1], rng.randint(1, 3)))
            return e @ A, v @ A
        if kind == 4 and v.ndim:
            key = self.key(v.shape)
            return e[key], np.asarray(v[key])
        if kind == 5:
            return e.T, v.T
        if kind == 6:
            order = rng.choice("FC")
            return cp.vec(e, order), v.flatten(order=order)
        if kind == 7 and v.ndim:
            axis = rng.choice([None, *range(v.ndim)])
            keepdims = rng.random() < 0.5
            name = rng.choice(["sum", "mean"])
            return getattr(cp, name)(e, axis=axis,
                                     keepdims=keepdims), np.asarray(getattr(np, name)(v, axis=axis, keepdims=keepdims))
        if kind == 8 and v.ndim:
            axis = rng.randrange(v.ndim)
            return cp.cumsum(e, axis), np.cumsum(v, axis)
        if kind == 9 and v.ndim:
            f, w = (e + 1, v + 1) if rng.random() < 0.5 else (-e, -v)
            return (cp.hstack([e, f]), np.hstack([v, w])) if rng.random() < 0.5 else (cp.vstack([e, f]),
                                                                                      np.vstack([v, w]))
        if kind == 10 and v.ndim and v.shape[0] > 1:
            return cp.diff(e, axis=0), np.diff(v, axis=0)
        if kind == 11:
            C = self.constant(v.shape)
            return cp.multiply(C, e) - C, C * v - C
        return 3 - e, 3 - v

    def added(self, e, v, f, w):
        if v.size == 1 and w.size > 1:
            v = v.reshape(())
        if w.size == 1 and v.size > 1:
            w = w.reshape(())
        try:
            total = v + w
        except ValueError:
            return e, self.kept(e, v)
        return e + f, total

    @staticmethod
    def kept(e, v):
        return v.reshape(e.shape)

    def key(self, shape):
        parts = []
        for side in shape:
            parts.append(self.rng.choice([slice(None), self.rng.randrange(-side, side), slice(None, None, -1),
                                          slice(self.rng.randrange(side), None)]))
        if self.rng.random() < 0.3:
            return [self.rng.randrange(-shape[0], shape[0]) for _ in range(3)]
        return tuple(parts)

    def convex(self, depth: int):
        if depth == 0:
            return self.affine(2)
        e, v = self.convex(depth - 1)
        rng = self.rng
        kind = rng.randrange(9)
        if kind == 0:
            a, w = self.affine(2)
            return cp.abs(a), abs(w)
        if kind == 1:
            return cp.pos(e), np.maximum(v, 0)
        if kind == 2:
            c = self.constant(v.shape)
            return cp.maximum(e, c, 1), np.maximum(np.maximum(v, c), 1)
        if kind == 3 and v.ndim:
            axis = rng.choice([None, *range(v.ndim)])
            return cp.max(e, axis=axis), np.asarray(v.max(axis=axis))
        if kind == 4 and v.size > 1:
            k = rng.randint(1, v.size)
            return cp.sum_largest(e, k), np.asarray(np.sort(v.ravel())[::-1][:k].sum())
        if kind == 5:
            a, w = self.affine(1)
            return cp.norm1(a) + e, abs(w).sum() + v
        if kind == 6 and v.ndim == 1:
            return cp.cummax(e), np.maximum.accumulate(v)
        if kind == 7:
            a, w = self.affine(2)
            return cp.norm(cp.vec(a), "inf") + 2 * e, abs(w).max() + 2 * v
        return 2 * e + 1, 2 * v + 1


class Compositions(unittest.TestCase):
    """Random expressions."""

    def test_affine(self):
        self.compare(60, lambda maker: maker.affine(6))

    def test_convex(self):
        self.compare(60, lambda maker: maker.convex(4))

    def test_concave(self):
        self.compare(20, lambda maker: [-part for part in maker.convex(3)])

    def compare(self, count, make):
        kinds = set()
        for seed in range(count):
            with self.subTest(seed):
                e, v = make(Maker(seed))
                kinds.update(e.atoms())
                self.assertEqual(e.shape, v.shape, str(e))
                np.testing.assert_allclose(np.asarray(e.value, dtype=float), v, rtol=1e-9, atol=1e-9, err_msg=str(e))
                weighted = float((weights_of(v.shape) * v).sum())
                self.assertAlmostEqual(float(program_value(e)) / max(1, abs(weighted)),
                                       weighted / max(1, abs(weighted)), 9, str(e))
        self.assertGreater(len(kinds), 8)


if __name__ == "__main__":
    unittest.main()
