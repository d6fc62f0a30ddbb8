"""What the rules find: of models of any size, and by the program and by the second reading alike."""
from __future__ import annotations

import random
import unittest

import numpy as np
from scipy import sparse

import dcx.cvxpy as cp
from dcx import judging, verdicts
from dcx.errors import LimitError


class Mixed:
    """Random expressions of three entries, of which about as many break the rules as keep them."""

    def __init__(self, seed: int):
        self.rng = random.Random(seed)
        self.leaves = [
            cp.Variable(3), cp.Variable(3, nonneg=True), cp.Variable(3, nonpos=True), cp.Variable(3, boolean=True),
            cp.Variable((3, 3), symmetric=True)[0], cp.Parameter(3), cp.Parameter(3, nonneg=True),
            cp.Parameter(3, nonpos=True), cp.Constant([1, 2, 0]), cp.Constant([-1, 0, -2]), cp.Constant([1, -1, 2]),
            cp.Constant([0, 0, 0]), cp.Variable(), cp.Parameter(), cp.Constant(-2), cp.Variable((3, 3), diag=True)[1],
        ]

    def made(self, depth: int):
        if depth == 0:
            return self.rng.choice(self.leaves)
        a, b = self.made(depth - 1), self.made(self.rng.randrange(depth))
        wide = cp.vstack([a + np.zeros(3), b + np.zeros(3)])
        matrix = np.array(self.rng.choice([[[1, 0, 2], [0, 1, 0], [3, 0, 0]], [[1, -1, 0], [0, 2, 0], [0, 0, -3]]]))
        return self.rng.choice([
            lambda: a + b, lambda: a - b, lambda: cp.multiply(a, b), lambda: -a, lambda: cp.abs(a), lambda: cp.pos(a),
            lambda: cp.neg(a), lambda: cp.maximum(a, b), lambda: cp.minimum(a, b, 1), lambda: 2 * a, lambda: -3 * a,
            lambda: a / 4, lambda: matrix @ (a + np.zeros(3)), lambda: wide.T[:, 0], lambda: wide[1, ::-1],
            lambda: cp.sum(wide, axis=0), lambda: cp.max(wide, axis=0), lambda: cp.min(wide, axis=0),
            lambda: cp.norm1(wide, axis=0), lambda: cp.norm_inf(wide, axis=0), lambda: cp.mean(wide, axis=0),
            lambda: cp.sum_largest(wide, 2), lambda: cp.sum_smallest(wide, 4), lambda: cp.tv(wide[0]),
            lambda: cp.cumsum(wide, axis=0)[1], lambda: cp.cummax(wide[0]), lambda: cp.trace(wide[:, :2]),
            lambda: cp.diag(cp.hstack([cp.vec(a), 1])[:3])[0] if a.size == 3 else a,
            lambda: cp.diff(cp.hstack([wide[0], 0])), lambda: cp.reshape(wide, (3, 2), order="C")[:, 1],
            lambda: cp.sum(a) * cp.Parameter(nonneg=True), lambda: (a + np.zeros(3)) @ np.array([1, 2, 3]),
        ])()


class Random(unittest.TestCase):
    def test_both_readings_agree(self):
        """On objectives and constraints; each answer comes often enough for a mistake to be seen."""
        seen: dict = {}
        for seed in range(500):
            mixed = Mixed(seed)
            objective = random.Random(seed).choice([cp.Minimize, cp.Maximize])(cp.sum(mixed.made(1 + seed % 3)))
            rules = [[mixed.made(1) <= mixed.made(1)], [mixed.made(1) == 1]][seed % 2] if seed % 5 == 0 else []
            problem = cp.Problem(objective, rules)
            with self.subTest(seed=seed):
                found = verdicts._of_program(problem.written)
                self.assertEqual(judging.verdict(problem), found, problem)
            kind = None if found is None else (found[1], found[2])
            seen[kind] = seen.get(kind, 0) + 1
        for kind in (None, *((curvature, True) for curvature in ("constant", "affine", "convex", "concave"))):
            self.assertGreater(seen[kind], 10, seen)
        self.assertGreater(sum(count for kind, count in seen.items() if kind and not kind[1]), 5, seen)


class BeyondLimits(unittest.TestCase):
    """Models that the program's language doesn't hold, which CVXPY judges all the same."""

    def test_many_entries(self):
        X, p = cp.Variable((200, 200)), cp.Parameter((200, 200), nonneg=True)
        with self.assertRaises(LimitError):
            cp.Problem(cp.Minimize(cp.sum(cp.abs(X)))).script()
        for e, curvature, sign, is_dpp in [
            (cp.abs(X), "CONVEX", "NONNEGATIVE", True), (-cp.abs(X), "CONCAVE", "NONPOSITIVE", True),
            (X + 1, "AFFINE", "UNKNOWN", True), (cp.multiply(p, cp.abs(X)), "CONVEX", "NONNEGATIVE", True),
            (cp.multiply(p, p + X) + p, "AFFINE", "UNKNOWN", False), (cp.abs(X) - cp.abs(X.T), "UNKNOWN", "UNKNOWN",
                                                                      False),
            (cp.minimum(X, 0) - cp.pos(X), "CONCAVE", "NONPOSITIVE", True), (0 * X, "AFFINE", "ZERO", True),
            (cp.max(cp.maximum(X, 1), axis=0), "CONVEX", "NONNEGATIVE", True),
            (cp.Constant(np.ones((150, 150))) - 2 * np.ones((150, 150)), "CONSTANT", "NONPOSITIVE", True),
        ]:
            with self.subTest(str(e)):
                self.assertEqual((e.curvature, e.sign, e.is_dpp()), (curvature, sign, is_dpp))
                self.assertEqual((e.is_dcp(), e.is_dcp(dpp=True)), (curvature != "UNKNOWN", is_dpp))
        for rule, is_dcp in [
            (cp.abs(X) <= 1, True), (cp.abs(X) >= 1, False), (X == p, True), (cp.abs(X) == 1, False),
            (cp.abs(X) <= cp.minimum(X, 1), True),
        ]:
            self.assertEqual((rule.is_dcp(), rule.is_dpp()), (is_dcp, is_dcp), str(rule))
        for objective, is_dcp in ((cp.Minimize(cp.sum(cp.abs(X))), True), (cp.Maximize(cp.sum(cp.abs(X))), False)):
            problem = cp.Problem(objective, [X >= 1])
            self.assertEqual((problem.is_dcp(), problem.is_dpp(), objective.is_dcp()), (is_dcp, is_dcp, is_dcp))
        self.assertFalse(cp.Problem(cp.Minimize(0), [cp.abs(X) >= 1]).is_dcp())

    def test_a_large_sparse_matrix(self):
        A = sparse.random(250, 250, 0.4, random_state=1, format="lil")
        x = cp.Variable(250)
        self.assertEqual((A @ cp.abs(x)).curvature, "CONVEX")
        self.assertEqual((A @ x - 1).curvature, "AFFINE")
        self.assertEqual((-A @ cp.abs(x)).sign, "NONPOSITIVE")
        A[0, 0], A[0, 1] = -1, 1
        self.assertEqual((A @ cp.abs(x)).curvature, "UNKNOWN")

    def test_many_nodes_and_long_numbers(self):
        x = cp.Variable()
        total = sum(cp.abs(x - k) for k in range(5_500))
        self.assertEqual((total.curvature, total.sign), ("CONVEX", "NONNEGATIVE"))
        self.assertTrue(cp.Problem(cp.Minimize(total), [x >= k for k in range(3)]).is_dcp())
        self.assertTrue(cp.Problem(cp.Minimize(x), [x >= k for k in range(20_001)]).is_dcp())
        self.assertEqual((10**40 * cp.abs(x)).curvature, "CONVEX")
        self.assertFalse((10**40 * cp.abs(x) >= 1).is_dcp())


if __name__ == "__main__":
    unittest.main()
