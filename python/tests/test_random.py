"""Random expressions have NumPy's values, through the recorder and the program, and random programs the answers of
scripts written by hand.

Each expression is formed twice, by `dcx.cvxpy` and by NumPy, at a random point. The program is asked for its weighted
sum where equalities fix all variables: the least one where it is convex, the greatest where it is concave, both where
it is affine. Weights are all different, so that an entry at another's place is another value.
"""
from __future__ import annotations

import random
import re
import unittest

import numpy as np

import dcx.cvxpy as cp
from dcx import atoms

AFFINE, CONVEX, CONCAVE = "affine", "convex", "concave"


class Case:
    """Variables of several shapes, fixed at random points, and what asks the program for expressions of them."""

    def __init__(self, seed):
        self.random = np.random.default_rng(seed)
        self.variables, self.points = [], []

    def numbers(self, shape, low=-9, high=9):
        """Random quarters, 0 rarely among them, in no order."""
        return self.random.integers(4 * low, 4 * high + 1, size=shape) / 4

    def variable(self, shape):
        x, point = cp.Variable(shape), self.numbers(shape)
        self.variables.append(x)
        self.points.append(point)
        return x, point

    def value(self, expression, objective):
        """The least or greatest weighted sum of an expression's entries, and the weights."""
        weights = self.random.permutation(np.arange(1, expression.size + 1)).reshape(expression.shape) / 4
        fixed = [x == point for x, point in zip(self.variables, self.points)]
        problem = cp.Problem(objective(cp.sum(cp.multiply(weights, expression))), fixed)
        problem.solve()
        if problem.status != "optimal":
            raise AssertionError(problem.status)
        return problem.exact, weights


class Expressions(unittest.TestCase):
    def check(self, case, expression, wanted, curvature, at=""):
        """The expression's shape is NumPy's, and so are its value by itself and by the program."""
        wanted = np.asarray(wanted, dtype=float)
        self.assertEqual(expression.shape, wanted.shape, at)
        for x, point in zip(case.variables, case.points):
            x.value = point
        np.testing.assert_allclose(np.asarray(expression.value, dtype=float), wanted, rtol=1e-9, atol=1e-9, err_msg=at)
        objectives = {AFFINE: [cp.Minimize, cp.Maximize], CONVEX: [cp.Minimize], CONCAVE: [cp.Maximize]}[curvature]
        for objective in objectives:
            value, weights = case.value(expression, objective)
            self.assertAlmostEqual(float(value), float((weights * wanted).sum()), delta=1e-8, msg=at)

    def each(self, rows):
        """Each row: what it is called, the shapes of its variables, the two forms, the curvature."""
        for seed, (name, shapes, formed, wanted, curvature) in enumerate(rows):
            with self.subTest(name):
                case = Case(seed)
                pairs = [case.variable(shape) for shape in shapes]
                self.check(case, formed(*[x for x, _ in pairs]), wanted(*[point for _, point in pairs]), curvature,
                           name)

    def same(self, rows):
        """As `each`, for affine forms that are written with the same text for arrays and for expressions."""
        self.each([(text, shapes, eval("lambda x, y=None: " + text, {"np": np, "cp": cp}),
                    eval("lambda x, y=None: " + text, {"np": np}), AFFINE)
                   for text, *shapes in rows])

    def test_operators(self):
        rows = []
        shapes = [(), (3,), (1,), (2, 3), (2, 1), (1, 3), (1, 1), (2, 2)]
        for left in shapes:
            for right in shapes:
                try:
                    np.broadcast_shapes(left, right)
                except ValueError:
                    continue
                # CVXPY takes a (1, 1) for a number beside a vector.
                if {left, right} != {(1, 1), (3,)}:
                    rows += [("x + y", left, right), ("x - y", left, right)]
        rows += [
            ("-x", (2, 3)), ("+x", (3,)), ("3*x", (2, 3)), ("x*0.25", (3,)), ("x/8", (2, 3)), ("2 - x", (3,)),
            ("x - 2", ()), ("x + np.array([1, 5, 2])", (2, 3)), ("np.array([[1], [7]]) - x", (2, 3)),
            ("np.array([1, 5, 2]) + x", ()), ("np.arange(6).reshape(2, 3) + x", (2, 3)), ("x.T", (2, 3)), ("x.T", (3,)),
            ("x.T", ()),
            ("(x.T + y).T", (2, 3), (3, 2)),
        ]
        self.same(rows)

    def test_one_entry_beside_a_vector(self):
        self.each([
            ("vector + (1, 1)", [(3,), (1, 1)], lambda x, y: x + y, lambda x, y: x + y[0, 0], AFFINE),
            ("(1, 1) - vector", [(3,), (1, 1)], lambda x, y: y - x, lambda x, y: y[0, 0] - x, AFFINE),
        ])

    def test_products(self):
        self.same([
            ("np.array([3, 1, 4]) @ x", (3,)), ("np.array([3, 1, 4]) @ x", (3, 2)), ("x @ np.array([3, 1, 4])", (3,)),
            ("x @ np.array([3, 1, 4])", (2, 3)), ("np.array([[3, 1, 4], [1, 5, 9]]) @ x", (3,)),
            ("np.array([[3, 1, 4], [1, 5, 9]]) @ x", (3, 2)), ("x @ np.array([[3, 1, 4], [1, 5, 9]])", (2,)),
            ("x @ np.array([[3, 1, 4], [1, 5, 9]])", (3, 2)), ("np.array([[2, 7]]) @ x @ np.array([[1], [8], [2]])",
                                                               (2, 3)),
            ("np.eye(3)[[2, 0]] @ x", (3,)), ("np.kron(np.eye(2), np.array([[1, 2]])) @ x", (4, 2)),
        ])
        with self.subTest("sparse"):
            import scipy.sparse as sp
            case = Case(5)
            x, point = case.variable(4)
            X, at = case.variable((4, 2))
            S = sp.csr_matrix(np.array([[0, 2, 0, 0], [0, 0, 0, 0], [5, 0, 0, 7]]))
            self.check(case, S @ x, S @ point, AFFINE)
            self.check(case, S @ X, S @ at, AFFINE)
            self.check(case, X.T @ S.T, at.T @ S.T, AFFINE)
            self.check(case, x @ sp.coo_matrix(S.T), point @ S.T.toarray(), AFFINE)
            self.check(case, cp.multiply(sp.csc_matrix(S.T), cp.vstack([X.T, X.T[0]]).T),
                       S.T.toarray() * np.vstack([at.T, at.T[0]]).T, AFFINE)

    def test_star_is_the_matrix_product_of_matrices(self):
        A, b = np.array([[3.0, 1, 4], [1, 5, 9]]), np.array([2, 7, 1])
        with self.assertWarnsRegex(UserWarning, "matrix multiplication"):
            self.check_star(A, b)

    def check_star(self, A, b):
        self.each([
            ("matrix * vector", [(3,)], lambda x: A * x, lambda x: A @ x, AFFINE),
            ("matrix * matrix", [(3, 2)], lambda x: A * x, lambda x: A @ x, AFFINE),
            ("vector * vector", [(3,)], lambda x: b * x, lambda x: b @ x, AFFINE),
            ("column * one", [(3, 1)], lambda x: x * np.array([[2]]), lambda x: x * 2, AFFINE),
        ])

    def test_indices(self):
        vector = [
            "x[2]", "x[-1]", "x[1:]", "x[:-2]", "x[::2]", "x[::-1]", "x[4:1:-2]", "x[1:99]", "x[[0, 3]]",
            "x[[2, 2, -1]]", "x[np.array([4, 1])]", "x[np.array([True, False, True, False, True])]", "x[:, None]",
            "x[None, :]", "x[...]", "x[np.newaxis, 1:4]", "x[range(1, 4)]", "x[np.int64(3)]",
            "x[np.array([[0, 1], [4, 2]])]",
        ]
        matrix = [
            "x[1]", "x[-1]", "x[1, 2]", "x[:, 1]", "x[0, :]", "x[1:, ::2]", "x[::-1, -2:]", "x[[2, 0]]", "x[:, [3, 1]]",
            "x[[0, 2], [1, 3]]", "x[np.ix_([0, 2], [1, 3])]", "x[x_mask]", "x[1, [0, 3]]", "x[[True, False, True]]",
            "x[:, np.array([True, False, False, True])]", "x[1:2, 1:2]", "x[..., 1]", "x[[2], :]",
            "x[np.triu_indices(3)]", "x[:, None, 1]", "x[2][1:3]", "x[1:][0, ::-1]",
        ]
        mask = "np.array([[1, 0, 0, 1], [0, 1, 0, 0], [1, 1, 0, 1]], dtype=bool)"
        self.same([(text, (5,)) for text in vector] + [(text.replace("x_mask", mask), (3, 4)) for text in matrix])

    def test_affine_calls(self):
        rows = []
        for shape in [(), (4,), (2, 3), (3, 1), (1, 3)]:
            axes = [None] + list(range(len(shape))) + [-1] * (len(shape) > 0)
            for axis in axes:
                for keep in (False, True):
                    rows += [
                        (f"sum {shape} {axis} {keep}", [shape], lambda x, a=axis, k=keep: cp.sum(x, axis=a, keepdims=k),
                         lambda x, a=axis, k=keep: x.sum(axis=a, keepdims=k), AFFINE),
                        (f"mean {shape} {axis} {keep}", [shape], lambda x, a=axis,
                         k=keep: cp.mean(x, axis=a, keepdims=k),
                         lambda x, a=axis, k=keep: x.mean(axis=a, keepdims=k), AFFINE),
                    ]
            for axis in range(len(shape)):
                rows.append((f"cumsum {shape} {axis}", [shape], lambda x, a=axis: cp.cumsum(x, a), lambda x,
                             a=axis: x.cumsum(axis=a), AFFINE))
            for order in "FC":
                rows.append((f"vec {shape} {order}", [shape], lambda x, o=order: cp.vec(x, order=o), lambda x,
                             o=order: x.flatten(o), AFFINE))
        for order in "FC":
            for old, new in [((2, 3), (3, 2)), ((6,), (2, 3)), ((2, 3), (6,)), ((2, 3), 6), ((4, 3), (2, -1)),
                             ((2, 3), (1, 6)), ((6,), (6, 1))]:
                rows.append((f"reshape {old} {new} {order}", [old], lambda x, s=new, o=order: cp.reshape(x, s, order=o),
                             lambda x, s=new, o=order: x.reshape(s, order=o), AFFINE))
            rows.append((f"flatten {order}", [(2, 3)], lambda x, o=order: x.flatten(order=o), lambda x,
                         o=order: x.flatten(order=o), AFFINE))
        for k in (1, 2, 3):
            rows.append((f"diff {k}", [(5,)], lambda x, k=k: cp.diff(x, k), lambda x, k=k: np.diff(x, k), AFFINE))
            for axis in (0, 1):
                rows.append((f"diff {k} {axis}", [(5, 4)], lambda x, k=k, a=axis: cp.diff(x, k=k, axis=a),
                             lambda x, k=k, a=axis: np.diff(x, k, axis=a), AFFINE))
        rows += [
            ("cumsum of a vector", [(4,)], lambda x: cp.cumsum(x), lambda x: x.cumsum(), AFFINE),
            ("trace", [(3, 3)], cp.trace, np.trace, AFFINE),
            ("diag of a vector", [(3,)], cp.diag, np.diag, AFFINE),
            ("diag of a matrix", [(3, 3)], cp.diag, np.diag, AFFINE),
            ("transpose", [(2, 3)], cp.transpose, np.transpose, AFFINE),
            ("hstack of vectors", [(3,), (2,)], lambda x, y: cp.hstack([x, y, 7]), lambda x, y: np.hstack([x, y, 7]),
             AFFINE),
            ("hstack of matrices", [(2, 3), (2, 1)], lambda x, y: cp.hstack([y, x]), lambda x, y: np.hstack([y, x]),
             AFFINE),
            ("hstack of a tuple", [(), ()], lambda x, y: cp.hstack((x, 1, y)), lambda x, y: np.hstack((x, 1, y)),
             AFFINE),
            ("vstack of vectors", [(3,), (3,)], lambda x, y: cp.vstack([x, y, [1, 2, 3]]), lambda x,
             y: np.vstack([x, y, [1, 2, 3]]), AFFINE),
            ("vstack of matrices", [(2, 3), (3,)], lambda x, y: cp.vstack([x, y]), lambda x, y: np.vstack([x, y]),
             AFFINE),
            ("vstack of numbers", [(), ()], lambda x, y: cp.vstack([x, y]), lambda x, y: np.vstack([x, y]), AFFINE),
            ("bmat", [(2, 2), (2, 1)], lambda x, y: cp.bmat([[x, y], [y.T, np.array([[7]])]]),
             lambda x, y: np.block([[x, y], [y.T, np.array([[7]])]]), AFFINE),
            ("sum of a list", [(2, 3)], lambda x: cp.sum([x[0], x[1], 1]), lambda x: x[0] + x[1] + 1, AFFINE),
            ("Python's sum", [(4,)], lambda x: sum(x), lambda x: sum(x), AFFINE),
            ("Python's sum of rows", [(2, 3)], lambda x: sum(x[i] for i in range(2)), lambda x: x.sum(axis=0), AFFINE),
            ("methods", [(2, 3)], lambda x: x.sum(axis=0) + x.mean(axis=0), lambda x: x.sum(axis=0) + x.mean(axis=0),
             AFFINE),
            ("in place", [(3,)], lambda x: sum_in_place(x), lambda x: 1 + 3 * x, AFFINE),
        ]
        for left, right in [((2, 3), (2, 3)), ((2, 3), (3,)), ((2, 3), (2, 1)), ((), (3,)), ((3,), ()),
                            ((1, 3), (2, 1)), ((2, 1), (3,))]:
            numbers = np.arange(1, 1 + int(np.prod(left))).reshape(left) / 2
            rows += [
                (f"multiply {left} {right}", [right], lambda x, n=numbers: cp.multiply(n, x), lambda x,
                 n=numbers: n * x, AFFINE),
                (f"multiply {right} {left}", [right], lambda x, n=numbers: cp.multiply(x, n), lambda x,
                 n=numbers: n * x, AFFINE),
                (f"divide {right} {left}", [right], lambda x, n=numbers: x / n, lambda x, n=numbers: x / n, AFFINE),
            ]
        self.each(rows)

    def test_convex_and_concave_calls(self):
        def largest(x, k):
            return np.sort(x, axis=None)[::-1][:k].sum()

        rows = []
        for shape in [(), (4,), (2, 3), (3, 1), (1, 3)]:
            rows += [
                (f"abs {shape}", [shape], cp.abs, np.abs, CONVEX),
                (f"Python's abs {shape}", [shape], abs, np.abs, CONVEX),
                (f"pos {shape}", [shape], cp.pos, lambda x: np.maximum(x, 0), CONVEX),
                (f"neg {shape}", [shape], cp.neg, lambda x: np.maximum(-x, 0), CONVEX),
                (f"maximum {shape}", [shape, ()], lambda x, y: cp.maximum(x, y, 1), lambda x,
                 y: np.maximum(np.maximum(x, y), 1), CONVEX),
                (f"minimum {shape}", [shape, shape], lambda x, y: cp.minimum(x, y), np.minimum, CONCAVE),
            ]
            size = int(np.prod(shape))
            for k in range(1, size + 1):
                rows += [
                    (f"sum_largest {shape} {k}", [shape], lambda x, k=k: cp.sum_largest(x, k), lambda x,
                     k=k: largest(x, k), CONVEX),
                    (f"sum_smallest {shape} {k}", [shape], lambda x, k=k: cp.sum_smallest(x, k), lambda x,
                     k=k: -largest(-x, k), CONCAVE),
                ]
            axes = [None] + list(range(len(shape))) + [-1] * (len(shape) > 0)
            for axis in axes:
                for keep in (False, True):
                    mark = f"{shape} {axis} {keep}"
                    rows += [
                        (f"max {mark}", [shape], lambda x, a=axis, k=keep: cp.max(x, axis=a, keepdims=k),
                         lambda x, a=axis, k=keep: x.max(axis=a, keepdims=k), CONVEX),
                        (f"min {mark}", [shape], lambda x, a=axis, k=keep: cp.min(x, axis=a, keepdims=k),
                         lambda x, a=axis, k=keep: x.min(axis=a, keepdims=k), CONCAVE),
                        (f"norm1 {mark}", [shape], lambda x, a=axis, k=keep: cp.norm1(x, axis=a, keepdims=k),
                         lambda x, a=axis, k=keep: np.abs(x).sum(axis=a, keepdims=k), CONVEX),
                        (f"norm_inf {mark}", [shape], lambda x, a=axis, k=keep: cp.norm_inf(x, axis=a, keepdims=k),
                         lambda x, a=axis, k=keep: np.abs(x).max(axis=a, keepdims=k), CONVEX),
                    ]
        for p in (1, "inf", np.inf):
            q = np.inf if p == "inf" else p
            rows += [
                (f"norm of a vector {p}", [(4,)], lambda x, p=p: cp.norm(x, p), lambda x, q=q: np.linalg.norm(x, q),
                 CONVEX),
                (f"norm of a matrix {p}", [(2, 3)], lambda x, p=p: cp.norm(x, p), lambda x, q=q: np.linalg.norm(x, q),
                 CONVEX),
                (f"norm of a column {p}", [(3, 1)], lambda x, p=p: cp.norm(x, p=p), lambda x, q=q: np.linalg.norm(x, q),
                 CONVEX),
            ]
            for axis in (0, 1):
                rows.append((f"norm {p} {axis}", [(2, 3)], lambda x, p=p, a=axis: cp.norm(x, p, axis=a),
                             lambda x, q=q, a=axis: np.linalg.norm(x, q, axis=a), CONVEX))
        rows += [
            ("tv", [(5,)], cp.tv, lambda x: np.abs(np.diff(x)).sum(), CONVEX),
            ("cummax", [(5,)], cp.cummax, np.maximum.accumulate, CONVEX),
            ("maximum of many", [(3,), (3,)], lambda x, y: cp.maximum(x, y, -x, 2 * y, np.array([1, 0, 2])),
             lambda x, y: np.max([x, y, -x, 2 * y, np.array([1, 0, 2])], axis=0), CONVEX),
            ("maximum that broadcasts", [(2, 1), (3,)], lambda x, y: cp.maximum(x, y), np.maximum, CONVEX),
            ("scalene", [(4,)], lambda x: cp.scalene(x, 2, 0.5),
             lambda x: 2 * np.maximum(x, 0) + 0.5 * np.maximum(-x, 0), CONVEX),
            ("max as a method", [(2, 3)], lambda x: x.max(axis=1), lambda x: x.max(axis=1), CONVEX),
            ("min as a method", [(2, 3)], lambda x: x.min(), lambda x: x.min(), CONCAVE),
        ]
        self.each(rows)

    def test_further_calls(self):
        """Those that the language lacks, and the recorder composes."""
        def largest(x, k):
            """The sum of the k largest entries, of which the last may count in part."""
            entries = np.sort(np.ravel(x))[::-1]
            return entries[:int(k)].sum() + (k - int(k)) * (entries[int(k)] if k > int(k) else 0)

        A, b = np.array([[3, 1], [0, 4]]), np.array([2.0, 0, 5])
        upper = np.triu_indices(3, 1)
        rows = [
            ("kron of an array", [(2, 3)], lambda x: cp.kron(A, x), lambda x: np.kron(A, x), AFFINE),
            ("kron by an array", [(2, 3)], lambda x: cp.kron(x, A), lambda x: np.kron(x, A), AFFINE),
            ("convolve", [(4,)], lambda x: cp.convolve(b, x), lambda x: np.convolve(b, x), AFFINE),
            ("convolve by a parameter", [(4,)], lambda x: cp.convolve(x, cp.Parameter(3, value=b)),
             lambda x: np.convolve(b, x), AFFINE),
            ("broadcast_to", [(3,)], lambda x: cp.broadcast_to(x, (2, 3)), lambda x: np.broadcast_to(x, (2, 3)),
             AFFINE),
            ("outer", [(3,)], lambda x: cp.outer(x, [1, 7]), lambda x: np.outer(x, [1, 7]), AFFINE),
            ("outer of an array", [(3,)], lambda x: cp.outer(b, x), lambda x: np.outer(b, x), AFFINE),
            ("vdot", [(3,)], lambda x: cp.vdot(b, x), lambda x: b @ x, AFFINE),
            ("scalar_product", [(3,)], lambda x: cp.scalar_product(x, b), lambda x: b @ x, AFFINE),
            ("matmul", [(2, 3)], lambda x: cp.matmul(A, x), lambda x: A @ x, AFFINE),
            ("upper_tri", [(3, 3)], cp.upper_tri, lambda x: x[upper].reshape(cp.upper_tri(np.eye(3)).shape), AFFINE),
            ("diag of an order", [(3,)], lambda x: cp.diag(x, 1), lambda x: np.diag(x, 1), AFFINE),
            ("diag of an order below", [(3,)], lambda x: cp.diag(x, k=-2), lambda x: np.diag(x, -2), AFFINE),
            ("diagonal of an order", [(4, 4)], lambda x: cp.diag(x, -1), lambda x: np.diag(x, -1), AFFINE),
            ("concatenate", [(2, 3), (1, 3)], lambda x, y: cp.concatenate([x, y]), lambda x, y: np.concatenate([x, y]),
             AFFINE),
            ("concatenate of columns", [(2, 3), (2, 1)], lambda x, y: cp.concatenate([x, y], axis=1),
             lambda x, y: np.concatenate([x, y], axis=1), AFFINE),
            ("stack", [(3,), (3,)], lambda x, y: cp.stack([x, y]), lambda x, y: np.stack([x, y]), AFFINE),
            ("stack of columns", [(3,), (3,)], lambda x, y: cp.stack([x, y], axis=1), lambda x,
             y: np.stack([x, y], axis=1), AFFINE),
            ("swapaxes", [(2, 3)], lambda x: cp.swapaxes(x, 0, 1), lambda x: x.swapaxes(0, 1), AFFINE),
            ("permute_dims", [(2, 3)], lambda x: cp.permute_dims(x, (1, 0)), lambda x: x.transpose(1, 0), AFFINE),
            ("squeeze", [(1, 3)], cp.squeeze, np.squeeze, AFFINE),
            ("expand_dims", [(3,)], lambda x: cp.expand_dims(x, 1), lambda x: np.expand_dims(x, 1), AFFINE),
            ("ptp", [(2, 3)], cp.ptp, np.ptp, CONVEX),
            ("mixed_norm", [(2, 3)], lambda x: cp.mixed_norm(x, 1, "inf"), lambda x: np.abs(x).sum(axis=1).max(),
             CONVEX),
            ("mixed_norm of norms", [(2, 3)], lambda x: cp.mixed_norm(x, "inf", 1),
             lambda x: np.abs(x).max(axis=1).sum(), CONVEX),
            ("pnorm", [(4,)], lambda x: cp.pnorm(x, 1), lambda x: np.abs(x).sum(), CONVEX),
            ("dotsort", [(4,)], lambda x: cp.dotsort(x, [3, 1, 0, 2]), lambda x: np.sort(x) @ [0, 1, 2, 3], CONVEX),
            ("dotsort of fewer", [(4,)], lambda x: cp.dotsort(x, [3, 1]), lambda x: np.sort(x) @ [0, 0, 1, 3], CONVEX),
            ("cummax of a matrix", [(3, 2)], lambda x: cp.cummax(x, axis=0), lambda x: np.maximum.accumulate(x, axis=0),
             CONVEX),
            ("cummax along a row", [(3, 2)], lambda x: cp.cummax(x, axis=1), lambda x: np.maximum.accumulate(x, axis=1),
             CONVEX),
        ]
        for beta in (0, 0.5, 0.8, 0.9):
            rows.append((f"cvar {beta}", [(5,)], lambda x, b=beta: cp.cvar(x, b), lambda x,
                         k=5 - 5 * beta: largest(x, k) / k, CONVEX))
        for k in (0.5, 1.25, 3.75):
            rows += [(f"sum_largest {k}", [(5,)], lambda x, k=k: cp.sum_largest(x, k), lambda x, k=k: largest(x, k),
                      CONVEX),
                     (f"sum_smallest {k}", [(5,)], lambda x, k=k: cp.sum_smallest(x, k), lambda x, k=k: -largest(-x, k),
                      CONCAVE)]
        for strict, size in ((False, 6), (True, 3)):
            def matrix(x, strict=strict):
                made = np.zeros((3, 3))
                made[np.triu_indices(3, int(strict))] = x
                return made
            rows.append((f"vec_to_upper_tri {strict}", [(size,)], lambda x, s=strict: cp.vec_to_upper_tri(x, s), matrix,
                         AFFINE))
        self.each(rows)

    def test_each_call_is_tried(self):
        with open(__file__) as file:
            tried = set(re.findall(r"\bcp\.(\w+)", file.read()))
        self.assertEqual(set(atoms.__all__) - tried, {"conv", "norm2"},
                         "one is `convolve` under an older name, and one is refused")

    def test_compositions(self):
        """Expressions of random depth, of variables and parameters."""
        for seed in range(120):
            with self.subTest(seed=seed):
                case = Case(1000 + seed)
                grown = Grown(case, random.Random(seed))
                expression, wanted, curvature = grown.convex(3, grown.random.choice([(), (3,), (2, 3)]))
                if seed % 2:
                    expression, wanted, curvature = -expression, -wanted, CONCAVE
                self.check(case, expression, wanted, curvature, f"seed {seed}")


def sum_in_place(x):
    total = 1
    for _ in range(3):
        total += x
    return total


class Grown:
    """A random convex expression of a shape, grown from the root, beside its value by NumPy."""

    def __init__(self, case, random):
        self.case, self.random = case, random

    def affine(self, depth, shape):
        choice = self.random.choice(["leaf", "sum", "scaled", "product", "index", "reduce"]) if depth else "leaf"
        if choice == "sum":
            (a, at_a), (b, at_b) = self.affine(depth - 1, shape), self.affine(depth - 1,
                                                                              self.random.choice([shape, ()]))
            return (a + b, at_a + at_b) if self.random.random() < 0.5 else (b - a, at_b - at_a)
        if choice == "scaled":
            a, at = self.affine(depth - 1, shape)
            numbers = self.case.numbers(shape)
            return cp.multiply(numbers, a), numbers * at
        if choice == "product" and shape:
            inner = self.random.randint(1, 3)
            matrix = self.case.numbers((shape[0], inner), -3, 3)
            a, at = self.affine(depth - 1, (inner, *shape[1:]))
            return matrix @ a, matrix @ at
        if choice == "index":
            more = tuple(side + self.random.randint(0, 2) for side in shape)
            a, at = self.affine(depth - 1, more or (3,))
            if not shape:
                k = self.random.randint(-3, 2)
                return a[k], at[k]
            key = tuple(slice(side - old, None) if self.random.random() < 0.5 else self.random.sample(range(side), old)
                        for side, old in zip(more, shape))
            key = key if any(isinstance(k, slice) for k in key) else np.ix_(*key)
            return a[key], at[key]
        if choice == "reduce":
            axis = self.random.randint(0, len(shape)) if len(shape) < 2 else None
            if axis is None:
                return self.affine(depth - 1, shape)
            longer = list(shape)
            longer.insert(axis, 2)
            a, at = self.affine(depth - 1, tuple(longer))
            return cp.sum(a, axis=axis), at.sum(axis=axis)
        if self.random.random() < 0.2:
            point = self.case.numbers(shape)
            return cp.Parameter(shape, value=point), point
        return self.case.variable(shape)

    def convex(self, depth, shape):
        """The expression, its value, and that it is convex."""
        choice = self.random.choice(["abs", "pos", "maximum", "sum", "scaled", "max", "norm", "largest",
                                     "row"]) if depth else "abs"
        broader = (*shape, 3) if len(shape) < 2 else None
        if choice == "pos":
            a, at, _ = self.convex(depth - 1, shape)
            (b, at_b) = self.affine(1, shape)
            return cp.pos(a + b), np.maximum(at + at_b, 0), CONVEX
        if choice == "maximum":
            a, at, _ = self.convex(depth - 1, shape)
            b, at_b = self.affine(2, self.random.choice([shape, ()]))
            return cp.maximum(a, b), np.maximum(at, at_b), CONVEX
        if choice == "sum":
            a, at, _ = self.convex(depth - 1, shape)
            b, at_b, _ = self.convex(depth - 1, self.random.choice([shape, ()]))
            return a + b, at + at_b, CONVEX
        if choice == "scaled":
            a, at, _ = self.convex(depth - 1, shape)
            numbers = np.abs(self.case.numbers(shape))
            return cp.multiply(a, numbers), at * numbers, CONVEX
        if choice == "max" and broader:
            a, at, _ = self.convex(depth - 1, broader)
            return cp.max(a, axis=len(shape)), at.max(axis=len(shape)), CONVEX
        if choice == "norm" and broader:
            a, at = self.affine(2, broader)
            if self.random.random() < 0.5:
                return cp.norm1(a, axis=len(shape)), np.abs(at).sum(axis=len(shape)), CONVEX
            return cp.norm_inf(a, axis=len(shape)), np.abs(at).max(axis=len(shape)), CONVEX
        if choice == "largest" and not shape:
            a, at, _ = self.convex(depth - 1, (4,))
            return cp.sum_largest(a, 2), np.sort(at)[2:].sum(), CONVEX
        if choice == "row" and len(shape) == 1:
            a, at, _ = self.convex(depth - 1, (2, *shape))
            return a[1], at[1], CONVEX
        a, at = self.affine(2, shape)
        return cp.abs(a), np.abs(at), CONVEX


if __name__ == "__main__":
    unittest.main()
