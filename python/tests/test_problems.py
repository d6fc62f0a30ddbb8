"""Problems: their values against SciPy's solvers, their multipliers, rays and reasons checked in fractions, and the
surface that CVXPY has."""

from __future__ import annotations

import contextlib
import io
import random
import subprocess
import sys
import tempfile
import unittest
import warnings
from fractions import Fraction
from pathlib import Path
from unittest import mock

import numpy as np
import scipy.sparse as sparse
from scipy.optimize import LinearConstraint, linprog, milp

import dcx.cvxpy as cp
from dcx import program
from dcx.errors import DCPError, DPPError, DCXError, ParameterError, SolverError, UnsupportedError

LINES = Path(__file__).read_text().splitlines()
INFINITY = float("inf")


def line_of(mark):
    """The number of the line of this file that ends with a comment."""
    (number,) = [number for number, line in enumerate(LINES, 1) if line.endswith(f"# {mark}")]
    return number


def dot(left, right):
    return sum((a * b for a, b in zip(left, right)), Fraction(0))


class Linear:
    """A linear program: least `c x` where `A x <= b`, `E x == d`, and the first of x are not below 0."""

    def __init__(self, draw):
        def numbers(*shape):
            drawn = [draw.choice([-3, -2, -1, 0, 0, 1, 2, 5]) for _ in range(int(np.prod(shape)))]
            return np.array(drawn).reshape(shape)

        self.n, self.signed = draw.randint(3, 5), draw.randint(0, 2)
        rows, equal = draw.randint(1, 6), draw.randint(0, 2)
        self.c, self.A, self.b = numbers(self.n), numbers(rows, self.n), numbers(rows) + draw.choice([0, 4])
        self.E, self.d = numbers(equal, self.n), numbers(equal)

    def by_scipy(self):
        bounds = [(0, None)] * self.signed + [(None, None)] * (self.n - self.signed)
        equal = (self.E, self.d) if len(self.d) else (None, None)
        return linprog(self.c, self.A, self.b, *equal, bounds, method="highs")

    def problem(self, maximized):
        x, y = cp.Variable(max(self.signed, 1), nonneg=True), cp.Variable(self.n - self.signed)
        self.x = cp.hstack([x[: self.signed], y]) if self.signed else y
        self.leaves = [x, y] if self.signed else [y]
        self.rules = [self.A @ self.x <= self.b]
        if len(self.d):
            self.rules.append(self.E @ self.x == self.d)
        return cp.Problem(cp.Maximize(-self.c @ self.x) if maximized else cp.Minimize(self.c @ self.x), self.rules)

    def left(self, weights):
        """What the multipliers and the weighted objective leave at each entry of x."""
        by_rule = [(self.A, weights[0])] + ([(self.E, weights[1])] if len(self.d) else [])
        return [sum(dot(matrix[:, j], duals) for matrix, duals in by_rule) for j in range(self.n)]

    def right(self, weights):
        return dot(weights[0], self.b) + (dot(weights[1], self.d) if len(self.d) else 0)


class Answers(unittest.TestCase):
    def test_random_linear_programs(self):
        draw = random.Random(7)
        seen = {"optimal": 0, "infeasible": 0, "unbounded": 0}
        for number in range(60):
            model = Linear(draw)
            found = model.by_scipy()
            problem = model.problem(maximized=number % 2 == 1)
            sign = -1 if number % 2 else 1
            value = problem.solve()
            status = {0: "optimal", 2: "infeasible", 3: "unbounded"}.get(found.status)
            if status is None:  # HiGHS may leave it open which of the two; fractions show it below
                self.assertIn(problem.status, ("infeasible", "unbounded"))
                status = problem.status
            self.assertEqual(problem.status, status)
            seen[status] += 1
            getattr(self, status)(model, problem, sign, value, found)
        self.assertGreater(min(seen.values()), 5, seen)

    def optimal(self, model, problem, sign, value, found):
        """The value is that of HiGHS; the point is feasible, and the multipliers show that none is better: in
        fractions."""
        self.assertAlmostEqual(value, sign * found.fun, places=6)
        self.assertEqual(value, float(problem.exact))
        x = [entry for leaf in model.leaves for entry in leaf.exact.tolist()]
        self.assertTrue(all(isinstance(entry, Fraction) for entry in x))
        self.assertTrue(all(entry >= 0 for entry in x[: model.signed]))
        self.assertTrue(all(dot(row, x) <= bound for row, bound in zip(model.A, model.b)))
        self.assertTrue(all(dot(row, x) == bound for row, bound in zip(model.E, model.d)))
        self.assertEqual(sign * dot(model.c, x), problem.exact)
        weights = [rule.exact_dual.tolist() for rule in model.rules]
        self.assertTrue(all(weight >= 0 for weight in weights[0]))
        left = [cost + rest for cost, rest in zip(model.c, model.left(weights))]
        self.assertTrue(all(rest >= 0 for rest in left[: model.signed]) and not any(left[model.signed :]))
        self.assertEqual(-model.right(weights), sign * problem.exact)
        np.testing.assert_array_equal(model.rules[0].dual_value, np.array(weights[0], dtype=float))
        self.assertIsNone(problem.ray)
        self.assertIsNone(problem.farkas)

    def infeasible(self, model, problem, sign, value, found):
        """Multipliers show that no point is feasible: left minus right sums to at least the gap at each x of the
        domain."""
        self.assertEqual(value, sign * INFINITY)
        self.assertEqual(problem.value, value)
        self.assertIsNone(problem.exact)
        self.assertIsNone(model.leaves[0].value)
        self.assertIsNone(model.rules[0].dual_value)
        weights = [problem.farkas.multipliers[rule].tolist() for rule in model.rules]
        self.assertTrue(all(weight >= 0 for weight in weights[0]))
        left = model.left(weights)
        self.assertTrue(all(rest >= 0 for rest in left[: model.signed]) and not any(left[model.signed :]))
        self.assertGreater(problem.farkas.gap, 0)
        self.assertGreaterEqual(-model.right(weights), problem.farkas.gap)

    def unbounded(self, model, problem, sign, value, found):
        """Along the ray all stays feasible, and the objective goes on."""
        self.assertEqual(value, -sign * INFINITY)
        self.assertIsNone(model.leaves[0].value)
        ray = problem.ray
        both = (ray.point, ray.direction)
        point, way = ([entry for leaf in model.leaves for entry in of[leaf].tolist()] for of in both)
        for x, right, equal in ((point, model.b, model.d), (way, [0] * len(model.b), [0] * len(model.d))):
            self.assertTrue(all(entry >= 0 for entry in x[: model.signed]))
            self.assertTrue(all(dot(row, x) <= bound for row, bound in zip(model.A, right)))
            self.assertTrue(all(dot(row, x) == bound for row, bound in zip(model.E, equal)))
        self.assertGreater(ray.slope, 0)
        self.assertLessEqual(dot(model.c, way), -ray.slope)
        self.assertLessEqual(dot(model.c, point), sign * ray.bound)

    def test_whole_numbers(self):
        draw = np.random.default_rng(4)
        for number in range(12):
            weights, worth = draw.integers(2, 20, (2, 6)), draw.integers(1, 30, 6)
            limits = weights.sum(axis=1) // 2
            x = cp.Variable(6, boolean=True) if number % 2 else cp.Variable(6, integer=True, nonneg=True)
            rules = [weights @ x <= limits, x <= (1 if number % 2 else 3)]
            problem = cp.Problem(cp.Maximize(worth @ x), rules)
            most, kept = 1 if number % 2 else 3, LinearConstraint(weights, ub=limits)
            best = milp(-worth, constraints=kept, integrality=np.ones(6), bounds=(0, most))
            self.assertTrue(problem.is_mixed_integer())
            self.assertAlmostEqual(problem.solve(), -best.fun, places=6)
            self.assertTrue(np.all(weights @ x.value <= limits) and np.all(x.value == np.round(x.value)))
            self.assertEqual(worth @ x.exact, problem.exact)
            self.assertIsNone(rules[0].dual_value)
            self.assertGreaterEqual(problem.solver_stats.extra_stats["nodes"], 1)

    def test_no_whole_number(self):
        x = cp.Variable(integer=True)
        problem = cp.Problem(cp.Minimize(x), [2 * x == 3, x <= 4, x >= -4])
        found = (problem.solve(), problem.status, problem.farkas, x.value)
        self.assertEqual(found, (INFINITY, "infeasible", None, None))

    def test_shapes_of_answers(self):
        x, y, z = cp.Variable((2, 2), symmetric=True), cp.Variable(), cp.Variable((1, 3))
        rules = [x >= [[1, 2], [4, 3]], y == 2, z >= np.array([[1, 2, 3]]), cp.sum(z) >= y]
        problem = cp.Problem(cp.Minimize(cp.sum(x) + y + cp.sum(z)), rules)
        self.assertEqual(problem.solve(), 1 + 4 + 4 + 3 + 2 + 6)  # the greater of both sides of the diagonal, twice
        np.testing.assert_array_equal(x.value, [[1, 4], [4, 3]])
        self.assertIsInstance(y.value, float)
        self.assertEqual((y.value, z.value.shape, rules[0].dual_value.shape), (2, (1, 3), (2, 2)))
        self.assertEqual(rules[3].dual_value, 0)

    def test_multipliers_have_the_signs_of_cvxpy(self):
        """Lagrangians worked out by hand: times left minus right, added to the minimized objective."""
        x, y = cp.Variable(), cp.Variable()
        least, equal, turned = x >= 2, x + 2 * y == 8, 7 == y + 3 * x
        cp.Problem(cp.Minimize(3 * x + 4 * y), [least, equal]).solve()
        # 3x + 4y + l (2 - x) + m (x + 2y - 8): m = -2, l = 1
        self.assertEqual((least.dual_value, equal.dual_value), (1, -2))
        cp.Problem(cp.Maximize(-x), [least, y == 0]).solve()
        self.assertEqual(least.dual_value, 1)
        cp.Problem(cp.Minimize(y), [turned, x <= 1]).solve()
        # `7 == y + 3x` is recorded by Python as y + 3x == 7: y + m (y + 3x - 7) + l (x - 1): m = -1, l = 3
        self.assertEqual((turned.dual_value, y.value), (-1, 4))
        same = x + y == y + 2 * x - 3
        cp.Problem(cp.Minimize(x), [same, y == 0]).solve()
        # x + m (x + y - y - 2x + 3): m = 1
        self.assertEqual((same.dual_value, x.value), (1, 3))
        variable_right = x + y == y
        cp.Problem(cp.Minimize(2 * x), [variable_right, y == 1]).solve()
        self.assertEqual(variable_right.dual_value, -2)

    def test_constraints_of_attributes(self):
        x = cp.Variable(3, bounds=[-1, np.array([5, 6, 7])])
        rule = cp.sum(x) >= 4
        problem = cp.Problem(cp.Minimize(x @ [1, 2, 3]), [rule])
        best = linprog([1, 2, 3], [[-1, -1, -1]], [-4], bounds=[(-1, 5), (-1, 6), (-1, 7)], method="highs")
        self.assertAlmostEqual(problem.solve(), best.fun)
        self.assertEqual(problem.constraints, [rule])
        self.assertEqual(list(problem.solution.dual_vars), [rule.id])
        self.assertEqual(rule.dual_value, 2)  # x1 is 5, x3 is -1, and x2 between its ends

    def test_parameters_change_without_a_new_script(self):
        x, p = cp.Variable(2), cp.Parameter(2)
        problem = cp.Problem(cp.Minimize(cp.norm1(x)), [x >= p])
        with mock.patch("dcx.problems.written", wraps=__import__("dcx.scripts").scripts.written) as writes:
            for value in ([1, 2], [0.1, 3], [-1, 5]):
                p.value = value
                self.assertAlmostEqual(problem.solve(), sum(max(number, 0) for number in value))
            self.assertEqual(writes.call_count, 1)
        self.assertIn("p1 = [-1, 5]", problem.settings())
        p.value = x.value  # what comes of one step goes into the next
        self.assertEqual(problem.solve(), 5)

    def test_truth_values_as_constraints(self):
        x = cp.Variable()
        self.assertEqual(cp.Problem(cp.Minimize(x), [x >= 1, True, np.bool_(True)]).solve(), 1)
        with self.assertWarnsRegex(UserWarning, "One of the constraints is False") as caught:
            self.assertEqual(cp.Problem(cp.Minimize(x), [x >= 1, False]).solve(), INFINITY)
        self.assertEqual(caught.filename, __file__)

    def test_an_array_s_own_product(self):
        """NumPy makes an array of expressions of `A.dot(x)`; what is told names what to write."""
        A, x = np.eye(3), cp.Variable(3)
        for ask in (lambda: cp.Minimize(np.ones(3).dot(x)), lambda: cp.sum(A.dot(x)), lambda: A.dot(x) + x):
            with self.assertRaisesRegex(ValueError, "single expression, .* write A @ x"):
                ask()
        with self.assertRaises(UnsupportedError):
            A.dot(x) <= 1
        with warnings.catch_warnings():
            warnings.simplefilter("ignore", DeprecationWarning)
            equal = A.dot(x) == np.ones(3)
        with self.assertWarnsRegex(UserWarning, "write A @ x"):
            cp.Problem(cp.Minimize(x[0]), [equal])

    def test_what_is_multiplied_by_zeros_alone(self):
        """It doesn't stand in the script, and has the value 0, or one within its bounds."""
        x, y, z = cp.Variable(2), cp.Variable(2, symmetric=False), cp.Variable(2, bounds=[3, 4])
        p, zeros = cp.Parameter(2, name="p", value=[5, 6]), sparse.csr_matrix((30, 2))
        rules = [x >= 1, zeros @ y <= 1, zeros @ z <= 1, zeros @ p <= 1]
        problem = cp.Problem(cp.Minimize(cp.sum(x)), rules)
        self.assertEqual((problem.solve(), y.value.tolist(), problem.written.names[x]), (2, [0, 0], "x1"))
        self.assertTrue(all(3 <= entry <= 4 for entry in z.value))
        self.assertNotIn("p", problem.settings())
        (result,) = problem.solve_at([{p: [1, 2]}])
        self.assertEqual(result[y].tolist(), [0, 0])
        cp.Problem(cp.Minimize(cp.sum(x)), [*rules, x <= 0]).solve()
        self.assertIsNone(y.value)

    def test_without_constraints_and_variables(self):
        self.assertEqual(cp.Problem(cp.Minimize(3)).solve(), 3)
        self.assertEqual(cp.Problem(cp.Maximize(cp.Constant([1, 2]) @ [3, 4]), []).solve(), 11)
        self.assertEqual(cp.Problem(cp.Minimize(0), [cp.Constant(2) <= 1]).solve(), INFINITY)

    def test_without_numpy(self):
        code = (
            "import sys; sys.modules['numpy'] = None; sys.path.insert(0, sys.argv[1]); import dcx.cvxpy as cp\n"
            "x = cp.Variable((2, 2)); r = x >= [[1, 2], [3, 0.5]]; q = cp.Problem(cp.Minimize(cp.sum(x)), [r])\n"
            "print(q.solve(), x.value, r.dual_value, q.exact)"
        )
        words = [sys.executable, "-c", code, str(Path(__file__).parents[1])]
        done = subprocess.run(words, capture_output=True, text=True)
        self.assertEqual(done.stdout, "6.5 [[1.0, 3.0], [2.0, 0.5]] [[1.0, 1.0], [1.0, 1.0]] 13/2\n", done.stderr)


class Surface(unittest.TestCase):
    def model(self):
        x, y, p = cp.Variable(2, name="x"), cp.Variable(name="y", boolean=True), cp.Parameter(name="p", nonneg=True)
        rules = [x >= p, cp.sum(x) == 3 + y, cp.norm1(x) <= 9]
        return cp.Problem(cp.Minimize(cp.max(x) + y), rules), x, y, p

    def test_what_it_is_made_of(self):
        problem, x, y, p = self.model()
        self.assertEqual([item.name() for item in problem.variables()], ["x", "y"])
        self.assertEqual((problem.var_dict, problem.param_dict), ({"x": x, "y": y}, {"p": p}))
        self.assertEqual([float(item.value) for item in problem.constants()], [3, 9])
        self.assertEqual(set(problem.atoms()), {"max", "+", "sum", "norm1"})
        self.assertEqual(problem.size_metrics, (3, 3, 1, 3))
        self.assertTrue(problem.is_dcp() and problem.is_dpp() and problem.is_qp() and problem.is_mixed_integer())
        for word in ("status", "value", "exact", "report", "solver_stats", "solution", "ray", "farkas"):
            self.assertIsNone(getattr(problem, word), word)

    def test_lists_that_grow_later_change_nothing(self):
        x = cp.Variable()
        rules = [x >= 1]
        problem = cp.Problem(cp.Minimize(x), rules)
        rules.append(x >= 2)
        problem.constraints.append(x >= 3)
        self.assertEqual((problem.solve(), len(problem.constraints)), (1, 1))
        self.assertEqual(cp.Problem(cp.Minimize(x), (x >= k for k in range(4))).solve(), 3)

    def test_the_rules(self):
        x, p = cp.Variable(), cp.Parameter(nonneg=True)
        self.assertFalse(cp.Problem(cp.Maximize(cp.abs(x))).is_dcp())
        problem = cp.Problem(cp.Minimize(cp.abs(x) * p * p), [x >= 1])
        self.assertEqual((problem.is_dcp(), problem.is_dpp(), problem.is_dcp(dpp=True)), (True, False, False))
        p.value = 2
        self.assertEqual(problem.solve(), 4)
        with self.assertRaises(DPPError):
            problem.solve(enforce_dpp=True)
        self.assertTrue(cp.Minimize(cp.abs(x)).is_dcp())
        self.assertFalse(cp.Maximize(cp.abs(x)).is_dcp())

    def test_arguments(self):
        problem, x, y, p = self.model()
        p.value = 1
        value = problem.solve(cp.CLARABEL)
        taken = {"warm_start": True, "gp": False, "qcp": False, "eps_abs": 1e-9, "max_iters": 1000, "ignore_dpp": True}
        self.assertEqual(value, problem.solve(solver="ecos", **taken))
        self.assertEqual(value, problem.solve(solver="DCX", time_limit=100))
        with self.assertRaisesRegex(TypeError, "unexpected argument 'max_iter_s'"):
            problem.solve(max_iter_s=3)
        with self.assertRaisesRegex(SolverError, "The solver NONE is not installed"):
            problem.solve(solver="NONE")
        for name in ("gp", "qcp", "requires_grad", "method"):
            with self.assertRaises(UnsupportedError):
                problem.solve(**{name: True})
        for bad in (0, -1, 1.5, True, 10**10, INFINITY, float("nan"), "9", [9]):
            with self.assertRaisesRegex(ValueError, "max_iters is a whole number from 1 to 1,000,000,000, and not"):
                problem.solve(max_iters=bad)

    def test_options_of_other_solvers(self):
        """Scripts of CVXPY name these, each for its solver."""
        x = cp.Variable()
        problem = cp.Problem(cp.Minimize(x), [x >= 1])
        for solver, options in {
            cp.CBC: {"numberThreads": 4, "maximumNodes": 1000, "allowableGap": 1e-3, "maximumSeconds": 60},
            cp.CLARABEL: {"max_iter": 100, "tol_infeas_rel": 1e-8, "max_threads": 2},
            cp.GUROBI: {"env": object(), "Heuristics": 0.1, "MIPGap": 0, "NodeLimit": 1000, "TimeLimit": INFINITY},
            cp.HIGHS: {"presolve": "off", "mip_feasibility_tolerance": 1e-9, "time_limit": 1e100},
            cp.OSQP: {"polish_refine_iter": 3, "adaptive_rho_interval": 25},
            cp.SCS: {"adaptive_scale": False, "time_limit_secs": 10},
            None: {"canon_backend": cp.SCIPY_CANON_BACKEND, "ignore_dpp": True},
        }.items():
            self.assertEqual(problem.solve(solver=solver, **options), 1, solver)

    def test_the_order_of_arguments_is_that_of_cvxpy(self):
        x = cp.Variable()
        problem = cp.Problem(cp.Minimize(x), [x >= 1])
        for given, is_told in (((cp.OSQP, True), False), ((cp.OSQP, False, True), True), ((None, None, True), True)):
            with contextlib.redirect_stdout(io.StringIO()) as out:
                problem.solve(*given)
            self.assertEqual("optimal" in out.getvalue(), is_told, given)

    def test_what_is_said(self):
        problem, x, y, p = self.model()
        p.value = 1
        said = []
        for _ in range(2):
            with contextlib.redirect_stdout(io.StringIO()) as out:
                problem.solve(solver=cp.OSQP, eps_abs=1, verbose=True)
            said.append(out.getvalue())
        self.assertIn("no meaning here, where one solver gives exact answers: solver, eps_abs", said[0])
        self.assertNotIn("no meaning", said[1])
        self.assertIn("optimal, value 1.5, exactly 3/2", said[1])
        with contextlib.redirect_stdout(io.StringIO()) as out:
            problem.solve(solver=cp.OSQP)
        self.assertEqual(out.getvalue(), "")

    def test_solution_and_statistics(self):
        x = cp.Variable(2)
        rule = x >= 1
        problem = cp.Problem(cp.Minimize(cp.sum(x)), [rule])
        problem.solve()
        self.assertEqual((problem.solution.status, problem.solution.opt_val), ("optimal", 2))
        np.testing.assert_array_equal(problem.solution.primal_vars[x.id], [1, 1])
        np.testing.assert_array_equal(problem.solution.dual_vars[rule.id], [1, 1])
        self.assertEqual((problem.solver_stats.solver_name, problem.solver_stats.num_iters), ("DCX", None))
        self.assertGreater(problem.solver_stats.solve_time, 0)
        self.assertTrue(problem.report.startswith(b"setting 1 optimal\nvalue 2\n"))

    def test_a_solution_is_that_of_its_problem(self):
        """Also where another problem, or the user, has set the values of its variables since."""
        x, y = cp.Variable(2), cp.Variable()
        rule = x >= 1
        problem = cp.Problem(cp.Minimize(cp.sum(x) + 0 * y), [rule, x[:0] >= 2, sparse.csr_matrix((3, 2)) @ x <= 5])
        problem.solve()
        cp.Problem(cp.Minimize(cp.sum(x)), [x >= 7, rule]).solve()
        y.value = 3
        np.testing.assert_array_equal(problem.solution.primal_vars[x.id], [1, 1])
        np.testing.assert_array_equal(problem.solution.dual_vars[rule.id], [1, 1])
        infeasible = cp.Problem(cp.Minimize(cp.sum(x)), [rule, x <= 0])
        infeasible.solve()
        self.assertEqual(infeasible.solution[1:4], (INFINITY, {}, {}))

    def test_terms(self):
        x = cp.Variable()
        low, high = cp.Problem(cp.Minimize(x), [x >= 1]), cp.Problem(cp.Minimize(2 * x), [x >= 3])
        self.assertEqual((low + high).solve(), 9)
        self.assertEqual(sum([low, high]).solve(), 9)
        self.assertEqual((2 * low).solve(), 2)
        self.assertEqual((low / 4).solve(), 0.25)
        self.assertEqual((-low).solve(), -1)
        self.assertEqual((-1 * low).solve(), -1)
        self.assertEqual((low - cp.Problem(cp.Maximize(-x))).solve(), 2)
        with self.assertRaises(DCPError):
            low + cp.Problem(cp.Maximize(x))
        self.assertEqual(str(low), f"minimize {x}\nsubject to {low.constraints[0]}")

    def test_what_is_not_offered(self):
        problem, *_ = self.model()
        for name in ("get_problem_data", "backward", "derivative", "register_solve", "unpack_results"):
            with self.assertRaisesRegex(UnsupportedError, rf"problem.{name}\(..\) isn't offered: .*"):
                getattr(problem, name)(cp.OSQP)
        self.assertEqual(cp.Problem(cp.Minimize(0), np.array([cp.Variable() == 1, cp.Variable() == 2])).solve(), 0)

    def test_what_is_no_problem(self):
        x = cp.Variable(2)
        with self.assertRaisesRegex(DCPError, "must be Minimize or Maximize"):
            cp.Problem(cp.sum(x), [])
        with self.assertRaisesRegex(ValueError, "invalid constraint of type <class 'int'> at place 1 of the list"):
            cp.Problem(cp.Minimize(0), [x >= 1, 1])
        with self.assertRaisesRegex(ValueError, r"invalid constraint of type <class 'list'> at place 0 .* by \+"):
            cp.Problem(cp.Minimize(0), [[x >= 1]])
        with self.assertRaisesRegex(ValueError, "invalid constraint .* at place 2 .* `sum(.*)` is an expression"):
            cp.Problem(cp.Minimize(0), [x >= 1, x <= 2, cp.sum(x)])
        with self.assertRaisesRegex(TypeError, r"write \[constraint\]"):
            cp.Problem(cp.Minimize(0), x >= 1)
        with self.assertRaisesRegex(ValueError, "must resolve to a scalar"):
            cp.Minimize(x)
        least, rule = cp.Minimize(x[0]), x >= 1
        self.assertIs(least - 0, least)
        for ask in (lambda: least - x[0], lambda: x[0] + least, lambda: x + rule, lambda: cp.maximum(x, rule)):
            with self.assertRaisesRegex(TypeError, r"^(Minimize|Inequality)\(.* stands where an expression or numbers"):
                ask()


class Stops(unittest.TestCase):
    def test_a_parameter_without_a_value(self):
        x, p = cp.Variable(), cp.Parameter(name="speed")  # no speed
        problem = cp.Problem(cp.Minimize(x), [x >= p])
        with self.assertRaisesRegex(ParameterError, "'speed'.* does not have a value") as caught:
            problem.solve()
        self.assertEqual(caught.exception.site.line, line_of("no speed"))

    def test_after_a_stop_there_are_no_values(self):
        x = cp.Variable(4, nonneg=True)
        rule = cp.cumsum(x) >= [1, 2, 3, 4]
        problem = cp.Problem(cp.Minimize(cp.sum(x)), [rule, x[0] + x[2] >= 3])
        problem.solve()
        with self.assertRaisesRegex(SolverError, "27 PivotLimit: 1 pivots? .*max_iters") as caught:
            problem.solve(max_iters=1)
        self.assertEqual((caught.exception.stop.number, caught.exception.stop.detail.count), (27, 1))
        self.assertEqual((problem.status, problem.value, x.value, rule.dual_value), ("solver_error", None, None, None))
        self.assertIn(b"stopped 27 PivotLimit 1", problem.report)
        self.assertEqual((problem.solve(), problem.status), (4, "optimal"))

    def test_after_a_program_that_dies_there_are_no_values(self):
        x = cp.Variable()
        problem = cp.Problem(cp.Minimize(x), [x >= 1])
        self.assertEqual((problem.solve(), x.value), (1, 1))
        with mock.patch.dict("os.environ", DCX="/bin/false"), self.assertRaises(program.ProgramError):
            problem.solve()
        self.assertEqual((problem.status, problem.value, x.value), ("solver_error", None, None))

    def test_a_search_without_an_end(self):
        left, right = cp.Variable(integer=True), cp.Variable(integer=True, nonneg=True)
        problem = cp.Problem(cp.Minimize(left), [2 * left == 2 * right + 1, left >= 0])
        with self.assertRaisesRegex(SolverError, "32 NodeLimit: 10,000 nodes"):
            problem.solve(exact=False)
        with self.assertRaisesRegex(SolverError, "30 RelaxationUnbounded"):
            cp.Problem(cp.Maximize(left), [left >= 0]).solve()

    def test_memory(self):
        x = cp.Variable(120)
        problem = cp.Problem(cp.Minimize(cp.norm1(x)), [x >= 1, cp.cumsum(x) <= 240])
        with mock.patch.dict("os.environ", DCX_MEMORY="8"), self.assertRaisesRegex(SolverError, "31 Memory"):
            problem.solve()
        told = "want of memory; the variable DCX_MEMORY"
        with mock.patch.dict("os.environ", DCX_MEMORY="4"), self.assertRaisesRegex(SolverError, told):
            problem.solve()

    def test_time(self):
        """A program that sleeps stands in for one that has much to do."""
        x = cp.Variable()
        problem = cp.Problem(cp.Minimize(x), [x >= 1])
        problem.solve()
        with tempfile.TemporaryDirectory() as folder:
            path = Path(folder, "slow")
            path.write_text("#!/bin/sh\nexec sleep 30\n")
            path.chmod(0o755)
            for name in ("time_limit", "TimeLimit"):
                with mock.patch.dict("os.environ", DCX=str(path)):
                    with self.assertRaisesRegex(SolverError, "no answer after 0.2 s.*time_limit"):
                        problem.solve(**{name: 0.2})
                self.assertEqual((problem.status, problem.value, x.value), ("solver_error", None, None))
        for bad in (0, -1, float("nan"), True, "9", [9]):
            with self.assertRaisesRegex(ValueError, "time_limit is a number of seconds above 0, and not"):
                problem.solve(time_limit=bad)
        for long in (INFINITY, 1e100, 10**9):
            self.assertEqual(problem.solve(time_limit=long), 1)

    def test_a_program_that_is_not_there_is_no_stop(self):
        with mock.patch.dict("os.environ", DCX="/nowhere"), self.assertRaises(program.ProgramError) as caught:
            cp.Problem(cp.Minimize(cp.Variable()), []).solve()
        self.assertIsInstance(caught.exception, DCXError)


if __name__ == "__main__":
    unittest.main()
