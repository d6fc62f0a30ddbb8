"""Answers in whole numbers are those of trying all points, and of the program's own branch and bound."""
from __future__ import annotations

import os
import random
import subprocess
import sys
import tempfile
import unittest
from fractions import Fraction
from itertools import product
from pathlib import Path
from unittest import mock

import dcx.cvxpy as cp
from dcx import program
from dcx.errors import SolverError
from dcx.lines import read_stop
from dcx.reports import read_report
from dcx.whole import EVIDENCE, POINT, answering
from dcx.whole.boxes import Relaxation, Unfit
from dcx.whole.evidence import evidence
from dcx.whole.search import Over, Search
from dcx.whole.steps import beyond, step_of

from .whole_problems import Small, knapsack, plant, searched

COUNT = int(os.environ.get("DCX_WHOLE_PROBLEMS", "60"))


class Random(unittest.TestCase):
    """60 small problems; as many as the variable DCX_WHOLE_PROBLEMS of the environment says, 300 at a release."""

    def test_values(self):
        with_answer = 0
        for seed in range(COUNT):
            small = Small(seed)
            script, settings = small.problem.script(), small.problem.settings()
            search = searched(small.problem, use_floats=seed % 3 > 0)
            shown = evidence(search, script, settings).check()
            best = small.best()
            with self.subTest(seed=seed):
                self.assertEqual((shown.status, shown.value), ("infeasible" if best is None else "optimal", best))
                (own,) = read_report(program.run("resolve", script, settings).report).answers
                self.assertEqual((own.status, own.value), (shown.status, shown.value))
            with_answer += best is not None
        self.assertTrue(COUNT // 2 < with_answer < COUNT)


class Answers(unittest.TestCase):
    def test_with_and_without_floats(self):
        for problem in (knapsack(9, 1), plant(1)):
            own = problem.solve() and problem.exact
            for use_floats in (True, False):
                search = searched(problem, use_floats)
                self.assertEqual(abs(search.best), abs(own))
                self.assertEqual(evidence(search, problem.script(), problem.settings()).check().value, own)

    def test_solve_goes_on_behind_the_program(self):
        problem = plant(2)
        power, runs = (next(v for v in problem.variables() if v.name() == name) for name in ("power", "runs"))
        problem.solve()
        self.assertEqual((problem.shown_by, problem.evidence), ("the program", None))
        value, seen = problem.exact, []
        problem.solve(program_seconds=1e-6, progress=seen.append)
        self.assertEqual((problem.exact, problem.status, problem.shown_by), (value, "optimal", EVIDENCE))
        self.assertEqual((problem.progress.gap, seen[-1].best), (0, value))
        self.assertTrue(all(a <= 12 * b for a, b in zip(power.exact, runs.exact)))
        self.assertEqual(problem.evidence.check().value, value)

    def test_infeasible(self):
        x = cp.Variable(3, boolean=True)
        problem = cp.Problem(cp.Minimize(cp.sum(x)), [6 * x[0] + 10 * x[1] + 15 * x[2] == 13, cp.sum(x) >= 1])
        self.assertEqual(problem.solve(program_seconds=1e-6), float("inf"))
        self.assertEqual((problem.status, problem.shown_by), ("infeasible", EVIDENCE))
        self.assertEqual(problem.evidence.check()[:2], ("infeasible", None))

    def test_unbounded(self):
        x = cp.Variable(integer=True)
        with self.assertRaisesRegex(SolverError, "without its marks the problem is unbounded"):
            cp.Problem(cp.Maximize(x), [x >= 0]).solve(program_seconds=1e-6)

    def test_open_boxes(self):
        x, y = cp.Variable(2, integer=True, name="x"), cp.Variable(nonneg=True, name="y")
        rules = [7 * x[0] - 5 * x[1] + y >= Fraction(23, 3), x[0] + x[1] >= -4, x[1] - x[0] >= -30]
        problem = cp.Problem(cp.Minimize(3 * x[0] + 2 * x[1] + 9 * y), rules)
        problem.solve()
        value = problem.exact
        problem.solve(program_seconds=1e-6)
        self.assertEqual((problem.exact, problem.shown_by), (value, EVIDENCE))

    def test_parameters(self):
        limit, worth = cp.Parameter(value=7), cp.Parameter((1, 3), value=[[4], [5], [6]], name="worth")
        take = cp.Variable(3, integer=True, nonneg=True)
        problem = cp.Problem(cp.Maximize(worth @ take), [cp.sum(take) <= limit / 2, 2 * take[2] <= 3])
        for number, best in ((7, 16), (4, 11)):
            limit.value = number
            problem.solve(program_seconds=1e-6)
            self.assertEqual((problem.exact, problem.shown_by), (best, EVIDENCE))

    def test_limits(self):
        problem = knapsack(12, 2)
        problem.solve()
        best = problem.exact
        problem.solve(program_seconds=1e-6, max_nodes=1)
        self.assertEqual((problem.status, problem.shown_by, problem.evidence), ("user_limit", POINT, None))
        self.assertEqual(problem.value, float(problem.progress.best))
        self.assertTrue(problem.progress.best <= best <= problem.progress.bound)
        self.assertIsNone(problem.exact)

    def test_an_interruption_leaves_the_best_point(self):
        problem = knapsack(12, 2)

        def interrupt(progress):
            raise KeyboardInterrupt

        with self.assertRaises(KeyboardInterrupt):
            problem.solve(program_seconds=1e-6, progress=interrupt)
        self.assertEqual((problem.status, problem.shown_by), ("user_limit", POINT))
        self.assertGreater(problem.value, 0)

    def test_what_progress_raises_leaves_no_values(self):
        problem = knapsack(12, 2)
        problem.solve()

        def fail(progress):
            raise ZeroDivisionError("of the user")

        with self.assertRaisesRegex(ZeroDivisionError, "of the user"):
            problem.solve(program_seconds=1e-6, progress=fail)
        self.assertEqual((problem.status, problem.value, problem.solution[2:4]), ("solver_error", None, ({}, {})))
        self.assertTrue(all(variable.value is None for variable in problem.variables()))

    def test_arguments(self):
        problem = knapsack(4, 2)
        infinite = float("inf")
        for wrong in ({"program_seconds": 0}, {"max_nodes": 0}, {"max_nodes": 1.5}, {"max_nodes": infinite}):
            with self.assertRaises(ValueError):
                problem.solve(**wrong)
        with self.assertRaises(TypeError):
            problem.solve(progress=3)

    def test_behind_which_stops(self):
        def helps(text, is_limited=False):
            return answering.helps(read_stop(text.split()), is_limited)

        node = "33 Branch node 7 26 Wide pivot 4 row 1 column 2"
        self.assertTrue(all(map(helps, ("32 NodeLimit 10000", node, "28 TooLarge rows 700 columns 900"))))
        self.assertFalse(helps("30 RelaxationUnbounded"))
        self.assertFalse(helps("24 ParamSign p entry 0 value -1"))
        self.assertFalse(helps("27 PivotLimit 5", is_limited=True))
        self.assertFalse(answering.helps(None, False))

    def test_more_rows_than_the_program_has(self):
        """Bounds of 700 entries are rows of the program's branch and bound, and bounds here."""
        take = cp.Variable(700, boolean=True)
        problem = cp.Problem(cp.Minimize(cp.sum(take)), [take[0] + take[699] >= Fraction(3, 2)])
        self.assertEqual(problem.solve(), 2)
        self.assertIn(b"33 Branch node 1 28 TooLarge", problem.report)
        self.assertEqual(problem.shown_by, EVIDENCE)

    def test_over(self):
        with self.assertRaises(Over) as caught:
            searched(knapsack(12, 2), seconds=0)
        self.assertEqual(caught.exception.reason, "time")


class Files(unittest.TestCase):
    def test_leaves_in_several_files(self):
        problem = knapsack(9, 1)
        search, script = searched(problem), problem.script()
        for limit in ({"MOST": 2}, {"MOST_BYTES": 500}):
            with mock.patch.multiple("dcx.whole.evidence", **limit):
                found = evidence(search, script, "{}\n")
            count = sum(name.endswith(".cert") for name in found.files) - 1
            self.assertGreater(count, 2)
            self.assertEqual(found.check().value, search.best * -1)


class Steps(unittest.TestCase):
    def test_values_are_multiples(self):
        for seed in range(40):
            small = Small(1000 + seed)
            step = step_of(small.problem.script(), small.problem.settings())
            points = product(*[(0, 1)] * small.count, *[range(-3, 4)] * small.numbers)
            values = {small.cost(point) for point in points}
            with self.subTest(seed=seed):
                if step is None:
                    self.assertEqual(values, {0})
                else:
                    self.assertTrue(all((value / step).denominator == 1 for value in values))

    def test_the_step_is_no_smaller_than_it_needs_to_be(self):
        x, y, p = cp.Variable(2, boolean=True), cp.Variable(), cp.Parameter(value=Fraction(5, 2))
        for cost, step in (
            (6 * x[0] + 10 * x[1], 2), (6 * x[0] + Fraction(9, 2) * x[1], Fraction(3, 2)), (p * x[0], Fraction(5, 2)),
            (x[0] / 4 + 1, Fraction(1, 4)), (cp.max(4 * x) + 2, 2), (cp.abs(3 * x[0] - 9), 3), (x[0] + y, None),
            (cp.sum_largest(5 * x, 1), 5), (cp.norm1(6 * x - 4), 2), (0 * x[0], None),
        ):
            problem = cp.Problem(cp.Minimize(cost), [x[1] + y >= p])
            with self.subTest(cost=str(cost)):
                self.assertEqual(step_of(problem.script(), problem.settings()), step)

    def test_beyond(self):
        for goal, step, least in ((4, None, 4), (4, 2, 6), (5, 2, 6), (Fraction(-1, 2), 1, 0), (-1, 1, 0)):
            self.assertEqual(beyond(Fraction(goal), step and Fraction(step)), least)


class Boxes(unittest.TestCase):
    def test_each_whole_point_is_in_one_box(self):
        x, y = cp.Variable((1, 2), boolean=True, name="x"), cp.Variable(integer=True, name="y")
        relaxation = Relaxation(cp.Problem(cp.Minimize(y + cp.sum(x)), [y >= -9]).script(), "{}\n", True)
        for seed in range(30):
            r = random.Random(seed)
            tree = grown(r, 4)
            boxes = list(relaxation.leaves(tree))
            self.assertEqual(len(boxes), tree.count(0))
            for _ in range(40):
                point = (r.randint(0, 1), r.randint(0, 1), r.randint(-20, 20))
                inside = [all(holds(n, ends) for n, ends in zip(point, box)) for box in boxes]
                self.assertEqual(inside.count(True), 1)
            for wrong in (tree[:-1], [*tree, 0], [*tree, ["y", 0, 1], 0]):
                with self.assertRaises(Unfit):
                    list(relaxation.leaves(wrong))

    def test_a_name_means_one_variable(self):
        """Where a marked variable's name is bound again, its bounds would be those of another one."""
        x = cp.Variable(2, integer=True, name="x")
        script = cp.Problem(cp.Minimize(cp.sum(x)), [x >= 1]).script()
        Relaxation(script, "{}\n", True)
        for more in ("y = x\nx = cp.Variable(2)\n", "x += 1\n", "for x in [1]:\n    y = x\n", "y = [x for x in [1]]\n"):
            with self.assertRaisesRegex(Unfit, "binds a name twice"):
                Relaxation(script.replace("prob = ", f"{more}prob = "), "{}\n", True)

    def test_names_that_are_taken(self):
        goal, x_low = cp.Variable(name="goal"), cp.Parameter(name="x_low", value=Fraction(1, 3))
        x = cp.Variable(2, integer=True, name="x")
        problem = cp.Problem(cp.Minimize(goal), [goal >= cp.sum(x), x >= x_low])
        problem.solve(program_seconds=1e-6)
        self.assertEqual((problem.exact, problem.shown_by), (2, EVIDENCE))


def grown(r, depth):
    if depth == 0 or r.random() < 0.2:
        return [0]
    name, entry = r.choice((("x", 0), ("x", 1), ("y", 0)))
    k = 0 if name == "x" else r.randint(-8, 8)
    return [[name, entry, k], *grown(r, depth - 1), *grown(r, depth - 1)]


def holds(number, ends):
    low, high = ends
    return (low is None or number >= low) and (high is None or number <= high)


class Command(unittest.TestCase):
    def test_whole_check(self):
        problem = knapsack(6, 4)
        problem.solve(program_seconds=1e-6)
        top = Path(__file__).resolve().parents[1]
        with tempfile.TemporaryDirectory() as folder:
            problem.evidence.write(folder)
            said = []
            for change in (False, True):
                if change:
                    path = Path(folder, "tree.json")
                    path.write_text(path.read_text().replace(f'"{problem.exact}"', f'"{problem.exact + 1}"'))
                done = subprocess.run([sys.executable, "-m", "dcx", "whole-check", folder], capture_output=True,
                                      text=True, env={**os.environ, "PYTHONPATH": str(top)})
                said.append((done.returncode, done.stdout))
        self.assertEqual([status for status, _ in said], [0, 7])
        self.assertIn(f"shown: optimal, value {problem.exact}", said[0][1])
        self.assertIn("refused: ", said[1][1])
