"""The exact solver: its certificates are accepted by the program, its answers are those of the program and of HiGHS,
and lies are caught.
"""
import os
import subprocess
import sys
import unittest
from contextlib import contextmanager
from fractions import Fraction
from pathlib import Path
from unittest import mock

from scipy.optimize import linprog

from dcx import exact, program, read_report
from dcx.errors import UnsupportedError
from dcx.exact import answers, sections
from dcx.exact.commands import run as read_anew
from dcx.exact.limits import Limits
from dcx.exact.numbers import EXACT

from .exact_problems import drawn, fit, lines

ONE = b"{}\n"
COUNT = 200
HIGHS = {0: "optimal", 2: "infeasible", 3: "unbounded"}
ALL_KINDS = lines(
    "p = cp.Parameter()",
    "q = cp.Parameter(nonneg=True)",
    "x = cp.Variable(nonpos=True)",
    "S = cp.Variable((2, 2), symmetric=True)",
    "D = cp.Variable((2, 2), diag=True)",
    "won = p*x - cp.norm1(S - D) + cp.min(cp.hstack([x, S[0, 1]]))",
    "prob = cp.Problem(cp.Maximize(won), [q*x >= -5, D[1, 1] == 1/3, S[0, 0] + x <= 2])",
)


def certified(script, settings, certificate):
    """The report of the program on a certificate."""
    return read_report(program.run("certify", script, settings, certificate).report)


class RandomProblems(unittest.TestCase):
    @classmethod
    def setUpClass(cls):
        cls.problems = drawn(COUNT)
        cls.solved = [exact.solve(problem.script, ONE) for problem in cls.problems]

    def each(self):
        for i, (problem, solved) in enumerate(zip(self.problems, self.solved)):
            yield problem, solved, solved.answers[0], self.subTest(i=i, kind=problem.name)

    def test_there_are_problems_of_each_status_and_kind(self):
        kinds = {(problem.name, problem.status) for problem in self.problems}
        self.assertEqual(len(kinds), 9)

    def test_each_certificate_is_accepted(self):
        shown = 0
        for problem, solved, answer, case in self.each():
            with case:
                report = certified(problem.script, ONE, solved.certificate())
                self.assertIsNone(report.fault)
                self.assertEqual(report.certified, answer.wide is None)
                shown += report.certified
        self.assertGreaterEqual(shown, COUNT * 0.97)

    def test_the_status_is_the_one_that_was_drawn(self):
        for problem, _, answer, case in self.each():
            with case:
                self.assertEqual(answer.status, problem.status)

    def test_highs_says_the_same(self):
        compared = 0
        for problem, _, answer, case in self.each():
            with case:
                found = linprog(**problem.program, method="highs")
                status = HIGHS.get(found.status)
                if status is None:
                    continue
                self.assertEqual(answer.status, status)
                compared += 1
                if status == "optimal":
                    self.assertAlmostEqual(
                        float(answer.value), problem.side * found.fun, delta=1e-6 * (1 + abs(found.fun))
                    )
        self.assertGreaterEqual(compared, COUNT * 0.9)

    def test_the_program_says_the_same_where_it_answers(self):
        answered = 0
        for problem, _, answer, case in self.each():
            with case:
                own = read_report(program.run("resolve", problem.script, ONE).report).answers[0]
                if own.status == "stopped":
                    self.assertIn(own.stop.number, (26, 27, 28))
                    continue
                answered += 1
                self.assertEqual((own.status, own.value), (answer.status, answer.value))
        self.assertGreaterEqual(answered, COUNT // 2)
        self.assertLess(answered, COUNT)


class Answers(unittest.TestCase):
    def solved(self, script, settings, **options):
        """What is found, whose certificate is accepted."""
        found = exact.solve(script, settings, **options)
        report = certified(script, settings, found.certificate())
        self.assertEqual(report.certified, sum(a.status != "stopped" and a.wide is None for a in found.answers))
        return found

    def test_all_statuses_by_hand(self):
        folder = Path(program.__file__).parents[2] / "examples" / "certificates"
        script, settings = ((folder / name).read_bytes() for name in ("model.py", "settings.txt"))
        best, none, endless = self.solved(script, settings).answers
        self.assertEqual((best.status, best.value, best.variables["x"].entries), ("optimal", Fraction(3, 2), (1,)))
        self.assertEqual(
            (none.status, none.duals[1].entries[0] > 0, none.duals[2].entries[0] > 0), ("infeasible", True, True)
        )
        self.assertEqual(
            (endless.status, endless.ray["x"].entries[0] > 0, endless.slope > 0), ("unbounded", True, True)
        )

    def test_variables_of_all_kinds_and_a_maximum(self):
        settings = b"p = 1; q = 2\np = -7; q = 2\np = -7; q = 0\n"
        found = self.solved(ALL_KINDS, settings).answers
        self.assertEqual([a.status for a in found], ["optimal", "optimal", "unbounded"])
        # At x = 0 the rest is least with S = D; at p = -7 each unit of x downwards wins 7 and loses at most 2.
        self.assertEqual(found[0].value, 0)
        self.assertEqual(found[0].variables["S"].entries[1], found[0].variables["S"].entries[2])
        own = read_report(program.run("resolve", ALL_KINDS, settings).report).answers
        self.assertEqual([(a.value) for a in found[:2]], [a.value for a in own[:2]])

    def test_settings_that_do_not_fit_stop_alone(self):
        stated = ["p = cp.Parameter(nonneg=True)", "x = cp.Variable()"]
        script = lines(*stated, "prob = cp.Problem(cp.Minimize(x/p), [x >= 1])")
        found = self.solved(script, b"p = 2\np = -1\np = 0\nq = 1\n{}\np = 4\n").answers
        self.assertEqual([a.status for a in found], ["optimal"] + ["stopped"] * 4 + ["optimal"])
        own = read_report(program.run("resolve", script, b"p = 2\np = -1\np = 0\nq = 1\n{}\np = 4\n").report).answers
        self.assertEqual([a.stop for a in found], [a.stop for a in own])
        self.assertEqual([a.value for a in found], [a.value for a in own])

    def test_no_start_in_floating_point_numbers_is_needed(self):
        for seed in range(0, 30, 3):
            script = fit(seed).script
            one, other = (exact.answer(script, ONE, use_floats=floats)[0] for floats in (True, False))
            self.assertEqual((one.status, one.value), (other.status, other.value))

    def test_the_run_by_blands_rule_says_the_same(self):
        for seed in (3, 9, 12):
            script = fit(seed).script
            text = read_anew(["solve", "model.py"], {"model.py": script}.__getitem__, Limits(EXACT, 10**6, 10**6))[1]
            own = exact.answer(script)[0]
            self.assertIn(f" {own.status}\n", text)
            if own.status == "optimal":
                self.assertIn(f"value {own.value}\n", text)

    def test_problems_without_rows_or_with_constants_alone(self):
        scripts = [
            lines("x = cp.Variable(nonneg=True)", "prob = cp.Problem(cp.Minimize(x + 1))"),
            lines("x = cp.Variable()", "prob = cp.Problem(cp.Minimize(x))"),
            lines("x = cp.Variable(nonneg=True)", "prob = cp.Problem(cp.Minimize(x), [0*x <= -1])"),
            lines("x = cp.Variable()", "prob = cp.Problem(cp.Minimize(3), [x == x])"),
        ]
        found = [self.solved(script, ONE).answers[0] for script in scripts]
        self.assertEqual(
            [(a.status, a.value) for a in found],
            [("optimal", 1), ("unbounded", None), ("infeasible", None), ("optimal", 3)],
        )

    def test_more_rows_and_columns_than_the_program_has(self):
        rules = "[x[1] >= 1/7, x[699] == 2]"
        script = lines("x = cp.Variable(700)", f"prob = cp.Problem(cp.Minimize(cp.norm1(x) + x[0]/3), {rules})")
        own = read_report(program.run("solve", script).report).answers[0]
        self.assertEqual(own.stop.number, 28)
        self.assertEqual(self.solved(script, ONE).answers[0].value, Fraction(15, 7))

    def test_what_passes_128_bits_is_told_and_kept(self):
        a, b = 10**29 + 319, 10**28 + 331
        head = ["x = cp.Variable()", f"a = 1/{a}", f"b = cp.Constant(1/{b})"]
        script = lines(*head, "prob = cp.Problem(cp.Minimize(x), [x >= a, x >= b/3])")
        self.assertIsNone(self.solved(script, ONE).answers[0].wide)
        wide = lines(*head, "prob = cp.Problem(cp.Minimize(x), [x - a - b >= 0])")
        answer = self.solved(wide, ONE).answers[0]
        self.assertEqual(answer.value, Fraction(1, a) + Fraction(1, b))
        self.assertTrue(answer.wide.startswith("number "))
        self.assertTrue(answer.checked)

    def test_the_solves_of_a_script_are_its_settings(self):
        stated = ["p = cp.Parameter()", "x = cp.Variable()", "prob = cp.Problem(cp.Minimize(cp.abs(x - p)), [x >= 3])"]
        script = lines(*stated, "for k in range(3):", "    p.value = k", "    prob.solve()")
        self.assertEqual(
            [(a.word, a.index, a.value) for a in exact.answer(script)],
            [("solve", 1, 3), ("solve", 2, 2), ("solve", 3, 1)],
        )

    def test_whole_numbers_and_what_is_no_script_are_errors(self):
        whole = lines("n = cp.Variable(2, integer=True)", "prob = cp.Problem(cp.Minimize(cp.sum(n)), [n >= 1/2])")
        with self.assertRaisesRegex(UnsupportedError, "whole numbers .variable n."):
            exact.answer(whole)
        with self.assertRaisesRegex(exact.RefusedError, "19 NotDcp"):
            exact.answer(lines("x = cp.Variable()", "prob = cp.Problem(cp.Maximize(cp.abs(x)))"))
        with self.assertRaisesRegex(exact.RefusedError, "refused settings 6") as caught:
            exact.certificate(fit(0).script, b"p = = 1\n")
        self.assertEqual((caught.exception.refusal.of, caught.exception.refusal.line), ("settings", 1))


@contextmanager
def unchecked():
    """What is found isn't checked in Python."""
    with mock.patch.object(answers, "check"), mock.patch.object(sections, "check"):
        yield


class Lies(unittest.TestCase):
    """A solver that finds wrong numbers."""

    def lying(self, change):
        real = sections.solved

        def solved(*args):
            found = real(*args)
            change(found)
            return found

        return mock.patch.object(sections, "solved", solved)

    def change_multiplier(self, found):
        at = next(i for i, m in enumerate(found.multipliers) if m)
        found.multipliers[at] += Fraction(1, 7)

    def change_point(self, found):
        found.point[0] += Fraction(1, 10**6)

    def change_value(self, found):
        found.number -= Fraction(1, 10**9)

    def test_it_is_caught_in_python_and_reported(self):
        script = next(p.script for p in drawn(30) if p.status == "optimal")
        for change in (self.change_multiplier, self.change_point, self.change_value):
            with self.subTest(change.__name__), self.lying(change), self.assertRaisesRegex(
                exact.WrongError, "setting 1 is wrong"
            ):
                exact.answer(script, ONE)

    def test_it_is_caught_by_the_program(self):
        script = next(p.script for p in drawn(30) if p.status == "optimal")
        names = {}
        for change in (self.change_multiplier, self.change_point, self.change_value):
            with self.lying(change), unchecked():
                certificate = exact.certificate(script, ONE)
            report = certified(script, ONE, certificate)
            self.assertIsNone(report.certified)
            names[change.__name__] = report.fault.name
        self.assertIn(names["change_multiplier"], ("Variable", "Slope", "Bound"))
        self.assertIn(names["change_point"], ("Value", "Constraint", "Domain"))
        self.assertEqual(names["change_value"], "Value")

    def test_a_wrong_ray_and_a_wrong_gap_are_caught(self):
        by_status = {p.status: p.script for p in drawn(30)}

        def turn(found):
            found.ray = [-v for v in found.ray]

        def widen(found):
            found.number += 1

        for status, change in (("unbounded", turn), ("infeasible", widen)):
            with self.subTest(status), self.lying(change):
                with self.assertRaises(exact.WrongError):
                    exact.answer(by_status[status], ONE)
                with unchecked():
                    certificate = exact.certificate(by_status[status], ONE)
                self.assertIsNotNone(certified(by_status[status], ONE, certificate).fault)


class WithoutPackages(unittest.TestCase):
    def test_scipy_and_numpy_are_not_wanted(self):
        said = (
            "import sys; sys.modules['numpy'] = sys.modules['scipy'] = None\n"
            f"from dcx import exact; print(exact.answer({fit(3).script!r}, b'{{}}\\n')[0].status)"
        )
        package = os.path.dirname(os.path.dirname(program.__file__))
        found = subprocess.run(
            [sys.executable, "-c", said], capture_output=True, text=True, env={**os.environ, "PYTHONPATH": package}
        )
        self.assertEqual(found.stdout, fit(3).status + "\n", found.stderr)


if __name__ == "__main__":
    unittest.main()
