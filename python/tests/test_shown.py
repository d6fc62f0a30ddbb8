"""Answers behind the program's stops: who shows them, what SciPy finds of them, and who catches a solver that lies."""
from __future__ import annotations

import contextlib
import io
import json
import re
import tempfile
import unittest
from fractions import Fraction
from pathlib import Path
from unittest import mock

import numpy as np

import dcx.cvxpy as cp
from dcx.__main__ import main
from dcx.certificates import CertificateError, certified
from dcx.errors import SolverError
from dcx.exports import report_csv
from dcx.lines import read_stop
from dcx.reports import Answer, Report, read_report
from dcx.shown import CERTIFICATE, INTERVAL, PROGRAM, PYTHON, asking, fallback
from tests import wide


def called(*words):
    """What `python3 -m dcx` prints, what it tells, and its status."""
    out, told = io.StringIO(), io.StringIO()
    with contextlib.redirect_stdout(out), contextlib.redirect_stderr(told):
        status = main(words)
    return out.getvalue(), told.getvalue(), status


def lying(change):
    """`asking.asked` with what the exact solver says changed."""
    asked = asking.asked

    def lie(*arguments, **options):
        reply = asked(*arguments, **options)
        reply["certificate"] = change(reply["certificate"])
        return reply

    return mock.patch.object(asking, "asked", lie)


def with_another(text, start, place, word, instead):
    """The text with another word at a place of the first line that begins so: `word`, or `instead` where that stands
    there."""
    lines = text.split("\n")
    at = next(i for i, line in enumerate(lines) if line.startswith(start))
    words = lines[at].split(" ")
    words[place] = word if words[place] != word else instead
    return "\n".join([*lines[:at], " ".join(words), *lines[at + 1 :]])


def not_asked():
    return mock.patch.object(asking, "asked", side_effect=AssertionError("the exact solver is asked"))


class Stops(unittest.TestCase):
    """Problems that the program stops at are answered, and the program accepts the certificates."""

    def test_fits_blends_and_portfolios(self):
        for made in (wide.fit(1), wide.blend(2, 12, 9, 4), wide.portfolio(4, 8, 16, 4)):
            problem, x, found = made
            with self.assertRaises(SolverError) as stop:
                problem.solve(exact=False)
            self.assertEqual((stop.exception.stop.number, problem.status, x.value), (26, "solver_error", None))
            self.assertIsNone(problem.shown_by)
            value = problem.solve()
            self.assertEqual((problem.status, problem.shown_by), ("optimal", CERTIFICATE))
            self.assertAlmostEqual(value, found.fun, places=7)
            self.assertEqual(problem.objective.expr.exact, problem.exact)
            for constraint in problem.constraints:
                self.assertFalse(np.any(constraint.exact_residual))
            self.assertIsNone(problem.interval)

    def test_certificates(self):
        problem, _, found = wide.fit(1)
        certificate = problem.certificate()
        self.assertEqual(certificate.check().status, "optimal")
        self.assertAlmostEqual(float(certificate.check().value), found.fun, places=7)
        with self.assertRaises(SolverError) as error:
            wide.fit(3, 9, 12, 6)[0].certificate()
        self.assertEqual(error.exception.stop.number, 26)

    def test_more_rows_than_the_program_takes(self):
        least = np.arange(601) % 7
        x = cp.Variable(601)
        problem = cp.Problem(cp.Minimize(cp.sum(x)), [x >= least])
        with self.assertRaises(SolverError) as stop:
            problem.solve(exact=False)
        self.assertEqual(stop.exception.stop.number, 28)
        problem.solve()
        self.assertEqual((problem.exact, problem.shown_by), (int(least.sum()), CERTIFICATE))
        np.testing.assert_array_equal(x.value, least)
        np.testing.assert_array_equal(problem.constraints[0].dual_value, np.ones(601))

    def test_infeasible_and_unbounded(self):
        draw = np.random.default_rng(5)
        A, b = wide.numbers(draw, 4, 12, 5), wide.numbers(draw, 4, 12)
        x = cp.Variable(5)
        fit = cp.norm1(A @ x - b)
        too_near = cp.Problem(cp.Minimize(cp.sum(x)), [fit <= 1])
        found = wide.linprog(  # the least sum of distances is above 1
            np.r_[np.zeros(5), np.ones(12)], A_ub=np.block([[A, -np.eye(12)], [-A, -np.eye(12)]]), b_ub=np.r_[b, -b],
            bounds=[(None, None)] * 5 + [(0, None)] * 12,
        )
        self.assertGreater(found.fun, 1.5)
        self.assertEqual(too_near.solve(), float("inf"))
        self.assertEqual((too_near.status, too_near.value), ("infeasible", float("inf")))
        y = cp.Variable(601)
        falling = cp.Problem(cp.Minimize(cp.sum(y)), [y <= 3])
        self.assertEqual(falling.solve(), float("-inf"))
        self.assertEqual((falling.status, falling.shown_by), ("unbounded", CERTIFICATE))
        self.assertTrue(all(step <= 0 for step in falling.ray.direction[y]) and any(falling.ray.direction[y]))
        rows = cp.Problem(cp.Minimize(cp.sum(y)), [y >= 1, y[600] <= Fraction(1, 2)])
        rows.solve()
        self.assertEqual((rows.status, rows.shown_by), ("infeasible", CERTIFICATE))
        lower, upper = (rows.farkas.multipliers[c] for c in rows.constraints)
        self.assertEqual(lower[600] * 1 - upper * Fraction(1, 2), rows.farkas.gap)

    def test_infeasible_beyond_128_bits(self):
        """Farkas' multipliers of many digits are rounded, where signs of variables leave room for that."""
        draw = np.random.default_rng(1)
        A, b = wide.numbers(draw, 7, 9, 11), wide.numbers(draw, 7, 9)
        found = wide.linprog(np.zeros(11), A_eq=A, b_eq=b, bounds=(0, None))
        self.assertEqual(found.status, 2)
        x = cp.Variable(11, nonneg=True)
        problem = cp.Problem(cp.Minimize(cp.sum(x)), [A @ x == b])
        problem.solve(trust="python")
        self.assertEqual((problem.status, problem.shown_by), ("infeasible", PYTHON))
        self.assertGreater(max(abs(v) for v in problem.farkas.multipliers[problem.constraints[0]]), 2**127)
        problem.solve()
        self.assertEqual((problem.status, problem.shown_by), ("infeasible", CERTIFICATE))
        (multipliers,) = problem.farkas.multipliers.values()
        left = [sum((Fraction(repr(float(a))) * y for a, y in zip(row, multipliers)), Fraction(0)) for row in A.T]
        self.assertTrue(all(rest >= 0 for rest in left))
        right = sum((Fraction(repr(float(a))) * y for a, y in zip(b, multipliers)), Fraction(0))
        self.assertGreaterEqual(-right, problem.farkas.gap)

    def test_interrupted(self):
        problem, x, _ = wide.fit(1)
        with mock.patch.object(asking, "asked", side_effect=KeyboardInterrupt), self.assertRaises(KeyboardInterrupt):
            problem.solve()
        self.assertEqual((problem.value, problem.exact, x.value, problem.shown_by), (None, None, None, None))

    def test_the_word_of_python(self):
        problem, x, found = wide.fit(3, 9, 12, 6)
        problem.solve(trust="python")
        self.assertEqual((problem.status, problem.shown_by), ("optimal", PYTHON))
        self.assertGreater(problem.exact.denominator.bit_length(), 127)
        self.assertAlmostEqual(problem.value, found.fun, places=7)
        self.assertEqual(problem.objective.expr.exact, problem.exact)

    def test_what_the_program_answers_it_shows(self):
        x = cp.Variable()
        problem = cp.Problem(cp.Minimize(x), [x >= Fraction(1, 3)])
        self.assertIsNone(problem.shown_by)
        with not_asked():
            problem.solve()
        self.assertEqual((problem.shown_by, problem.interval), (PROGRAM, None))


class Limits(unittest.TestCase):
    def test_long_numbers_are_told_in_short(self):
        """Equalities of random floats, which no point of few digits keeps."""
        draw = np.random.RandomState(3)
        A, x = draw.randn(3, 6), cp.Variable(6, nonneg=True)
        rule = A @ x == A @ np.abs(draw.randn(6))
        with self.assertRaises(SolverError) as error:
            cp.Problem(cp.Minimize(draw.rand(6) @ x), [rule]).solve()
        self.assertRegex(str(error.exception), r"pass 128 bits \(number \d{6}\.\. of \d\d digits/\d{6}\.\. of \d\d digits\)")
        self.assertNotRegex(str(error.exception), r"\d{40}")
        self.assertRegex(str(error.exception), r"it breaks constraint 1 by \d\.\d+e-1\d")

    def test_an_interval_next_to_0(self):
        """The least sum is 0, at a point whose numbers have sixty digits."""
        A, x = np.random.RandomState(0).rand(4, 4), cp.Variable(4)
        problem = cp.Problem(cp.Minimize(cp.norm1(A @ x - 1)))
        problem.solve()
        self.assertEqual((problem.status, problem.shown_by), ("optimal_inaccurate", INTERVAL))
        self.assertLessEqual(problem.interval.low, 0)
        self.assertLess(problem.interval.high - problem.interval.low, Fraction(1, 10**12))
        np.testing.assert_allclose(A @ x.value, np.ones(4), atol=1e-12)
        self.assertRegex(str(problem.interval), r"from -\S+ to \S+, \d\.\de-1\d wide")

    def test_limits_of_the_user_stay(self):
        problem, x, _ = wide.fit(1)
        with not_asked(), self.assertRaises(SolverError) as stop:
            problem.solve(max_iters=2)
        self.assertEqual(stop.exception.stop.number, 27)
        for text, is_limited, wanted in (
            ("27 PivotLimit 200000", False, True),
            ("27 PivotLimit 9", True, False),
            ("28 TooLarge rows 601 columns 7", True, True),
            ("26 Wide pivot 3 row 2 column 1", False, True),
            ("26 Wide row 3 mul 5 7", False, True),
            ("26 Wide at 3:7 entry 0 mul 5 7", False, False),
            ("31 Memory", False, False),
        ):
            self.assertEqual(fallback.helps(read_stop(text.split(" ")), is_limited), wanted, text)

    def test_time(self):
        problem, x, _ = wide.fit(1)
        with self.assertRaises(SolverError) as late:
            asking.asked("answered", problem.script(), problem.settings(), None, True, seconds=0.001)
        self.assertIn("no answer after 0.001 s", str(late.exception))
        with mock.patch.object(asking, "asked", side_effect=late.exception), self.assertRaises(SolverError) as error:
            problem.solve()
        self.assertEqual((error.exception.stop.number, problem.status, x.value), (26, "solver_error", None))
        self.assertIn("no answer after 0.001 s", str(error.exception))

    def test_a_worker_that_fails(self):
        for task, arguments, told in (
            ("nothing", (), "KeyError"),
            ("answered", ("x = 1\n", "{}\n", None, True), "NoProblem"),
        ):
            with self.assertRaises(SolverError) as error:
                asking.asked(task, *arguments)
            self.assertIn(told, str(error.exception))
        with mock.patch("sys.executable", "/usr/bin/false"), self.assertRaises(SolverError) as error:
            asking.asked("answered", "", "", None, True)
        self.assertIn("without an answer", str(error.exception))

    def test_verbose_tells_it(self):
        problem, _, _ = wide.fit(1)
        out = io.StringIO()
        with contextlib.redirect_stdout(out):
            problem.solve(verbose=True, time_limit=200)
        self.assertIn("the exact solver has at most 200 s", out.getvalue())
        self.assertIn(f"shown by {CERTIFICATE}", out.getvalue())

    def test_arguments(self):
        problem, _, _ = wide.fit(1)
        for arguments in ({"trust": "me"}, {"box": 0}, {"box": -1}):
            with not_asked(), self.assertRaises(ValueError):
                problem.solve(**arguments)


class Lies(unittest.TestCase):
    """The program catches an exact solver that lies, and no half answer stays."""

    def refused(self, change, told):
        problem, x, _ = wide.fit(1)
        with lying(change), self.assertRaises(CertificateError) as error:
            problem.solve()
        self.assertIn(told, str(error.exception))
        self.assertIsNotNone(error.exception.fault)
        self.assertEqual((problem.status, problem.value, problem.exact, x.value), ("solver_error", None, None, None))
        self.assertIsNone(problem.shown_by)

    def test_a_wrong_multiplier(self):
        self.refused(lambda text: with_another(text, "node ", 3, "1/3", "1/4"), "section 1 ")

    def test_a_wrong_point_and_a_wrong_value(self):
        self.refused(lambda text: with_another(text, "var x (5) = ", 4, "7", "8"), "section 1 Value")
        self.refused(lambda text: re.sub("\nvalue .*", "\nvalue 1", text), "section 1 Value")

    def test_what_breaks_off(self):
        self.refused(lambda text: text[: len(text) // 2], "section 0 Form")

    def test_an_interval_of_lies(self):
        problem, x, _ = wide.fit(3, 9, 12, 6)
        asked = asking.asked

        def lie(*arguments, **options):
            reply = asked(*arguments, **options)
            script, certificate = reply["made"].lower
            cut = next(line for line in script.split("\n") if "dcx_objective <=" in line)
            changed = script.replace(cut, cut.replace("dcx_objective <= ", "dcx_objective <= 9"))
            reply["made"].lower = (changed, certificate)
            return reply

        with mock.patch.object(asking, "asked", lie), self.assertRaises(CertificateError):
            problem.solve()
        self.assertEqual((problem.status, problem.value, problem.interval, x.value), ("solver_error", None, None, None))


class Tables(unittest.TestCase):
    @classmethod
    def setUpClass(cls):
        cls.folder = tempfile.TemporaryDirectory()
        cls.addClassCleanup(cls.folder.cleanup)
        for name, made in (("fit", wide.fit(1)), ("wide", wide.fit(3, 9, 12, 6))):
            Path(cls.folder.name, f"{name}.py").write_text(made[0].script())

    def file(self, name):
        return str(Path(self.folder.name, f"{name}.py"))

    def test_it_says_on_what_an_answer_stands(self):
        out, told, status = called("table", self.file("fit"))
        self.assertEqual((told, status), ("", 0))
        self.assertIn("\nshown by a certificate that the program accepted\n", out)
        self.assertIn("answered 1, stopped 0", out)
        report = json.loads(called("table", "--json", self.file("fit"))[0])
        self.assertEqual(report["answers"][0]["shown_by"], CERTIFICATE)
        value = Fraction(report["answers"][0]["value"]["exact"])
        self.assertAlmostEqual(float(value), wide.fit(1)[2].fun, places=7)

    def test_intervals(self):
        out, told, status = called("table", "--box", "500", self.file("wide"))
        self.assertEqual((told, status), ("", 0))
        self.assertRegex(out, r"shown by an interval: the best is from .* where \|x\| <= 500\n")
        report = json.loads(called("table", "--json", self.file("wide"))[0])
        (answer,) = report["answers"]
        self.assertEqual((answer["status"], answer["shown_by"]), ("optimal_inaccurate", INTERVAL))
        self.assertLess(answer["interval"]["width"], 1e-9)
        self.assertEqual(answer["interval"]["boxed"], ["x"])
        low, high = (Fraction(answer["interval"][end]["exact"]) for end in ("low", "high"))
        self.assertLess(low, high)
        self.assertEqual(high, Fraction(answer["value"]["exact"]))
        rows = report_csv(Report("solved", answers=(Answer("solve", 1, "optimal", shown_by=PYTHON),), answered=1))
        self.assertIn("solve,1,optimal,shown by,,,,,,python", rows)

    def test_a_stop_stays_one_where_that_is_asked_for(self):
        with not_asked():
            out, told, status = called("table", "--no-exact", self.file("fit"))
        self.assertEqual((told, status), ("", 6))
        self.assertIn("stopped: 26 Wide", out)

    def test_settings(self):
        script = self.file("setting")
        Path(script).write_text(
            "import cvxpy as cp\nx = cp.Variable(601)\np = cp.Parameter(value=3)\n"
            "prob = cp.Problem(cp.Minimize(cp.sum(x)), [x >= p])\nprob.solve()\np.value = 4\nprob.solve()\n"
        )
        out, told, status = called("table", script)
        self.assertEqual((told, status), ("", 0))
        self.assertIn("the least objective is 1803", out)
        self.assertIn("the least objective is 2404", out)
        settings = Path(self.folder.name, "settings.txt")
        settings.write_text("p = 1/2\n")
        self.assertIn("the least objective is 601/2", called("table", script, str(settings))[0])

    def test_lies(self):
        with lying(lambda text: re.sub("\nvalue .*", "\nvalue 1", text)):
            out, told, status = called("table", self.file("fit"))
        self.assertEqual((out, status), ("", 7))
        self.assertIn("certificate refused section 1 Value", told)

    def test_certified(self):
        script = "import cvxpy as cp\nx = cp.Variable()\nprob = cp.Problem(cp.Minimize(x), [x >= 1])\n"
        certified(script, "{}\n", "certificate 2\nsection 1 optimal\nvalue 1\nvar x () = 1\ndual 1 () = 1\nend\n")
        with self.assertRaises(CertificateError):
            certified(script, "{}\n", "certificate 2\nsection 1 optimal\nvalue 1\nvar x () = 1\ndual 1 () = 2\nend\n")
        self.assertEqual(read_report("certified 1\n").certified, 1)


if __name__ == "__main__":
    unittest.main()
