"""The second reading: it agrees with worked cases, its limits are its parameter, and it is a command."""
import os
import subprocess
import sys
import unittest
from contextlib import redirect_stdout
from fractions import Fraction
from io import StringIO
from tempfile import TemporaryDirectory

from dcx.exact.cases import run_file
from dcx.exact.commands import run, trial_script
from dcx.exact.limits import NONE, OF_PROGRAM, Limits
from dcx.exact.numbers import EXACT, Limited, Passes
from dcx.program import run as run_program

HERE = os.path.dirname(os.path.abspath(__file__))
PACKAGE = os.path.dirname(HERE)
CASES = os.path.join(os.path.dirname(PACKAGE), "crates", "dcx_cases", "data")
# Files of each kind, with how many cases they have at least.
SAMPLE = {
    "operators.txt": 50,
    "certificate.txt": 30,
    "solve.txt": 5,
    "row_maps.txt": 5,
    "migrate.txt": 3,
    "docs/CERTIFICATES.md": 2,
}

WIDE = b"""\
import cvxpy as cp
import numpy as np
a = np.array([1/100000000003, 1/100000000019, 1/100000000057, 1/100000000063])
x = cp.Variable(4)
prob = cp.Problem(cp.Minimize(cp.sum(x)), [cp.multiply(a, x) >= 1, a @ x >= 4])
"""


def run_on(words, limits, **files):
    files = {name.replace("_", "."): data for name, data in files.items()}
    return run(words.split(), files.__getitem__, limits)


def folder_of(case):
    """A folder for one test."""
    folder = TemporaryDirectory()
    case.addCleanup(folder.cleanup)
    return folder.name


class Cases(unittest.TestCase):
    def test_a_sample_of_the_worked_cases_is_met(self):
        for name, least in SAMPLE.items():
            told = StringIO()
            with self.subTest(name), redirect_stdout(told):
                count, met = run_file(os.path.join(CASES, name))
                self.assertEqual(met, count, told.getvalue())
                self.assertGreaterEqual(count, least)

    def test_a_case_that_differs_is_told(self):
        path = os.path.join(folder_of(self), "wrong.txt")
        with open(path, "w", encoding="utf-8") as file:
            file.write("case trial 1\ngives 0\n| trial 2\n")
        told = StringIO()
        with redirect_stdout(told):
            self.assertEqual(run_file(path), (1, 0))
        self.assertIn("wanted 0", told.getvalue())


class TheLimits(unittest.TestCase):
    def test_numbers_pass_where_they_are_limited_and_not_where_they_are_not(self):
        small = Limited(100)
        self.assertEqual(small.add(Fraction(1, 7), Fraction(1, 11)), Fraction(18, 77))
        with self.assertRaises(Passes) as caught:
            small.add(Fraction(1, 11), Fraction(1, 13))
        self.assertEqual(caught.exception.text(), "add 1/11 1/13")
        self.assertEqual(EXACT.add(Fraction(1, 11), Fraction(1, 13)), Fraction(24, 143))
        self.assertEqual(small.div(Fraction(99), Fraction(99, 2)), 2)

    def test_two_limits_are_used_side_by_side(self):
        stopped = run_on("solve model.py", OF_PROGRAM, model_py=WIDE)
        status, text = run_on("solve model.py", NONE, model_py=WIDE)
        self.assertEqual(stopped[0], 6)
        self.assertIn("stopped 26 Wide", stopped[1])
        self.assertEqual(status, 0)
        # (each entry is at its own bound, and the sum of the bounds is the value)
        self.assertTrue(text.startswith("solve 1 optimal\nvalue 400000000142\n"), text)
        self.assertEqual(run_on("solve model.py", OF_PROGRAM, model_py=WIDE), stopped)

    def test_programs_of_any_size_are_answered_without_limits(self):
        script = trial_script(4)  # 10 rows; two of each free unknown, 4 + 1 others, and 10 slacks are 19 columns
        few = Limits(EXACT, 9, None)
        self.assertIn(
            "stopped 28 TooLarge rows 10 columns 19",
            run_on("resolve model.py settings.txt", few, model_py=script, settings_txt=b"q = 0\n")[1],
        )
        self.assertIn("stopped 28", run_on("trial 300", OF_PROGRAM)[1])
        self.assertEqual(
            run_on("resolve model.py settings.txt", Limits(EXACT, 10, 19), model_py=script, settings_txt=b"q = 0\n")[0],
            0,
        )


class TheCommand(unittest.TestCase):
    def command(self, *words):
        run_here = [sys.executable, "-m", "dcx.exact", *words]
        return subprocess.run(
            run_here, capture_output=True, text=True, cwd=CASES, env={**os.environ, "PYTHONPATH": PACKAGE}
        )

    def test_words_are_answered_with_report_and_status(self):
        found = self.command("trial", "3")
        self.assertEqual((found.returncode, found.stdout.split("\n")[0]), (0, "trial 3"))
        self.assertEqual(self.command("solve", "no_such_file.py").returncode, 3)
        self.assertEqual(self.command().returncode, 2)

    def test_files_of_cases_are_run(self):
        found = self.command("--cases", "operators.txt")
        self.assertRegex(found.stdout, r"^[1-9][0-9]* cases, 0 differ\n$")
        self.assertEqual(found.returncode, 0)

    def test_limits_are_lifted_by_an_option(self):
        self.assertIn("stopped 28 TooLarge", self.command("trial", "300").stdout)
        # (each of the 60 points that lie 10 too high has its whole distance from the line, and a slope of 2 costs 20)
        found = self.command("--no-limits", "trial", "300")
        self.assertEqual(found.stdout.split("\n")[1:3], ["setting 1 optimal value 600", "setting 2 optimal value 620"])
        self.assertEqual(found.returncode, 0)

    def test_a_certificate_of_what_the_program_stops_at(self):
        folder = folder_of(self)
        with open(os.path.join(folder, "wide.py"), "wb") as script:
            script.write(WIDE)
        with open(os.path.join(folder, "settings.txt"), "wb") as settings:
            settings.write(b"{}\n")
        found = self.command("--no-limits", "certificate", script.name, settings.name)
        self.assertEqual(found.returncode, 0, found.stderr)
        self.assertTrue(found.stdout.startswith("certificate 2\nsection 1 optimal\nvalue 400000000142\n"))
        self.assertEqual(run_program("certify", WIDE, b"{}\n", found.stdout).report, b"certified 1\n")

    def test_the_package_loads_nothing_of_it_by_itself(self):
        said = "import dcx, sys; print([m for m in sys.modules if m.startswith('dcx.exact')])"
        found = subprocess.run(
            [sys.executable, "-c", said], capture_output=True, text=True, env={**os.environ, "PYTHONPATH": PACKAGE}
        )
        self.assertEqual(found.stdout, "[]\n")


if __name__ == "__main__":
    unittest.main()
