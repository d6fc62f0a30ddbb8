"""The command line: scripts that run as they stand, reports in other forms, and the program's own words."""
from __future__ import annotations

import csv
import io
import json
import os
import subprocess
import sys
import tempfile
import unittest
from pathlib import Path

import dcx
from dcx import program
from dcx.__main__ import COMMANDS, WORDS, command_parser, main

TOP = Path(__file__).resolve().parents[2]
MODEL = """\
import sys
import cvxpy as cp
from cvxpy import Minimize, Variable
import prices

x = Variable(nonneg=True)
y = cp.Variable(nonneg=True)
prob = cp.Problem(Minimize(-prices.x*x - 2*y), [x + y <= 4, x <= 3])
print(__name__, __file__, sys.argv[1:])
print(prob.solve(), x.value, y.value, prob.status)
"""
NOT_CONCAVE = """\
import cvxpy as cp
x = cp.Variable(3)
def build():
    return cp.Problem(cp.Maximize(cp.norm1(x)))
build().solve()
"""
CAUSED = """\
import cvxpy as cp
try:
    cp.Variable(3) + cp.Variable(4)
except ValueError as error:
    raise RuntimeError("so") from error
"""


def python(*words, **how):
    """`python3 -m dcx` with these words at the top of the checkout, where standard output goes elsewhere."""
    command = [sys.executable, "-m", "dcx", *words]
    environment = {**os.environ, "PYTHONPATH": str(TOP / "python")}
    return subprocess.run(command, stderr=subprocess.PIPE, cwd=TOP, env=environment, timeout=60, **how)


def run(*words, folder=TOP, data=None, **options):
    """Standard output, standard error and the status of `python3 -m dcx` with these words, in a folder."""
    command = [sys.executable, "-m", "dcx", *map(str, words)]
    environment = {**os.environ, "PYTHONPATH": str(TOP / "python"), **options}
    done = subprocess.run(command, capture_output=True, cwd=folder, input=data, env=environment)
    return done.stdout.decode(), done.stderr.decode(), done.returncode


class Folder(unittest.TestCase):
    """Tests with a folder of scripts."""

    def setUp(self):
        self.folder = tempfile.TemporaryDirectory()
        self.addCleanup(self.folder.cleanup)
        self.path = Path(self.folder.name).resolve()

    def script(self, text, name="model.py"):
        path = self.path / name
        path.write_text(text)
        return path


class Run(Folder):
    def test_a_script_runs_as_it_stands(self):
        self.script("x = 3\n", "prices.py")
        script = self.script(MODEL)
        out, told, status = run("run", script, "--warm", "-n", "3", "--", "x")
        self.assertEqual((told, status), ("", 0))
        self.assertEqual(out, f"__main__ {script} ['--warm', '-n', '3', '--', 'x']\n-11.0 3.0 1.0 optimal\n")
        # From its own folder too, where the package isn't on the path but by its variable.
        self.assertEqual(run("run", "model.py", folder=self.path)[0], "__main__ model.py []\n-11.0 3.0 1.0 optimal\n")

    def test_the_status_is_the_scripts(self):
        self.assertEqual(run("run", self.script("import sys\nsys.exit(5)\n"))[2], 5)
        out, told, status = run("run", self.script("raise SystemExit('no more')\n"))
        self.assertEqual((told, status), ("no more\n", 1))
        out, told, status = run("run", self.path / "nowhere.py")
        self.assertEqual((out, status), ("", 3))
        self.assertIn("nowhere.py can't be read", told)

    def test_errors_show_the_users_frames(self):
        script = self.script("def half(x):\n    return 1/x\n\n\nhalf(0)\n")
        out, told, status = run("run", script)
        wanted = subprocess.run([sys.executable, script], capture_output=True, text=True)
        self.assertEqual((told, status), (wanted.stderr, wanted.returncode))

    def test_errors_of_the_package_show_the_users_line_alone(self):
        out, told, status = run("run", self.script(NOT_CONCAVE))
        self.assertEqual((out, status), ("", 1))
        self.assertEqual(told.count('  File "'), 1)
        self.assertIn('model.py", line 5, in <module>', told)
        self.assertIn("DCPError", told)
        self.assertIn("model.py:4", told)
        self.assertNotIn("runpy", told)
        out, told, status = run("run", self.script("import cvxpy as cp\nx = cp.Variable(3)\ny = x + cp.Variable(4)\n"))
        self.assertEqual((told.count('  File "'), status), (1, 1))
        self.assertIn("ValueError", told)

    def test_types_and_divisors_show_the_users_line_alone(self):
        for line, name in (("x + None", "TypeError"), ("cp.Variable(3, nonnegative=True)", "TypeError"),
                           ("x / 0", "ZeroDivisionError")):
            told = run("run", self.script(f"import cvxpy as cp\nx = cp.Variable(3)\n{line}\n"))[1]
            self.assertEqual(told.count('  File "'), 1, told)
            self.assertIn('model.py", line 3', told)
            self.assertIn(f"\n{name}: ", told)

    def test_values_and_numbers_show_the_users_line_alone(self):
        wide, no_number = 10**50 + 1, 'float("nan")'
        for line, told_of in ((f"p.value = [1, {no_number}]", "ValueError: Parameter value of p: NaN"),
                              ("p.value = [1, '3']", "TypeError: Parameter value of p: '3'"),
                              (f"cp.Problem(cp.Minimize(p[0]), [p >= {wide}]).script()", "LimitError: ")):
            told = run("run", self.script(f"import cvxpy as cp\np = cp.Parameter(2, name='p')\n{line}\n"))[1]
            self.assertEqual(told.count('  File "'), 1, told)
            self.assertIn('model.py", line 3', told)
            self.assertIn(told_of, told)

    def test_a_context_of_the_users_own_is_shown(self):
        lines = ["import contextlib", "", "", "@contextlib.contextmanager", "def told():", "    try:", "        yield",
                 "    except KeyError:", "        raise ValueError(3) from None", "", "",
                 "with told():", "    {}[1]", ""]
        script = self.script("\n".join(lines))
        wanted = subprocess.run([sys.executable, script], capture_output=True, text=True)
        self.assertEqual(run("run", script)[1], wanted.stderr)

    def test_causes_are_shown_too(self):
        told = run("run", self.script(CAUSED))[1]
        self.assertIn("direct cause", told)
        self.assertEqual(told.count('  File "'), 2)
        self.assertNotIn(os.path.join("python", "dcx"), told)

    def test_what_lies_below_cvxpy(self):
        for line in ("import cvxpy.atoms", "from cvxpy.atoms.affine import hstack", "import cvxpy.reductions"):
            out, told, status = run("run", self.script(line + "\n"))
            self.assertEqual(status, 1)
            self.assertRegex(told, r"ModuleNotFoundError: dcx has no cvxpy\.\w+: take the names from cvxpy itself")
        text = (
            "import cvxpy as cp\nimport cvxpy.settings as s\nfrom cvxpy.error import DCPError\n"
            "print(DCPError is cp.error.DCPError, s is cp.settings, s.OPTIMAL)\n"
        )
        self.assertEqual(run("run", self.script(text))[::2], ("True True optimal\n", 0))

    def test_the_modules_of_cvxpys_classes(self):
        text = """\
import cvxpy
import cvxpy as cp
import cvxpy.problems.problem
from cvxpy.constraints import Equality, Zero
from cvxpy.constraints.constraint import Constraint
from cvxpy.constraints.nonpos import Inequality, NonNeg, NonPos
from cvxpy.expressions.constants import Constant, Parameter
from cvxpy.expressions.expression import Expression
from cvxpy.expressions.leaf import Leaf
from cvxpy.expressions.variable import Variable
from cvxpy.problems.objective import Minimize

x: cp.expressions.variable.Variable = Variable()
print([type(one) is kind for one, kind in ((x == 0, Equality), (cp.Zero(x), Zero), (x <= 1, Inequality))])
print(all(isinstance(one, Constraint) for one in (x <= 1, NonNeg(x), NonPos(x))), isinstance(x, Leaf))
print([isinstance(one, Expression) for one in (x, x + 1, Parameter(), Constant(2), x >= 1)])
print(cvxpy.problems.problem.Problem(Minimize(x), [x >= 3]).solve())
"""
        told = "[True, True, True]\nTrue True\n[True, True, True, True, False]\n3.0\n"
        self.assertEqual(run("run", self.script(text)), (told, "", 0))

    def test_processes_that_a_script_starts(self):
        text = """\
import concurrent.futures
import multiprocessing
import cvxpy as cp


def least(bound):
    x = cp.Variable()
    return cp.Problem(cp.Minimize(x), [x >= bound]).solve()


if __name__ == "__main__":
    for way in ("fork", "spawn"):
        context = multiprocessing.get_context(way)
        with concurrent.futures.ProcessPoolExecutor(2, mp_context=context) as pool:
            print(list(pool.map(least, [1, 2.5, -3])))
"""
        out, told, status = run("run", self.script(text))
        self.assertEqual((out, told, status), ("[1.0, 2.5, -3.0]\n" * 2, "", 0))

    def test_a_folder_with_another_cvxpy(self):
        """The recorder stands in, whatever else there is."""
        self.script("raise ImportError('the wrong one')\n", "cvxpy.py")
        self.assertEqual(run("run", self.script("import cvxpy\nprint(cvxpy.__name__)\n"))[0], "dcx.cvxpy\n")


class Forms(Folder):
    def test_json_and_csv(self):
        report = (TOP / "examples/certificates/report.txt").read_bytes()
        by_file = run("json", "examples/certificates/report.txt")
        self.assertEqual(by_file[1:], ("", 0))
        for words in (("json",), ("json", "-")):
            self.assertEqual(run(*words, data=report), by_file)
        found = json.loads(by_file[0])
        self.assertEqual(found["answers"][0]["value"], {"exact": "3/2", "decimal": 1.5})
        out, told, status = run("csv", data=report)
        rows = list(csv.DictReader(io.StringIO(out)))
        self.assertEqual((told, status), ("", 0))
        numbers = [row["exact"] for row in rows if row["what"] in ("value", "gap", "bound")]
        self.assertEqual(numbers, ["3/2", "1/2", "-2"])

    def test_what_is_no_report(self):
        for word in ("json", "csv"):
            out, told, status = run(word, data=b"solve 1 optimal\nvalue 6/4\n")
            self.assertEqual((out, status), ("", 1))
            self.assertIn("standard input is no report: line 2", told)
            out, told, status = run(word, self.path / "nowhere.txt")
            self.assertEqual((out, status), ("", 3))
            self.assertIn("nowhere.txt can't be read", told)


class Words(Folder):
    def test_the_program_answers_its_words(self):
        """Output and status are those of the program, run without the package."""
        for words in (
            ("check", "examples/portfolio/model.py"),
            ("check", "examples/portfolio/too_little_turnover.py"),
            ("solve", "examples/production/model.py", "--max-pivots", "1"),
            ("solve", "nowhere.py"),
            ("solve",),
            ("resolve", "examples/diet/model.py", "examples/diet/settings.txt", "--warm"),
            ("range", "examples/guide/hours.py", "examples/guide/hours_settings.txt", "price"),
            ("iis", "examples/schedule/model.py", "examples/schedule/settings.txt"),
            ("certify", "examples/production/model.py", "examples/messages/once.txt", "examples/production/report.txt"),
            ("trial", "3"),
        ):
            wanted = subprocess.run([program.find(), *words], capture_output=True, cwd=TOP)
            out, told, status = run(*words)
            self.assertEqual((out.encode(), told.encode()), (wanted.stdout, wanted.stderr), words)
            self.assertEqual(status, wanted.returncode, words)

    def test_its_words_are_those_of_the_usage_line(self):
        usage = run("solve")[0]
        self.assertEqual({part.split()[0] for part in usage.replace("usage: dcx ", "").split(" | ")}, set(WORDS))

    def test_a_program_that_is_not_there(self):
        out, told, status = run("solve", "examples/production/model.py", DCX=str(self.path / "nothing"))
        self.assertEqual((out, status), ("", 70))
        self.assertIn("DCX", told)
        for word in ("solve", "table"):
            out, told, status = run(word, "examples/production/model.py", DCX_MEMORY="few")
            self.assertEqual((out, status), ("", 70))
            self.assertIn("DCX_MEMORY", told)


class Help(unittest.TestCase):
    def test_version_and_help(self):
        self.assertEqual(run("--version"), (f"dcx {dcx.__version__}\n", "", 0))
        out, told, status = run("--help")
        self.assertEqual((told, status), ("", 0))
        for name in (*COMMANDS, *WORDS):
            self.assertIn(name, out)
        for name in COMMANDS:
            self.assertEqual(run(name, "--help")[2], 0)

    def test_words_that_are_none(self):
        for words in ((), ("nothing",), ("run",), ("table", "a", "b", "c"), ("json", "--what")):
            out, told, status = run(*words)
            self.assertEqual((out, status), ("", 2), words)
            self.assertIn("usage: python3 -m dcx", told)

    def test_each_command_has_its_module(self):
        for name in COMMANDS:
            self.assertIsNotNone(command_parser(name))
        self.assertTrue(callable(main))

    def test_a_reader_that_goes_away(self):
        """As `| head` does: no traceback, and a status that isn't 0."""
        command = f"{sys.executable} -m dcx csv examples/schedule/iis.txt; echo $? >&2"
        reading, writing = os.pipe()
        os.close(reading)
        environment = {**os.environ, "PYTHONPATH": str(TOP / "python")}
        how = {"stderr": subprocess.PIPE, "cwd": TOP, "text": True, "env": environment}
        done = subprocess.run(["sh", "-c", command], stdout=writing, **how)
        os.close(writing)
        self.assertEqual(done.stderr, "4\n")

    def test_output_that_cannot_be_written(self):
        """No traceback, and the status that the program has for it."""
        model, report = "examples/production/model.py", "examples/production/report.txt"
        told = "dcx: standard output can't be written: No space left on device\n"
        for words in (["table", model], ["json", report], ["csv", report], ["whole-check", "examples"]):
            with self.subTest(words[0]), open("/dev/full", "wb") as full:
                done = python(*words, stdout=full)
                self.assertEqual((done.stderr.decode(), done.returncode), (told, 4))

    def test_output_that_is_closed(self):
        words = ["table", "examples/production/model.py"]
        done = python(*words, stdout=subprocess.DEVNULL, preexec_fn=lambda: os.close(1))
        self.assertEqual((done.stderr, done.returncode), (b"dcx: standard output is closed\n", 4))


if __name__ == "__main__":
    unittest.main()
