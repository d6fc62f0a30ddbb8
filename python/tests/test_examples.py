"""Every script of examples/ runs as Python with its import changed, and has the numbers of the report: those of
`report.txt` where there is one, and else what the program answers to the script itself.
"""
from __future__ import annotations

import contextlib
import io
import os
import re
import subprocess
import sys
import unittest
from fractions import Fraction
from pathlib import Path

import numpy as np

import dcx.cvxpy as cp
from dcx import DCPError, SolverError, float_digits, program, read_report
from dcx.constraints import Constraint
from dcx.expressions import Variable

EXAMPLES = Path(__file__).resolve().parents[2] / "examples"
FILES = sorted(EXAMPLES.glob("*/*.py"))
SCRIPTS = [path for path in FILES if re.search(r"^import cvxpy as cp$", path.read_text(), re.M)]
DRIVERS = [path for path in FILES if path not in SCRIPTS]  # those that import the package itself
# Where the settings of a script have a name of their own; elsewhere they are settings.txt beside a model.py.
SETTINGS = {
    "guide/hours": ["hours_settings.txt", "hours_weeks.txt"],
    "guide/shares": ["shares_settings.txt"],
    "guide/worth": ["worth_settings.txt"],
    "messages/wide_range": ["wide_range.txt"],
    "messages/model": ["settings.txt"],
}
REFUSED = {"portfolio/too_little_turnover": ("rule at_most", 10), "guide/bonus": ("rule maximize", 8)}
# Where Python and the language mean another thing by the same text, the value and the first multiplier that Python's
# has, by hand: `raised += 1` changes the array that it was bound to, a float has no 25 digits behind the point, and `3
# == x` is x == 3 to Python, with a multiplier of its sign.
ANOTHER = {"cvxpy/in_place": (6, [1, 1, 1]), "messages/wide_pivot": (1, [-1.5]), "cvxpy/turned": (6, [-2])}
# Where the program alone stops, and the exact solver has an answer: its value, by hand.
BEYOND = {"messages/too_large": 25}
# Where Python forms `1 - 0.9` first, which is a float that isn't quite a tenth, floats are read to twelve decimals.
ROUNDED = {"regression/model"}


def name_of(path):
    return f"{path.parent.name}/{path.stem}"


def settings_of(path):
    """The texts of the settings files of a script."""
    named = SETTINGS.get(name_of(path), ["settings.txt"] if path.stem == "model" else [])
    return [text for text in ((path.parent / name) for name in named) if text.exists()]


def number(text):
    return Fraction(text.replace(" ", ""))


def read_settings(text):
    """The settings of a file, by the name of the parameter, read here by the rules of docs/LANGUAGE.md."""
    joined, depth = "", 0
    for line in text.splitlines():
        line = line.split("#")[0].strip()
        depth += line.count("[") - line.count("]")
        joined += line + (" " if depth else "\n")
    settings = []
    for line in filter(None, (line.strip() for line in joined.splitlines())):
        items = [] if line == "{}" else [item.split("=") for item in line.split(";")]
        settings.append({name.strip(): [number(part) for part in value.strip(" []").split(",")]
                         if "[" in value else number(value)
                         for name, value in items})
    return settings


def run_script(path):
    """The names that the script leaves, run as Python with its import changed, at its own file and lines."""
    text, changed = re.subn(r"^import cvxpy as cp$", "import dcx.cvxpy as cp", path.read_text(), flags=re.M)
    assert changed == 1, path
    names = {"__name__": "__main__"}
    with contextlib.redirect_stdout(io.StringIO()):
        exec(compile(text, str(path), "exec"), names)
    return names


def entries(value):
    return [Fraction(entry) for entry in np.asarray(value, dtype=object).ravel()]


class Examples(unittest.TestCase):
    def check_answer(self, names, problem, result, answer, at):
        """A result has the numbers of a report's answer. `result` tells values by variable and constraint."""
        if answer.status == "stopped":
            self.assertEqual(result.status, "solver_error", at)
            self.assertEqual((result.error.stop.number, result.error.stop.name), (answer.stop.number, answer.stop.name),
                             at)
            return
        self.assertEqual(result.status, answer.status, at)
        self.assertEqual(result.exact, answer.value, at)
        variables = {name: value for name, value in names.items() if isinstance(value, Variable)}
        for name, wanted in answer.variables.items():
            if answer.status == "optimal":
                self.assertEqual(entries(result.exact_value(variables[name])), list(wanted.entries), (at, name))
        if answer.duals and answer.status == "optimal":
            for place, constraint in enumerate(problem.constraints, start=1):
                self.assertEqual(entries(result.exact_dual(constraint)), list(answer.duals[place].entries), (at, place))
        if answer.status == "infeasible" and answer.gap is not None:
            self.assertEqual(result.farkas.gap, answer.gap, at)
        if answer.status == "unbounded":
            self.assertEqual((result.ray.bound, result.ray.slope), (answer.bound, answer.slope), at)

    def test_every_script_is_here(self):
        self.assertGreaterEqual(len(SCRIPTS), 44)
        self.assertLessEqual({*REFUSED, *ROUNDED, "cvxpy/in_place"}, {name_of(path) for path in SCRIPTS})

    def test_drivers(self):
        """Scripts that import the package print what stands in `printed.txt` beside them."""
        for path in DRIVERS:
            environment = dict(os.environ, PYTHONPATH=str(EXAMPLES.parent / "python"), PYTHONDONTWRITEBYTECODE="1")
            printed = subprocess.run([sys.executable, str(path)], env=environment, stdin=subprocess.DEVNULL, check=True,
                                     stdout=subprocess.PIPE)
            self.assertEqual(printed.stdout.decode(), path.with_name("printed.txt").read_text(), path)

    def check_last(self, names, problem, answer, at):
        """What stands in the problem itself behind its last solve."""
        if problem.status is None:
            try:
                problem.solve(exact=False)
            except SolverError:
                pass
        self.check_answer(names, problem, problem._result, answer, at)
        if at in BEYOND:
            self.assertAlmostEqual(problem.solve(), BEYOND[at], delta=1e-6)
        if answer.status == "optimal":
            self.assertEqual(problem.value, float(problem.exact))

    def check_settings(self, names, problem, script, text, path):
        wanted = read_report(program.run("resolve", script, text).report).answers
        kept = path.with_name("report.txt")
        if kept.exists() and path.parent.name not in ("guide", "messages"):
            self.assertEqual(wanted, read_report(kept.read_bytes()).answers)
        settings = [{names.get(key, key): value for key, value in setting.items()} for setting in read_settings(text)]
        self.assertEqual(len(settings), len(wanted))
        fitting = [(s, w) for s, w in zip(settings, wanted) if w.status != "stopped" or w.stop.number >= 25]
        results = problem.solve_at([setting for setting, _ in fitting], warm=False)
        for (_, answer), result in zip(fitting, results):
            self.check_answer(names, problem, result, answer, (name_of(path), answer.index))
        # The same one after the other, by the parameters' own values.
        for setting, answer in fitting:
            before = {parameter: parameter.value for parameter in problem.parameters()}
            for parameter, value in setting.items():
                parameter.value = value
            try:
                problem.solve()
            except SolverError:
                pass
            self.check_answer(names, problem, problem._result, answer, (name_of(path), "solve", answer.index))
            for parameter, value in before.items():
                parameter.value = value
        # What doesn't fit a parameter is refused where it is given.
        for setting, answer in zip(settings, wanted):
            if answer.status == "stopped" and answer.stop.number < 25:
                with self.assertRaises((ValueError, KeyError, cp.error.ParameterError), msg=answer.stop.text):
                    problem.solve_at([setting])

    def test_check(self):
        """What `check.txt` says of the curvature."""
        for folder in ("portfolio", "regression", "trajectory"):
            verdict = read_report((EXAMPLES / folder / "check.txt").read_bytes()).verdict
            problem = run_script(EXAMPLES / folder / "model.py")["prob"]
            self.assertEqual((problem.is_dcp(), problem.is_dpp()), (True, verdict.dpp))
            objective = problem.objective.expr
            self.assertEqual(objective.curvature, verdict.curvature.upper())
            self.assertEqual(sum(x.size for x in problem.variables()), verdict.variable_entries)
            self.assertEqual(len(problem.constraints), verdict.constraints)

    def test_constraints_in_the_way(self):
        folder = EXAMPLES / "schedule"
        names = run_script(folder / "model.py")
        problem = names["prob"]
        wanted = read_report((folder / "iis.txt").read_bytes()).answers
        for setting, answer in zip(read_settings((folder / "settings.txt").read_text()), wanted):
            for key, value in setting.items():
                names[key].value = value
            found = problem.irreducible()
            told = {id(constraint) for constraint in found.constraints}
            numbers = [place for place, constraint in enumerate(problem.constraints, start=1) if id(constraint) in told]
            self.assertEqual(numbers, list(answer.members))
            self.assertTrue(all(isinstance(one, Constraint) for one in found.constraints))

    def test_ranges(self):
        folder = EXAMPLES / "prices"
        names = run_script(folder / "model.py")
        wanted = read_report((folder / "range.txt").read_bytes()).answers
        for setting, answer in zip(read_settings((folder / "settings.txt").read_text()), wanted):
            names["neighbour"].value = setting["neighbour"]
            span = names["prob"].range(names["neighbour"])
            self.assertEqual(span.status if answer.status == "infeasible" else "optimal",
                             "infeasible" if answer.status == "infeasible" else "optimal")
            if answer.range:
                self.assertEqual((span.low, span.high, span.value, span.slope),
                                 (answer.range.low, answer.range.high, answer.range.value, answer.range.slope))


def test_of(path):
    def test(self):
        script, name = path.read_text(), name_of(path)
        if name in ROUNDED:
            float_digits(decimals=12)
            self.addCleanup(float_digits)
        if name in REFUSED:
            with self.assertRaises(DCPError) as caught:
                run_script(path)["prob"].solve()
            rule, line = REFUSED[name]
            self.assertEqual((caught.exception.site.file, caught.exception.site.line), (str(path), line))
            self.assertIn(rule, read_report(program.run("check", script).report).text.splitlines()[0])
            return
        if name in ANOTHER:
            problem = run_script(path)["prob"]
            self.assertEqual((problem.solve(), np.ravel(problem.constraints[0].dual_value).tolist()), ANOTHER[name])
            return
        # The script's own solves, as far as they end.
        try:
            names = run_script(path)
        except SolverError as error:
            answers = read_report(program.run("solve", script).report).answers
            self.assertEqual(error.stop.number, answers[-1].stop.number)
            return
        problem = names["prob"]
        texts = [text.read_text() for text in settings_of(path)]
        if not texts:
            report = read_report(program.run("solve", script).report)
            kept = path.with_name("report.txt" if path.stem == "model" else f"{path.stem}.txt")
            if kept.exists() and path.parent.name not in ("guide", "messages"):
                self.assertEqual(report, read_report(kept.read_bytes()))
            self.check_last(names, problem, report.answers[-1], name)
        for text in texts:
            self.check_settings(names, problem, script, text, path)

    def check(self):
        test(self)

    check.__doc__ = name_of(path)
    return check


for path in SCRIPTS:
    setattr(Examples, "test_" + name_of(path).replace("/", "_"), test_of(path))

if __name__ == "__main__":
    unittest.main()
