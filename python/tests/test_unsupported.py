"""Names and attributes of CVXPY: those that are offered, and those that are refused, with what to write."""
from __future__ import annotations

import os
import re
import subprocess
import sys
import textwrap
import unittest
from pathlib import Path

import dcx.cvxpy as cp
from dcx import unsupported
from dcx.errors import UnsupportedError
from dcx.missing import Missing

FOLDER = Path(__file__).resolve().parent.parent
DOCS = FOLDER.parent / "docs"


class Names(unittest.TestCase):
    """What `cp` has."""

    def test_every_call_of_the_language(self):
        page = (DOCS / "LANGUAGE.md").read_text()
        table = page[page.index("### Calls"):page.index("### Limits")]
        names = set(re.findall(r"`cp\.(\w+)\(", table))
        self.assertGreater(len(names), 30)
        for name in sorted(names):
            self.assertIn(name, cp.__all__)
            self.assertTrue(callable(getattr(cp, name)), name)

    def test_what_the_page_on_cvxpy_writes_instead(self):
        page = (DOCS / "CVXPY.md").read_text()
        for name in sorted(set(re.findall(r"cp\.(\w+)", page))):
            if name not in unsupported.NAMES:
                self.assertTrue(hasattr(cp, name), name)

    def test_all_names_are_there(self):
        for name in cp.__all__:
            self.assertTrue(hasattr(cp, name), name)
            self.assertNotIn(name, unsupported.NAMES, name)
        self.assertEqual(len(cp.__all__), len(set(cp.__all__)))
        self.assertEqual((cp.OPTIMAL, cp.INFEASIBLE, cp.CLARABEL, cp.installed_solvers()),
                         ("optimal", "infeasible", "CLARABEL", ["DCX"]))
        self.assertIs(cp.error.SolverError, cp.SolverError)
        self.assertEqual(cp.settings.UNBOUNDED, "unbounded")
        self.assertIs(cp.expressions.constants.parameter.Parameter, cp.Parameter)
        self.assertIs(cp.constraints.nonpos.NonPos, cp.NonPos)
        with self.assertRaisesRegex(AttributeError, "no attribute 'nothing'"):
            cp.nothing

    def test_each_refusal_says_why_and_what_to_write(self):
        self.assertGreater(len(unsupported.NAMES), 90)
        for name in unsupported.NAMES:
            with self.subTest(name):
                with self.assertRaises(UnsupportedError) as caught:
                    getattr(cp, name)(cp.Variable(3), 2)
                told = str(caught.exception)
                place = r"\n  .*test_unsupported\.py:\d+\n    getattr"
                self.assertRegex(told, rf"^cp\.{name} isn't offered: .+\. Write .+\." + place)

    def test_the_calls_that_it_names_are_offered(self):
        for name, (why, write) in unsupported.NAMES.items():
            for word in re.findall(r"cp\.(\w+)", why + write):
                self.assertIn(word, cp.__all__, name)

    def test_a_name_may_be_imported_and_asked_for_in_vain(self):
        from dcx.cvxpy import SOC, square
        self.assertFalse(isinstance(cp.Variable() <= 1, SOC))
        self.assertIn("square", repr(square))
        self.assertRaises(UnsupportedError, lambda: cp.transforms.indicator)

    def test_attributes_of_objects(self):
        x = cp.Variable(3)
        rule = x >= 1
        objects = {"expression": x + 1, "leaf": x, "constraint": rule, "problem": cp.Problem(cp.Minimize(0), [rule])}
        count = 0
        for word, one in objects.items():
            for name in dir(type(one)):
                if not isinstance(getattr(type(one), name), Missing):
                    continue
                with self.subTest(word, name=name):
                    count += 1
                    self.assertFalse(hasattr(one, name))
                    with self.assertRaises(UnsupportedError) as caught:
                        getattr(one, name)
                    told = rf"^(expression|{word})\.{name}\S* isn't offered: .+\. Write .+\."
                    self.assertRegex(str(caught.exception), told + r"\n  .*test_unsupported\.py:\d+\n    getattr")
                    for call in re.findall(r"cp\.(\w+)", caught.exception.reason):
                        self.assertIn(call, cp.__all__)
        self.assertGreater(count, 60)
        with self.assertRaisesRegex(AttributeError, "has no attribute 'shap'"):
            x.shap
        self.assertEqual(x.ptp(axis=0).name(), cp.ptp(x, axis=0).name())

    def test_what_is_told_of_an_attribute_holds(self):
        """What is written instead is there, of the same objects."""
        x = cp.Variable((2, 2), symmetric=True, name="x")
        p = cp.Parameter(value=3)
        rule = x >= p
        problem = cp.Problem(cp.Minimize(cp.sum(x)), [rule])
        problem.solve()
        self.assertEqual((problem.value, rule.dual_value.sum(), problem.range(p).slope), (12, 4, 4))
        self.assertTrue(x.attributes["symmetric"] and problem.is_dcp() and rule.is_dcp())
        self.assertGreater(problem.solver_stats.solve_time, 0)
        self.assertNotEqual(rule.id, (x >= p).id)

    def test_a_star_brings_the_names(self):
        text = textwrap.dedent("""
            from dcx.cvxpy import *
            x = Variable(2, nonneg=True)
            problem = Problem(Maximize(sum(x) - norm1(x - 1)), [max(x) <= 3, abs(x[0]) <= 2])
            print(problem.solve(solver=ECOS), problem.status == OPTIMAL)
            """)
        done = subprocess.run([sys.executable, "-c", text], capture_output=True, text=True,
                              env={**os.environ, "PYTHONPATH": str(FOLDER)})
        self.assertEqual((done.stdout, done.stderr), ("2.0 True\n", ""))


if __name__ == "__main__":
    unittest.main()
