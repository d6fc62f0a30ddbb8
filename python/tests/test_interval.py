"""Intervals: they hold the exact best value, are as narrow as is aimed at, and the program says yes to both ends."""
from __future__ import annotations

import random
import unittest
from fractions import Fraction

import numpy as np

import dcx.cvxpy as cp
from dcx import program
from dcx.certificates import CertificateError, certified
from dcx.errors import SolverError
from dcx.exact.answers import solve
from dcx.exact.commands import Accepted
from dcx.reports import read_report
from dcx.shown import INTERVAL
from dcx.shown.intervals import Interval
from dcx.shown.making import AIM, Maker
from dcx.shown.multipliers import fitted
from dcx.shown.texts import Text
from tests import wide

HEAD = "import cvxpy as cp\nimport numpy as np\n"
# Problems that hold each attribute and each atom, with their exact answers within reach.
FORMS = {
    "objective by name": """
x = cp.Variable(2)  # (a bracket in a comment
aim = cp.Minimize(cp.abs(x[0] - 1/3) +
                  cp.max(x))
rules = [x[0] + x[1] >= 1/7]
rules += [x <= 3, x >= -3]
prob = cp.Problem(aim, rules)
""",
    "keyword and comma": """
x = cp.Variable(2, nonneg=True)
prob = cp.Problem(cp.Maximize(cp.minimum(x[0], 2*x[1]) - x[1]/3,), constraints=[x[0] <= 2/3, cp.sum(x) <= 5],)
prob.solve()
print(x.value)
""",
    "no constraint": """
x = cp.Variable()
prob = cp.Problem(cp.Minimize(cp.maximum(x/3, 1 - x, -x/7) + cp.pos(x - 2) + cp.neg(x)))
""",
    "matrices": """
X = cp.Variable((2, 2), symmetric=True)
D = cp.Variable((2, 2), diag=True)
n = cp.Variable((1, 2), nonpos=True)
C = np.array([[1, 2/3], [0.25, 3]])
rules = [cp.diag(D) >= 1/3, X[0, 1] >= 1]
prob = cp.Problem(cp.Minimize(cp.norm_inf(X + D - C) + cp.norm1(n + 1/9) + cp.trace(D)/5), rules)
""",
    "folds": """
x = cp.Variable(4)
p = cp.Parameter(nonneg=True, value=3/7)
b = np.array([1, -2/3, 3.3, 0.7])
prob = cp.Problem(cp.Minimize(cp.sum_largest(cp.abs(x - b), 2) + p*cp.max(cp.cummax(x)) + cp.norm1(cp.diff(x))
    - cp.sum_smallest(x, 2)/5 - cp.min(x)/9), [cp.norm1(x) <= 6, x[0] + 3*x[1] == 1/3])
""",
    "a list of loops": """
x = cp.Variable(3, nonneg=True)
prob = cp.Problem(cp.Maximize(cp.sum(x)), [x[i] + (i + 1)*x[2] <= 1 + i/3 for i in range(2)] + [x[2] <= 1/9])
""",
}


def exact_value(script):
    (answer,) = solve(script.encode()).answers
    return answer.value


class Ends(unittest.TestCase):
    def holds(self, interval, value):
        """Both ends hold the value, as the program says, and are as near as is aimed at."""
        self.assertTrue(interval.low <= value <= interval.high, (float(interval.low), float(value), interval))
        self.assertLess(interval.width, AIM)
        interval.point.check()
        interval.bound.check()

    def test_wide_fits(self):
        problem, x, found = wide.fit(3, 9, 12, 6)
        problem.solve()
        self.assertEqual((problem.status, problem.shown_by, problem.exact), ("optimal_inaccurate", INTERVAL, None))
        interval = problem.interval
        self.assertEqual((interval.box, interval.boxed), (10**6, ("x",)))
        self.assertAlmostEqual(problem.value, found.fun, places=7)
        self.assertEqual(problem.objective.expr.exact, interval.high)
        self.assertLess(max(entry.denominator for entry in x.exact), 10**20)
        self.assertIn("dcx_objective <=", interval.bound.script)
        self.assertIn("x <= 1000000", interval.bound.script)
        problem.solve(box=20)
        self.assertEqual((problem.interval.box, problem.interval.boxed), (20, ("x",)))
        narrow = problem.interval
        problem.solve(trust="python")
        for one in (interval, narrow):
            self.holds(one, problem.exact)

    def test_wide_blends_and_portfolios(self):
        for problem, x, found in (wide.blend(2, 24, 20, 7), wide.portfolio(5, 14, 30, 7)):
            value = problem.solve()
            self.assertEqual((problem.status, problem.shown_by), ("optimal_inaccurate", INTERVAL))
            interval = problem.interval
            self.assertEqual(interval.boxed, ())
            self.assertAlmostEqual(value, found.fun, places=7)
            for constraint in problem.constraints:
                self.assertFalse(np.any(constraint.exact_residual))
            self.assertTrue(all(entry >= 0 for entry in x.exact))
            problem.solve(trust="python")
            self.holds(interval, problem.exact)

    def test_equalities_that_no_rounded_point_keeps(self):
        draw = np.random.default_rng(3)
        x = cp.Variable(9, name="x")
        E, d, A, b = (wide.numbers(draw, 6, *shape) for shape in ((5, 9), (5,), (12, 9), (12,)))
        problem = cp.Problem(cp.Minimize(cp.norm1(A @ x - b)), [E @ x == d])
        with self.assertRaises(SolverError) as error:
            problem.solve()
        self.assertRegex(str(error.exception), r"isn't feasible: it breaks constraint 1 by \d.*e-1\d")
        bound = float(str(error.exception).partition("nothing is better than ")[2].split(" ")[0])
        self.assertEqual((problem.status, x.value, problem.interval), ("solver_error", None, None))
        problem.solve(trust="python")
        self.assertTrue(0 <= problem.value - bound < 1e-8)

    def test_each_form_of_a_script(self):
        for name, body in FORMS.items():
            script = HEAD + body
            value = exact_value(script)
            settings = "{}\n"
            made = Maker(script, settings).interval()
            self.assertIsNotNone(made.value, (name, made.why, made.residues))
            self.assertIsNotNone(made.bound, (name, made.why))
            worse, better = (made.bound, made.value) if "Maximize" in script else (made.value, made.bound)
            self.assertTrue(better <= value <= worse, name)
            self.assertLess(made.width(), AIM, name)
            for text, certificate in (made.upper, made.lower):
                certified(text, settings, certificate)
                self.assertEqual(text.count("Problem("), 1)
            # the program itself finds the point feasible, and has nothing to choose
            report = read_report(program.run("resolve", made.upper[0], settings).report)
            self.assertEqual((report.answers[0].value, report.answers[0].variables), (made.value, {}), name)

    def test_bounds_pay_in_place_of_a_box(self):
        draw = np.random.default_rng(8)
        A, b = wide.numbers(draw, 6, 12, 9), wide.numbers(draw, 6, 12)
        x = cp.Variable(9, bounds=[-5, 5])
        problem = cp.Problem(cp.Minimize(cp.norm1(A @ x - b)))
        problem.solve()
        self.assertEqual((problem.shown_by, problem.interval.boxed), (INTERVAL, ()))
        interval = problem.interval
        problem.solve(trust="python")
        self.holds(interval, problem.exact)

    def test_what_is_too_wide_is_no_answer(self):
        """The least value is 0, and its multiplier passes 128 bits."""
        x = cp.Variable(name="x")
        problem = cp.Problem(cp.Minimize(1e20 * x), [x / 1e20 >= 0])
        with self.assertRaises(SolverError) as error:
            problem.solve()
        self.assertEqual((error.exception.stop.number, problem.status, problem.interval), (26, "solver_error", None))
        self.assertIsNone(x.value)
        self.assertIn("too wide for an answer: from -inf to 0", str(error.exception))
        for low, high, wanted in ((1, 1 + 1e-9, True), (1, 1.01, False), (-1e-13, 1e-13, True), (-1, None, False)):
            ends = (None if end is None else Fraction(end) for end in (low, high))
            self.assertEqual(Interval(*ends, None, None).is_narrow, wanted)

    def test_ends_that_are_changed(self):
        problem, _, _ = wide.fit(3, 9, 12, 6)
        problem.solve()
        end = problem.interval.point
        with self.assertRaises(CertificateError):
            end._replace(certificate=end.certificate.replace("value ", "value 1")).check()


class Texts(unittest.TestCase):
    def test_values_stand_where_variables_were(self):
        script = HEAD + FORMS["matrices"]
        problem = Accepted(script.encode()).problem
        numbers = [[Fraction(1, 3), 1, 1, 2], [3, 0, 0, 4], [-1, -1]]
        text = Text(script, problem).with_values(numbers)
        self.assertIn("X = cp.Constant(dcx_np.array([[1/3, 1], [1, 2]]))", text)
        self.assertIn("X == X.T, D == cp.diag(cp.diag(D)), n <= 0", text)
        changed = Accepted(text.encode()).problem
        self.assertEqual((changed.variables, len(changed.constraints)), ([], len(problem.constraints) + 3))


class Weights(unittest.TestCase):
    def test_fitted_weights_keep_every_condition(self):
        draw = random.Random(4)
        for _ in range(300):
            word = draw.choice("abs pos maximum minimum max min norm1 norm_inf sum_largest cummax".split())
            size = draw.randint(1, 5)
            args = [(size,)] * (draw.randint(1, 3) if word in ("maximum", "minimum") else 1)
            call = (word, draw.randint(1, size)) if word == "sum_largest" else (word, None)
            count = size if word in ("abs", "pos", "maximum", "minimum", "cummax") else 1
            coefficients = [Fraction(draw.randint(0, 9), draw.randint(1, 9)) for _ in range(count)]
            coefficients = [-c for c in coefficients] if word in ("min", "minimum") else coefficients
            wanted = [Fraction(draw.randint(-2, 9), 7) for _ in range(40)]
            weights = fitted(call, args, coefficients, wanted, count, 3)
            self.check(word, call, coefficients, weights, size, len(args))

    def check(self, word, call, coefficients, weights, size, args):
        """The conditions of docs/CERTIFICATES.md, by hand."""
        self.assertTrue(all(w >= 0 for w in weights), word)
        c = [abs(v) for v in coefficients]
        if word in ("abs", "norm1"):
            pairs = list(zip(weights[::2], weights[1::2]))
            ends = c if word == "abs" else c * size
            self.assertTrue(len(pairs) == size and all(a + b <= end for (a, b), end in zip(pairs, ends)), word)
        elif word == "pos":
            self.assertTrue(all(w <= end for w, end in zip(weights, c)), word)
        elif word == "norm_inf":
            self.assertLessEqual(sum(weights), c[0])
        elif word == "sum_largest":
            self.assertTrue(all(w <= c[0] for w in weights) and sum(weights) == call[1] * c[0], (word, weights, c))
        elif word in ("max", "min"):
            self.assertEqual((sum(weights), len(weights)), (c[0], size))
        elif word in ("maximum", "minimum"):
            self.assertEqual([sum(weights[i * args : (i + 1) * args]) for i in range(size)], c)
        else:
            first, rest = weights[0], list(zip(weights[1::2], weights[2::2]))
            carried = [v for _, v in rest] + [0]
            self.assertEqual(first, c[0] + carried[0])
            for i, (w, v) in enumerate(rest, 1):
                self.assertEqual(w + v, c[i] + carried[i])


if __name__ == "__main__":
    unittest.main()
