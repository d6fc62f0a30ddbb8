"""Random programs have the answers of scripts that are written by hand in the program's language."""
from __future__ import annotations

import unittest
from fractions import Fraction

import numpy as np

import dcx.cvxpy as cp
from dcx import program, read_report

HEAD = "import cvxpy as cp\nimport numpy as np\n"


def words(value):
    """An array as the language writes it."""
    array = np.asarray(value)
    if array.ndim == 0:
        return str(array)
    return "[" + ", ".join(words(part) for part in array) + "]"


def array(value):
    return f"np.array({words(value)})"


def fractions(value):
    """The entries of an exact answer in row-major order."""
    return [Fraction(entry) for entry in np.asarray(value, dtype=object).ravel()]


class Programs(unittest.TestCase):
    """Each problem is recorded, and written by hand: value, points and multipliers are the same fractions."""

    def compare(self, problem, variables, script, seed):
        problem.solve()
        run = program.run("solve", HEAD + script + "prob.solve()\n")
        (answer,) = read_report(run.report).answers
        self.assertEqual(problem.status, answer.status, seed)
        if answer.status != "optimal":
            return answer.status
        self.assertEqual(problem.exact, answer.value)
        for name, x in variables.items():
            self.assertEqual(fractions(x.exact), list(answer.variables[name].entries), name)
        self.assertEqual(len(answer.duals), len(problem.constraints))
        for number, constraint in enumerate(problem.constraints, start=1):
            self.assertEqual(fractions(constraint.exact_dual), list(answer.duals[number].entries), (seed, number))
        return answer.status

    def test_bounded_below(self):
        """min c x where A x <= b and x is at least 0: answers of each kind."""
        kinds = set()
        for seed in range(25):
            draw = np.random.default_rng(seed)
            A, b, c = draw.integers(-9, 10, (4, 5)), draw.integers(-40, 99, 4), draw.integers(-9, 40, 5)
            x = cp.Variable(5, nonneg=True)
            problem = cp.Problem(cp.Minimize(c @ x), [A @ x <= b])
            script = ("x = cp.Variable(5, nonneg=True)\n"
                      f"prob = cp.Problem(cp.Minimize({array(c)} @ x), [{array(A)} @ x <= {array(b)}])\n")
            kinds.add(self.compare(problem, {"x": x}, script, seed))
        self.assertEqual(kinds, {"optimal", "infeasible", "unbounded"})

    def test_equalities_and_greatest(self):
        for seed in range(15):
            draw = np.random.default_rng(100 + seed)
            A, c = draw.integers(0, 10, (3, 6)), draw.integers(1, 40, 6)
            b = A @ draw.integers(0, 9, 6)
            x = cp.Variable(6)
            problem = cp.Problem(cp.Maximize(c @ x), [A @ x == b, 0 <= x, 12.5 >= x])
            script = ("x = cp.Variable(6)\n"
                      f"rules = [{array(A)} @ x == {array(b)}, 0 <= x, 12.5 >= x]\n"
                      f"prob = cp.Problem(cp.Maximize({array(c)} @ x), rules)\n")
            self.compare(problem, {"x": x}, script, seed)

    def test_matrices(self):
        """Transport problems in a matrix, with rows and columns."""
        for seed in range(10):
            draw = np.random.default_rng(200 + seed)
            cost, have = draw.integers(1, 99, (3, 4)), draw.integers(30, 60, 3)
            need = draw.integers(5, 22, 4)
            X = cp.Variable((3, 4), nonneg=True)
            problem = cp.Problem(cp.Minimize(cp.sum(cp.multiply(cost, X))),
                                 [cp.sum(X, axis=1) <= have, cp.sum(X, axis=0) >= need])
            script = ("X = cp.Variable((3, 4), nonneg=True)\n"
                      f"rules = [cp.sum(X, axis=1) <= {array(have)}, cp.sum(X, axis=0) >= {array(need)}]\n"
                      f"prob = cp.Problem(cp.Minimize(cp.sum(cp.multiply({array(cost)}, X))), rules)\n")
            self.compare(problem, {"X": X}, script, seed)

    def test_pieces(self):
        """A fit by weighted distances, pieces and the greatest coefficient."""
        for seed in range(10):
            draw = np.random.default_rng(300 + seed)
            A, b, w = draw.integers(-9, 10, (6, 3)), draw.integers(-50, 51, 6), draw.integers(1, 9, 6)
            x = cp.Variable(3)
            y = A @ x - b
            problem = cp.Problem(cp.Minimize(w @ cp.abs(y) + 7 * cp.max(y) + cp.norm(x, "inf")),
                                 [cp.sum(x) >= 1, cp.norm1(x) <= 20])
            script = (f"x = cp.Variable(3)\ny = {array(A)} @ x - {array(b)}\n"
                      f"cost = {array(w)} @ cp.abs(y) + 7*cp.max(y) + cp.norm_inf(x)\n"
                      "prob = cp.Problem(cp.Minimize(cost), [cp.sum(x) >= 1, cp.norm1(x) <= 20])\n")
            self.compare(problem, {"x": x}, script, seed)

    def test_whole_numbers(self):
        for seed in range(10):
            draw = np.random.default_rng(400 + seed)
            gain, size = draw.integers(5, 60, 6), draw.integers(4, 30, (2, 6))
            take, many = cp.Variable(3, boolean=True), cp.Variable(3, integer=True)
            both = cp.hstack([take, many])
            problem = cp.Problem(cp.Maximize(gain @ both), [size @ both <= 60, many >= 0, many <= 3])
            script = (HEAD + "take = cp.Variable(3, boolean=True)\nmany = cp.Variable(3, integer=True)\n"
                      "both = cp.hstack([take, many])\n"
                      f"rules = [{array(size)} @ both <= 60, many >= 0, many <= 3]\n"
                      f"prob = cp.Problem(cp.Maximize({array(gain)} @ both), rules)\n")
            problem.solve()
            (answer,) = read_report(program.run("solve", script).report).answers
            self.assertEqual((problem.status, problem.exact), ("optimal", answer.value))
            self.assertEqual(fractions(take.exact) + fractions(many.exact),
                             list(answer.variables["take"].entries + answer.variables["many"].entries))

    def test_parameters(self):
        """Settings in one run, beside a script and a settings file by hand."""
        for seed in range(5):
            draw = np.random.default_rng(500 + seed)
            A = draw.integers(1, 10, (3, 4))
            x, c, b = cp.Variable(4, nonneg=True), cp.Parameter(4), cp.Parameter(3, nonneg=True)
            problem = cp.Problem(cp.Maximize(c @ x), [A @ x <= b])
            settings = [{c: draw.integers(-5, 20, 4), b: draw.integers(0, 90, 3) / 2} for _ in range(6)]
            script = (HEAD + "x = cp.Variable(4, nonneg=True)\nc = cp.Parameter(4)\nb = cp.Parameter(3, nonneg=True)\n"
                      f"prob = cp.Problem(cp.Maximize(c @ x), [{array(A)} @ x <= b])\n")
            lines = "".join(f"c = {words(s[c])}; b = {words(s[b])}\n" for s in settings)
            wanted = read_report(program.run("resolve", script, lines).report).answers
            for setting, answer in zip(settings, wanted):
                c.value, b.value = setting[c], setting[b]
                problem.solve()
                self.assertEqual((problem.status, problem.exact), (answer.status, answer.value))
                self.assertEqual(fractions(x.exact), list(answer.variables["x"].entries))
                self.assertEqual(fractions(problem.constraints[0].exact_dual), list(answer.duals[1].entries))


if __name__ == "__main__":
    unittest.main()
