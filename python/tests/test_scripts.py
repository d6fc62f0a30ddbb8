"""The script that is handed over: what stands in it, what it means, how large it is, and what its places stand for."""

from __future__ import annotations

import functools
import os
import random
import re
import subprocess
import sys
import unittest
from fractions import Fraction
from pathlib import Path

import numpy as np
import scipy.sparse as sparse

import dcx.cvxpy as cp
from dcx import program
from dcx.errors import LimitError, ParameterError
from dcx.scripts import written

HERE = Path(__file__)
LINES = HERE.read_text().splitlines()


def text(objective, *constraints):
    """The lines of a script, without comments and blank lines."""
    lines = written(objective, constraints).text.splitlines()
    return [line for line in (re.sub(r"  # \S+:\d+$", "", line) for line in lines) if line]


def body(expression):
    """What stands for an expression in a script, which is its objective, and the lines above that."""
    lines = text(cp.Minimize(expression))
    named = [line for line in lines if re.match(r"[ce]\d+ = ", line)]
    return [*named, re.fullmatch(r"prob = cp.Problem\(cp.Minimize\((.*)\)\)", lines[-1]).group(1)]


def line_of(mark):
    """The number of the line of this file that ends with a comment."""
    (number,) = [number for number, line in enumerate(LINES, 1) if line.endswith(f"# {mark}")]
    return number


class Names(unittest.TestCase):
    def test_those_that_are_given_and_free_ones(self):
        x, y, z, p = cp.Variable(name="total"), cp.Variable(), cp.Variable(name="x1"), cp.Parameter(name="prob")
        script = written(cp.Minimize(x + y + z + p), [])
        self.assertEqual(list(script.variables.items()), [("total", x), ("x2", y), ("x1", z)])
        self.assertEqual(list(script.parameters.items()), [("prob", p)])
        self.assertIn("\nprob1 = cp.Problem(cp.Minimize(total + x2 + x1 + prob))", script.text)

    def test_those_that_are_no_names(self):
        bad = ["cp", "np", "print", "range", "lambda", "None", "1st", "", "$", "[]"]
        leaves = [cp.Variable(name=name) for name in bad]
        script = written(cp.Minimize(sum(leaves)), [])
        self.assertEqual(list(script.variables), [f"x{number}" for number in range(1, len(bad) + 1)])
        self.assertEqual(program.run("check", script.text).status, 0)

    def test_those_that_are_nearly_names(self):
        names = ["two words", "flow[a,b]", "flow[a b]", "x-1", "x_1", " kg/m² ", "été (h)"]
        leaves = [cp.Variable(name=name) for name in names]
        script = written(cp.Minimize(sum(leaves)), [])
        self.assertEqual(list(script.variables), ["two_words", "flow_a_b", "x1", "x2", "x_1", "x3", "été_h"])
        self.assertEqual(program.run("check", script.text).status, 0)

    def test_a_name_that_is_given_twice(self):
        x, y = cp.Variable(name="flow"), cp.Variable(name="flow")
        self.assertEqual(list(written(cp.Minimize(x + y), []).variables), ["flow", "x1"])

    def test_letters_of_other_scripts(self):
        names = ["été", "ω", "価格", "سعر", "_", "a_1"]
        leaves = [cp.Variable(name=name) for name in names]
        script = written(cp.Minimize(sum(leaves)), [leaf >= 1 for leaf in leaves])
        self.assertEqual(list(script.variables), names)
        self.assertIn(b"value 6\n", program.run("solve", script.text).report)

    def test_the_order_is_that_of_making(self):
        x, y, z = cp.Variable(name="a"), cp.Variable(name="b"), cp.Variable(name="c")
        self.assertEqual(list(written(cp.Minimize(z + x), [y >= 1, z >= 0]).variables), ["a", "b", "c"])

    def test_names_of_arrays_and_parts_are_free(self):
        x, y, z = cp.Variable(2, name="c1"), cp.Variable(name="e1"), cp.Variable(2, name="prob")
        lines = text(cp.Minimize(cp.sum(cp.abs(x)) + y + cp.max(cp.abs(x))), np.array([1, 2]) @ z >= 1)
        self.assertIn("c2 = np.array([1, 2])", lines)
        self.assertIn("e2 = cp.abs(c1)", lines)
        self.assertIn("prob1 = cp.Problem(cp.Minimize(cp.sum(e2) + e1 + cp.max(e2)), [", lines)


class Text(unittest.TestCase):
    def test_brackets_stand_only_where_they_are_wanted(self):
        x, y = cp.Variable(name="x"), cp.Variable(name="y")
        v = cp.Variable(2, name="v")
        for expression, wanted in (
            (x + y - 1, "x + y - 1"),
            (x - (y - 1), "x - (y - 1)"),
            (x + (y - 1), "x + y - 1"),
            (2 * x + 3 * y, "2*x + 3*y"),
            (2 * (x + y), "2*(x + y)"),
            ((x + y) / 3, "(x + y)/3"),
            (-(x + y), "-(x + y)"),
            (-x + y, "-x + y"),
            (x - -y, "x - -y"),
            (Fraction(1, 3) * x, "1/3*x"),
            (x * Fraction(1, 3), "x*(1/3)"),
            (x * Fraction(-1, 3), "x*(-1/3)"),
            (x - Fraction(1, 3), "x - 1/3"),
            (-2 * x, "-2*x"),
            (x * -2, "x*-2"),
            (cp.sum(v + 1), "cp.sum(v + 1)"),
            ((v + 1)[0], "(v + 1)[0]"),
            (-v[1], "-v[1]"),
            ((-v)[1], "(-v)[1]"),
            (cp.abs(v)[0] + cp.maximum(x, y, 0), "cp.abs(v)[0] + cp.maximum(x, y, 0)"),
            (1e-9 * x + 0.1, "0.000000001*x + 0.1"),
        ):
            self.assertEqual(body(expression), [wanted])

    def test_calls_and_indices(self):
        v, m = cp.Variable(5, name="v"), cp.Variable((2, 3), name="m")
        for expression, wanted in (
            (cp.sum(v[1:]), "cp.sum(v[1:])"),
            (cp.sum(v[:3]), "cp.sum(v[:3])"),
            (cp.sum(v[::2]), "cp.sum(v[::2])"),
            (cp.sum(v[::-1]), "cp.sum(v[::-1])"),
            (cp.sum(v[3:0:-1]), "cp.sum(v[3:0:-1])"),
            (v[-1], "v[4]"),
            (m[1, 2], "m[1, 2]"),
            (cp.sum(m[:, 0]), "cp.sum(m[:, 0])"),
            (cp.max(cp.sum(m, axis=0)), "cp.max(cp.sum(m, axis=0))"),
            (cp.max(cp.sum(m, axis=-1)), "cp.max(cp.sum(m, axis=1))"),
            (cp.max(m.T[0]), "cp.max(m.T[0, :])"),
            (cp.sum_largest(v, 2), "cp.sum_largest(v, 2)"),
            (cp.max(cp.diff(v, 2)), "cp.max(cp.diff(v, 2))"),
            (cp.max(cp.reshape(m, (3, 2), order="C")), 'cp.max(cp.reshape(m, (3, 2), order="C"))'),
            (cp.max(cp.hstack([v, v[0], 1])), "cp.max(cp.hstack([v, v[0], 1]))"),
        ):
            self.assertEqual(body(expression), [wanted])

    def test_what_stands_twice_is_named_once(self):
        x = cp.Variable(3, name="x")
        twice = cp.abs(x - 1)
        wanted = ["e1 = cp.abs(x - 1)", "cp.sum(e1) + cp.max(e1)"]
        self.assertEqual(body(cp.sum(twice) + cp.max(twice)), wanted)
        # equal parts are one, also where the user wrote them twice
        self.assertEqual(body(cp.sum(cp.abs(x - 1)) + cp.max(cp.abs(x - 1))), wanted)
        # what is no longer than a name stands as it is
        self.assertEqual(body(x[0] + 2 * x[1] + cp.abs(2 * x[1]) - x[0]), ["x[0] + 2*x[1] + cp.abs(2*x[1]) - x[0]"])

    def test_arrays_have_names_and_equal_ones_are_one(self):
        x, y = cp.Variable(2, name="x"), cp.Variable((2, 2), name="y")
        lines = text(
            cp.Minimize(np.array([1.5, -2]) @ x),
            [[1, 2], [3, 4]] @ x <= [1.5, -2],
            y == np.eye(2),
            cp.maximum(y, np.zeros((2, 2))) <= np.ones((2, 2)),
            np.array([Fraction(1, 3), 7]) @ x <= 1,
        )
        self.assertEqual(
            lines[2:7],
            [
                "c1 = np.array([1.5, -2])",
                "c2 = np.array([[1, 3], [2, 4]])",
                "c3 = np.eye(2)",
                "c4 = np.zeros((2, 2))",
                "c5 = np.ones((2, 2))",
            ],
        )
        self.assertEqual(lines[7], "c6 = np.array([1/3, 7])")
        wanted = ["    c2 @ x <= c1,", "    y == c3,", "    cp.maximum(y, c4) <= c5,", "    c6 @ x <= 1,"]
        self.assertEqual(lines[-5:-1], wanted)

    def test_long_arrays_go_over_lines(self):
        x = cp.Variable(60)
        script = written(cp.Minimize(np.arange(60) / 7.5 @ x), [np.arange(120).reshape(2, 60) @ x <= 1]).text
        self.assertLessEqual(max(map(len, script.splitlines())), 130)
        self.assertEqual(program.run("check", script).status, 0)

    def test_each_constraint_has_a_line_with_its_origin(self):
        x = cp.Variable(3, name="x", bounds=[-1, 5])  # the bounds
        rules = [x[0] + x[1] >= 1]  # the first
        for i in range(2):
            rules.append(x[i] <= x[i + 1])  # the loop
        lines = written(cp.Minimize(cp.sum(x)), rules).text.splitlines()
        start = [place for place, line in enumerate(lines) if line.startswith("prob = ")][0]
        found = [re.fullmatch(r"    (.*),  # (.*):(\d+)", line).groups() for line in lines[start + 1 : -1]]
        wanted = ["x[0] + x[1] >= 1", "x[0] <= x[1]", "x[1] <= x[2]", "x >= -1", "x <= 5"]
        self.assertEqual([line for line, _, _ in found], wanted)
        self.assertEqual({file for _, file, _ in found}, {HERE.name})
        at = [line_of(mark) for mark in ("the first", "the loop", "the loop", "the bounds", "the bounds")]
        self.assertEqual([int(number) for _, _, number in found], at)

    def test_declarations(self):
        attributes = ["nonneg", "nonpos", "symmetric", "diag", "boolean", "integer"]
        leaves = [cp.Variable((2, 2), name=word, **{word: True}) for word in attributes]
        leaves += [cp.Variable(2, name="both", integer=True, nonneg=True), cp.Variable(name="pos_", pos=True)]
        lines = text(cp.Minimize(sum(cp.sum(leaf) for leaf in leaves)))
        for word in attributes:
            self.assertIn(f"{word} = cp.Variable((2, 2), {word}=True)", lines)
        self.assertIn("pos_ = cp.Variable(nonneg=True)", lines)
        both = r"both = cp\.Variable\(2, (integer=True, nonneg=True|nonneg=True, integer=True)\)"
        self.assertRegex("\n".join(lines), both)

    def test_constraints_of_numbers_alone_and_such_that_stand_twice(self):
        x = cp.Variable(name="x")
        rule = x >= 1
        numbers = [cp.Constant(1) <= 2, rule, 3 >= cp.Constant([1, 2]), cp.Constant(2) == cp.Parameter(name="p")]
        lines = text(cp.Minimize(x), rule, *numbers)
        start = lines.index("prob = cp.Problem(cp.Minimize(x), [")
        wanted = ["    x >= 1,", "    cp.Constant(1) <= 2,", "    cp.Constant(c1) <= 3,", "    2 == p,"]
        self.assertEqual(lines[start + 1 : -1], wanted)
        self.assertEqual(program.run("check", "\n".join(lines)).status, 0)

    def test_the_same_model_gives_the_same_script(self):
        code = (
            "import sys; sys.path.insert(0, sys.argv[1]); import numpy as np; import dcx.cvxpy as cp\n"
            "x = cp.Variable(6, name='x'); y = [cp.Variable(name=c) for c in 'hgfedcba']; p = cp.Parameter(6)\n"
            "rules = [x >= p, cp.norm1(x) <= 9] + [cp.abs(a) <= x[i % 6] for i, a in enumerate(y)]\n"
            "sys.stdout.write(cp.Problem(cp.Minimize(cp.sum(x) + sum(y) + np.arange(6) @ cp.abs(x)), rules).script())"
        )
        found = set()
        for seed in ("1", "2", "3"):
            words = [sys.executable, "-c", code, str(HERE.parents[1])]
            done = subprocess.run(words, capture_output=True, text=True, env={**os.environ, "PYTHONHASHSEED": seed})
            self.assertEqual(done.stderr, "")
            found.add(done.stdout)
        self.assertEqual(len(found), 1)
        self.assertGreater(found.pop().count("\n"), 15)


class Meaning(unittest.TestCase):
    """A script is Python as well: it is carried out again, and has the values that the model has."""

    def evaluated(self, script, values):
        """The value of the objective and of both sides of each constraint, as a script says them, by NumPy alone."""
        names = {"__builtins__": {}, "cp": Numbers, "np": np, "values": values}
        source = re.sub(r"(\w+) = cp\.(Variable|Parameter)\(.*\)", r"\1 = values['\1']", script.text)
        source = re.sub(r"^import .*$", "", source, flags=re.MULTILINE)
        source = re.sub(r"^    (.*) (<=|>=|==) (.*),  # .*$", r"    [(\1), (\3)],", source, flags=re.MULTILINE)
        exec(source, names)
        return names["prob"]

    def test_random_expressions(self):
        draw = random.Random(20)
        for _ in range(60):
            self.try_one(Model(draw))

    def try_one(self, model):
        rules = [model.expression(8) <= model.expression(2) for _ in range(3)]
        least = cp.Minimize(cp.sum(model.expression(12)))
        script = written(least, rules)
        values = {}
        for name, leaf in [*script.variables.items(), *script.parameters.items()]:
            number = np.round(model.draw.uniform(-3, 3), 1)
            values[name] = number * np.ones(leaf.shape) + np.arange(leaf.size).reshape(leaf.shape)
            leaf.value = values[name] if leaf.shape else float(values[name])
        for leaf in script.idle:
            leaf.value = model.draw.random() * np.ones(leaf.shape)
        objective, *sides = self.evaluated(script, values)
        np.testing.assert_allclose(objective, least.value, rtol=1e-9, atol=1e-9)
        for rule, pair in zip(rules, sides):
            pair = pair[::-1] if rule.is_turned else pair
            for side, found in zip(rule.args, pair):
                np.testing.assert_allclose(found, np.asarray(side.value, dtype=float), rtol=1e-9, atol=1e-9)


class Numbers:
    """The calls that the random expressions have, by NumPy."""

    abs = np.abs
    maximum = staticmethod(lambda *items: functools.reduce(np.maximum, items))
    Constant = staticmethod(lambda value: value)
    sum = staticmethod(lambda value, axis=None: np.sum(value, axis=axis))
    max = staticmethod(lambda value, axis=None: np.max(value, axis=axis))
    hstack = staticmethod(lambda items: np.hstack(items))
    Minimize = staticmethod(lambda value: value)
    Problem = staticmethod(lambda objective, rules=(): [objective, *rules])


class Model:
    """Draws expressions of vectors of three and of numbers, in which parts stand again."""

    def __init__(self, draw):
        self.draw = draw
        self.made = [cp.Variable(3, name="v"), cp.Variable(3), cp.Parameter(3, name="p")]
        self.single = [cp.Variable(name="s"), cp.Parameter(), self.made[0][1], self.made[2][0]]

    def expression(self, steps):
        for _ in range(steps):
            self.made.append(self.step())
            if self.draw.random() < 0.4:
                self.single.append(self.number())
        return self.made[-1]

    def any(self):
        return self.draw.choice(self.made[-6:] + self.made[:3])

    def one(self):
        return self.draw.choice([*self.single, self.draw.randint(-3, 3), Fraction(self.draw.randint(-5, 5), 3), 0.25])

    def number(self):
        place = self.draw.randint(0, 2)
        return self.draw.choice([lambda: cp.sum(self.any()), lambda: cp.max(self.any()), lambda: self.any()[place]])()

    def step(self):
        array = np.array([self.draw.randint(-3, 3) for _ in range(9)])
        return self.draw.choice(
            [
                lambda: self.any() + self.any(),
                lambda: self.any() - self.any(),
                lambda: self.any() + (self.any() + self.any()),
                lambda: self.any() - (self.any() - self.one()),
                lambda: -self.any(),
                lambda: self.one() * self.any(),
                lambda: self.any() * self.one(),
                lambda: self.any() / self.draw.choice([2, -3, Fraction(1, 7)]),
                lambda: cp.abs(self.any()),
                lambda: cp.maximum(self.any(), self.one(), self.any()),
                lambda: cp.hstack([self.any()[1:], self.one() + self.any()[0]]),
                lambda: self.any()[::-1],
                lambda: array.reshape(3, 3) @ self.any(),
                lambda: sparse.csr_matrix(array.reshape(3, 3) * (array.reshape(3, 3) > 1)) @ self.any(),
                lambda: self.any() @ sparse.csr_matrix(array.reshape(3, 3) * (array.reshape(3, 3) > 1)),
            ]
        )()


class Settings(unittest.TestCase):
    def test_a_line(self):
        a, b = cp.Parameter(name="a", value=-0.5), cp.Parameter(2, value=[1, Fraction(2, 3)])
        c = cp.Parameter((2, 2), name="c", value=np.eye(2))
        script = written(cp.Minimize(a + cp.sum(b) + cp.sum(c)), [])
        self.assertEqual(script.settings_line(), "a = -0.5; p1 = [1, 2/3]; c = [[1, 0], [0, 1]]\n")
        c.value = sparse.csr_matrix(np.diag([0, 3.0]))
        self.assertEqual(script.settings_line(), "a = -0.5; p1 = [1, 2/3]; c = [[0, 0], [0, 3]]\n")

    def test_none(self):
        self.assertEqual(written(cp.Minimize(cp.Variable()), []).settings_line(), "{}\n")

    def test_a_parameter_without_a_value(self):
        price = cp.Parameter(name="price")  # the price
        with self.assertRaisesRegex(ParameterError, "A Parameter .* 'price'.* does not have a value") as caught:
            written(cp.Minimize(price), []).settings_line()
        self.assertEqual(caught.exception.site.line, line_of("the price"))

    def test_a_value_beyond_what_a_number_may_be(self):
        p = cp.Parameter(value=Fraction(1, 2**130))  # the small one
        with self.assertRaisesRegex(LimitError, "passes 128 bits") as caught:
            written(cp.Minimize(p), []).settings_line()
        self.assertEqual(caught.exception.site.line, line_of("the small one"))


class ByHand(unittest.TestCase):
    """What is recorded has the report of a script that was written by hand."""

    def test_a_plan(self):
        demand = [3, 5, 2.5, 4]
        cost = cp.Parameter(nonneg=True, name="cost", value=0.25)
        made, stock = cp.Variable(4, name="made", nonneg=True), cp.Variable(5, name="stock")
        rules = [stock[0] == 1, stock >= 0, made <= 4]
        for day, wanted in enumerate(demand):
            rules.append(stock[day + 1] == stock[day] + made[day] - wanted)
        waste = cp.sum(cp.pos(stock[1:] - 2)) + cp.norm(cp.diff(made), "inf")
        problem = cp.Problem(cp.Minimize(cp.sum(stock) / 4 + cost * waste), rules)
        by_hand = """
import cvxpy as cp
import numpy as np
demand = np.array([3, 5, 2.5, 4])
cost = cp.Parameter(nonneg=True)
made = cp.Variable(4, nonneg=True)
stock = cp.Variable(5)
rules = [stock[0] == 1, stock >= 0, made <= 4]
for day in range(4):
    rules += [stock[day + 1] == stock[day] + made[day] - demand[day]]
waste = cp.sum(cp.pos(stock[1:] - 2)) + cp.norm_inf(cp.diff(made))
prob = cp.Problem(cp.Minimize(cp.sum(stock)/4 + cost*waste), rules)
"""
        for value in (0.25, 0, 3):
            cost.value = value
            problem.solve()
            self.assertEqual(problem.report, program.run("resolve", by_hand, f"cost = {value}\n").report)
        recorded = program.run("certificate", problem.script(), problem.settings())
        self.assertEqual(recorded, program.run("certificate", by_hand, "cost = 3\n"))

    def test_numbers_beyond_the_language(self):
        x = cp.Variable()
        with self.assertRaisesRegex(LimitError, "passes 128 bits") as caught:
            written(cp.Minimize(x), [x >= Fraction(1, 3**90)])  # too fine
        self.assertEqual(caught.exception.site.line, line_of("too fine"))
        with self.assertRaises(LimitError) as caught:
            written(cp.Minimize(x), [np.array([1, 3**90]) * x >= 1])  # too great
        self.assertEqual(caught.exception.site.line, line_of("too great"))


if __name__ == "__main__":
    unittest.main()
