"""Exact numbers, their text, and rounding."""
from __future__ import annotations

import random
import unittest
from decimal import Decimal
from fractions import Fraction

import numpy as np
from scipy import sparse

import dcx.cvxpy as cp
from dcx import program
from dcx.errors import LimitError
from dcx.numbers import GREATEST, exact, rounded, text


class Exact(unittest.TestCase):
    """What a number means."""

    def test_kinds(self):
        for value, wanted in [
            (3, 3), (True, 1), (Fraction(2, 6), Fraction(1, 3)), (Decimal("0.10"), Fraction(1, 10)),
            (0.1, Fraction(1, 10)), (1e-30, Fraction(1, 10**30)),
            (2.5e22, 25 * 10**21), (-0.0, 0), (1 / 3, Fraction("0.3333333333333333")),
            (np.float64(0.1), Fraction(1, 10)), (np.float32(0.1), Fraction(1, 10)),
            (np.float16(0.1), Fraction(1, 10)), (np.int8(-3), -3), (np.uint64(2**63), 2**63), (np.bool_(True), 1),
            (np.array(0.7), Fraction(7, 10)),
            (np.array(Fraction(1, 3), dtype=object), Fraction(1, 3)), (np.float32(1e10), 10**10),
            (np.longdouble("0.1"), Fraction(1, 10)),
        ]:
            found = exact(value)
            self.assertEqual(found, wanted, repr(value))
            self.assertIs(type(found), Fraction, repr(value))
            self.assertIs(type(found.numerator), int, repr(value))

    def test_a_float_is_what_python_prints(self):
        rng = random.Random(1)
        for _ in range(300):
            value = rng.choice([rng.random(), rng.gauss(0, 1) * 10.0**rng.randint(-20, 20),
                                float(rng.randint(-10**9, 10**9))])
            self.assertEqual(exact(value), Fraction(repr(value)))
            self.assertEqual(float(exact(value)), value)
            narrow = np.float32(value)
            self.assertEqual(exact(narrow), Fraction(str(narrow)))
            self.assertEqual(np.float32(float(exact(narrow))), narrow)

    def test_no_numbers(self):
        for value, name in [(float("nan"), "NaN"), (float("inf"), "infinity"), (-float("inf"), "-infinity"),
                            (np.float32("nan"), "NaN"), (Decimal("NaN"), "NaN"),
                            (Decimal("-Infinity"), "-infinity"), (np.array(np.inf), "infinity")]:
            with self.assertRaisesRegex(ValueError, f"^{name} "):
                exact(value)
        for value in [1j, np.complex128(1), "1", None, [1], np.ones(2), object()]:
            self.assertRaises(TypeError, exact, value)


class Text(unittest.TestCase):
    """How a number is written, as the program reads it."""

    NUMBERS = [Fraction(0), Fraction(1), Fraction(-3), Fraction(1, 3), Fraction(-22, 7), Fraction(1, 10),
               Fraction(1, 8), Fraction(12345678901234567, 10**17),
               Fraction(10**30 - 1), Fraction(10**38), Fraction(123456 * 10**32), Fraction(1, 10**30),
               Fraction(7, 10**35), Fraction(1, 10**38),
               Fraction(12345678901234567, 10**38), Fraction(1, 3**60), Fraction(1, 2**80), Fraction(5, 2**99),
               Fraction(10**29 + 1, 10**29)]

    def test_the_program_reads_the_same_number(self):
        rng = random.Random(2)
        numbers = self.NUMBERS + [-number for number in self.NUMBERS]
        numbers += [exact(rng.random() * 10.0**rng.randint(-18, 18)) for _ in range(60)]
        numbers += [Fraction(rng.randint(-10**12, 10**12), rng.randint(1, 10**12)) for _ in range(60)]
        script = ("import cvxpy as cp\nx = cp.Variable()\np = cp.Parameter()\n"
                  "prob = cp.Problem(cp.Minimize(x), [x == p])\n")
        settings = "".join(f"p = {text(number)}\n" for number in numbers)
        report = program.run("resolve", script, settings).report.decode()
        found = [Fraction(line.split()[1]) for line in report.split("\n") if line.startswith("value ")]
        self.assertEqual(found, numbers)
        for number in numbers:
            self.assertEqual(Fraction(text(number)), number)

    def test_readable(self):
        for value, wanted in [(0.1, "0.1"), (Fraction(1, 3), "1/3"), (-2, "-2"), (2.50, "2.5"), (1e-7, "0.0000001"),
                              (Fraction(-1, 8), "-0.125"), (100000, "100000"),
                              (1e-25, "1e-25"), (Fraction(7, 6), "7/6")]:
            self.assertEqual(text(exact(value)), wanted)

    def test_limits(self):
        self.assertEqual(Fraction(text(Fraction(1, GREATEST // 2**100))), Fraction(1, GREATEST // 2**100))
        for number in [Fraction(2**127), Fraction(-(2**127)), Fraction(1, 2**127), exact(1e39), exact(1e-39),
                       exact(1e300)]:
            with self.assertRaisesRegex(LimitError, "128 bits"):
                text(number)
        for number in [Fraction(GREATEST), Fraction(1, GREATEST), Fraction(10**37 + 1)]:
            with self.assertRaisesRegex(LimitError, "30 digits"):
                text(number)

    def test_what_is_too_long_is_told_at_the_model(self):
        x = cp.Variable()
        problem = cp.Problem(cp.Minimize(x), [x >= 1e-50])
        self.assertRaises(LimitError, problem.solve)


class Rounded(unittest.TestCase):
    """Rounding."""

    def test_digits(self):
        self.assertEqual(rounded(0.12345, 3), Fraction(123, 1000))
        self.assertEqual(rounded(0.5, 0), 0)
        self.assertEqual(rounded(1.5, 0), 2)
        self.assertEqual(rounded(1250, -2), 1200)
        self.assertEqual(rounded(Fraction(2, 3), 4), Fraction(6667, 10000))
        self.assertEqual(rounded([1 / 3, [2 / 3, (7,)]], 2), [Fraction(33, 100), [Fraction(67, 100), (Fraction(7),)]])

    def test_significant(self):
        for value, count, wanted in [(123.456, 2, 120), (0.00123456, 3, Fraction(123, 100000)), (-9.96, 2, -10),
                                     (0, 3, 0), (1000, 1, 1000), (0.1, 1, Fraction(1, 10)),
                                     (99.5, 2, 100), (1e-20, 2, Fraction(1, 10**20)),
                                     (Fraction(1, 3), 3, Fraction(333, 1000)), (12.5, 2, 12)]:
            self.assertEqual(rounded(value, significant=count), wanted, value)

    def test_random_numbers_as_python_rounds_decimals(self):
        rng = random.Random(3)
        for _ in range(200):
            value, digits = rng.gauss(0, 100), rng.randint(0, 8)
            self.assertEqual(rounded(value, digits), Fraction(round(Decimal(repr(value)), digits)))
            count = rng.randint(1, 9)
            self.assertEqual(rounded(value, significant=count), Fraction(f"{Decimal(repr(value)):.{count - 1}e}"))

    def test_arrays(self):
        data = np.array([[1 / 3, 2 / 3], [1e-9, 5.25]])
        found = rounded(data, 1)
        self.assertEqual(found.tolist(), [[Fraction(3, 10), Fraction(7, 10)], [0, Fraction(52, 10)]])
        self.assertEqual(cp.Constant(found).exact.tolist(), found.tolist())
        self.assertEqual(data[0, 0], 1 / 3)
        self.assertEqual(rounded(np.array([1.26], dtype=np.float32), 1).tolist(), [Fraction(13, 10)])
        matrix = sparse.csr_matrix(data)
        self.assertEqual(cp.Constant(rounded(matrix, 2)).exact.tolist(), rounded(data, 2).tolist())
        self.assertEqual(matrix.data[0], 1 / 3)

    def test_refused(self):
        for ask in [lambda: rounded(1.5), lambda: rounded(1.5, 2, significant=3), lambda: rounded("1.5", 1)]:
            self.assertRaises(TypeError, ask)
        for ask in [lambda: rounded(float("nan"), 2), lambda: rounded(1, significant=0)]:
            self.assertRaises(ValueError, ask)


if __name__ == "__main__":
    unittest.main()
