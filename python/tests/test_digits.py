"""Digits of floats: what `float_digits` and `python3 -m dcx run --digits N` make of errors in the last digits, and what
without them stays.
"""
from __future__ import annotations

import os
import subprocess
import sys
import tempfile
import unittest
from decimal import Decimal
from fractions import Fraction
from pathlib import Path

import numpy as np
import scipy.sparse as sp

import dcx
import dcx.cvxpy as cp

FOLDER = Path(__file__).resolve().parents[1]


class FloatDigits(unittest.TestCase):
    def setUp(self):
        self.addCleanup(dcx.float_digits, None)

    def test_read(self):
        noise = 1 - 0.9
        self.assertEqual(cp.Constant(noise).exact, Fraction(repr(noise)))
        dcx.float_digits(12)
        tenth = Fraction(1, 10)
        for value in (noise, np.float64(noise), np.array(noise), np.float32(0.1), np.longdouble(noise)):
            self.assertEqual(cp.Constant(value).exact, tenth, repr(value))
        self.assertEqual(list(cp.Constant([noise, 2 * noise]).exact), [tenth, 2 * tenth])
        sparse = cp.Constant(sp.csr_matrix(np.array([[noise, 0], [0, -noise]])))
        self.assertEqual(np.asarray(sparse.exact, dtype=object).tolist(), [[tenth, 0], [0, -tenth]])
        self.assertEqual(cp.Constant(123456789012345.0).exact, 123456789012000)
        self.assertEqual(cp.Parameter(value=noise).exact, tenth)

    def test_decimals(self):
        for value, decimals, wanted in [
            (0.1 + 0.2 - 0.3, 12, 0), (1 - 0.9, 12, Fraction(1, 10)), (1e-13, 12, 0),
            (123456.789, 1, Fraction(1234568, 10)),
            (2.5, 0, 2), (np.float64(1 - 0.9), 12, Fraction(1, 10)), (np.float32(0.1), 3, Fraction(1, 10)),
            (np.longdouble(0.7), 0, 1), (-1e-20, 30, Fraction(-1, 10**20)),
        ]:
            dcx.float_digits(decimals=decimals)
            self.assertEqual(cp.Constant(value).exact, wanted, (value, decimals))
        dcx.float_digits(3, decimals=2)
        self.assertEqual([cp.Constant(value).exact for value in (1234.5, 0.12345)], [1230, Fraction(12, 100)])

    def test_what_is_no_float_stays(self):
        dcx.float_digits(2)
        for value in (123456, Fraction(12345, 7), Decimal("0.12345"), np.int64(123456)):
            self.assertEqual(cp.Constant(value).exact, Fraction(value if not isinstance(value, np.int64) else 123456))

    def test_and_back(self):
        dcx.float_digits(3)
        self.assertEqual(cp.Constant(1 / 3).exact, Fraction(333, 1000))
        dcx.float_digits(None)
        self.assertEqual(cp.Constant(1 / 3).exact, Fraction(repr(1 / 3)))

    def test_refused(self):
        for count in (0, 18, -1, 1.5, "3", True):
            with self.assertRaises(ValueError):
                dcx.float_digits(count)
        for count in (-1, 31, 1.5, "3", False):
            with self.assertRaises(ValueError):
                dcx.float_digits(decimals=count)


class Run(unittest.TestCase):
    SCRIPT = ("import cvxpy as cp\nx = cp.Variable()\nprob = cp.Problem(cp.Minimize((1 - 0.9) * x), [x >= 3])\n"
              "prob.solve()\nprint(prob.exact)\n")

    def start(self, *words):
        with tempfile.TemporaryDirectory() as folder:
            Path(folder, "model.py").write_text(self.SCRIPT)
            environment = dict(os.environ, PYTHONPATH=str(FOLDER), PYTHONDONTWRITEBYTECODE="1")
            return subprocess.run([sys.executable, "-m", "dcx", "run", *words], cwd=folder, env=environment,
                                  stdin=subprocess.DEVNULL,
                                  stdout=subprocess.PIPE, stderr=subprocess.PIPE, text=True)

    def test_digits(self):
        self.assertEqual(self.start("--digits", "12", "model.py").stdout, "3/10\n")
        self.assertEqual(self.start("--digits=12", "model.py").stdout, "3/10\n")
        self.assertEqual(self.start("--decimals", "12", "model.py").stdout, "3/10\n")
        self.assertEqual(self.start("--decimals=0", "model.py").stdout, "0\n")
        self.assertEqual(Fraction(self.start("model.py").stdout), 3 * Fraction(repr(1 - 0.9)))
        # Behind the script the words are the script's own.
        self.assertEqual(Fraction(self.start("model.py", "--digits", "12").stdout), 3 * Fraction(repr(1 - 0.9)))

    def test_digits_in_processes_that_the_script_starts(self):
        self.SCRIPT = ("import multiprocessing\nimport cvxpy as cp\ndef read(number):\n    "
                       "return str(cp.Constant(number).exact)\n"
                       "if __name__ == '__main__':\n    with multiprocessing.get_context('spawn').Pool(1) as pool:\n"
                       "        print(pool.map(read, [1 - 0.9]))\n")
        for words in (["--digits", "12"], ["--decimals", "12"]):
            self.assertEqual(self.start(*words, "model.py").stdout, "['1/10']\n")
        self.assertEqual(self.start("model.py").stdout, f"['{Fraction(repr(1 - 0.9))}']\n")

    def test_refused(self):
        for digits in ("0", "18", "few", "-3"):
            done = self.start("--digits", digits, "model.py")
            self.assertEqual((done.returncode, done.stdout), (2, ""))


if __name__ == "__main__":
    unittest.main()
