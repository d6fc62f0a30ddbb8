"""Forty scripts as users of CVXPY write them (users/) run without a change, and have the answers that another solver
has (checks/).

The scripts were written before the package was; those of SECOND were looked at last.
"""
from __future__ import annotations

import json
import os
import subprocess
import sys
import unittest
from concurrent.futures import ThreadPoolExecutor
from pathlib import Path

from .checks import fitting, networks, planning, whole

HERE = Path(__file__).resolve().parent

FIRST = [
    planning.diet_dict, planning.transport_matrix, planning.production_classes, networks.portfolio_cvar,
    networks.mpc_cart, fitting.lad_regression, fitting.quantile_regression, whole.facility_location, whole.knapsack_csv,
    fitting.cutting_planes, networks.max_flow_sparse, fitting.tv_denoise, networks.masked_assignment,
    whole.infeasible_shifts, planning.inventory_table, networks.game_value, networks.rolling_horizon,
    fitting.chebyshev_center, whole.sudoku_small, planning.blend_arguments,
]
SECOND = [
    networks.two_files, whole.cutting_stock, whole.unit_commitment, planning.project_json, fitting.obstacle_sparse,
    fitting.bmat_design, fitting.keepdims_fair, planning.goals_groupby, whole.lots_classes, fitting.svm_l1,
    fitting.isotonic_convex, networks.multicommodity, networks.robust_plan, networks.bisection_ratio,
    fitting.minimax_polynomial, networks.try_except, whole.tsp_subtours, planning.newsvendor_scenarios, whole.benders,
    fitting.ranking_pairs,
]


# Floats with errors in the last digits: they stop at 128 bits as they stand, but not with twelve decimals.
NOISE = {"quantile_regression", "minimax_polynomial", "cutting_planes"}


def path_of(name):
    return HERE / "users" / name / "main.py" if name == "two_files" else HERE / "users" / f"{name}.py"


def start(*words, decimals=0):
    """`python3 -m dcx run WORDS..`, in a folder that is not the script's."""
    environment = dict(os.environ, PYTHONPATH=str(HERE.parent), PYTHONDONTWRITEBYTECODE="1")
    command = [sys.executable, "-m", "dcx", "run", *[f"--decimals={decimals}"] * (decimals > 0), *map(str, words)]
    return subprocess.run(command, cwd="/", env=environment, stdin=subprocess.DEVNULL, stdout=subprocess.PIPE,
                          stderr=subprocess.PIPE, text=True)


def start_answers(name):
    return start(HERE / "answers.py", path_of(name), decimals=12 * (name in NOISE))


class Users(unittest.TestCase):
    maxDiff = None

    @classmethod
    def setUpClass(cls):
        names = [check.__name__ for check in FIRST + SECOND]
        with ThreadPoolExecutor(4) as pool:
            cls.ran = dict(zip(names, pool.map(start_answers, names)))

    def compare(self, done, wanted):
        self.assertEqual(done.returncode, 0, done.stderr)
        answer = json.loads(done.stdout.splitlines()[-1])
        self.assertEqual(sorted(answer), sorted(wanted))
        for key, value in wanted.items():
            if abs(value) == float("inf"):
                self.assertEqual(answer[key], value, key)
            else:
                self.assertLessEqual(abs(answer[key] - value), 1e-7 * max(1, abs(value)),
                                     f"{key}: {answer[key]} and {value}")

    def test_each_script_has_its_test(self):
        here = {path.stem for path in (HERE / "users").iterdir() if not path.name.startswith("__")}
        self.assertEqual(here, set(self.ran))
        self.assertEqual((len(FIRST), len(SECOND), len(self.ran)), (20, 20, 40))

    def test_arguments(self):
        done = start(HERE / "answers.py", path_of("blend_arguments"), "--iron", "0.63", "--tonnes=80")
        self.compare(done, planning.blend_arguments(0.63, 80))
        self.assertIn("80 tonnes at 63% iron", done.stdout)
        self.compare(start(HERE / "answers.py", path_of("blend_arguments"), "--iron", "0.7"),
                     planning.blend_arguments(0.7))
        wrong = start(path_of("blend_arguments"), "--iron", "much")
        self.assertEqual(wrong.returncode, 2)
        self.assertIn("invalid float value", wrong.stderr)

    def test_digits_of_floats(self):
        """Without rounding such scripts stop at 128 bits, at the user's line, with what helps, or they are answered."""
        checks = {check.__name__: check for check in FIRST + SECOND}
        for name in sorted(NOISE):
            done = start(HERE / "answers.py", path_of(name))
            if done.returncode == 0:
                self.compare(done, checks[name]())
            else:
                self.assertRegex(done.stderr, r"prob\.solve\(\)\n(.*\n)*.*SolverError: 26 Wide.*--decimals 12")

    def test_run_alone(self):
        """Without the helper between: under `__main__`, with the script's folder on the path."""
        done = start(path_of("two_files"))
        self.assertEqual((done.returncode, done.stderr), (0, ""))
        self.assertIn("north", done.stdout)


def one(check):
    def test(self):
        self.compare(self.ran[check.__name__], check())

    test.__doc__ = f"users/{check.__name__}"
    return test


for check in FIRST + SECOND:
    setattr(Users, f"test_{check.__name__}", one(check))


if __name__ == "__main__":
    unittest.main()
