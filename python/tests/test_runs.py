"""Many settings: answers in order, cut into runs, carried by pools of processes and by a cluster, of which a worker
is killed."""

from __future__ import annotations

import os
import pickle
import shlex
import shutil
import signal
import subprocess
import sys
import tempfile
import unittest
from concurrent.futures import Executor, Future, ProcessPoolExecutor, ThreadPoolExecutor
from fractions import Fraction
from pathlib import Path
from unittest import mock

import numpy as np
from scipy.optimize import linprog

import dcx.cvxpy as cp
from dcx import program, runs, shown, solving
from dcx.errors import DCPError, ParameterError, SolverError
from dcx.whole import EVIDENCE

from . import wide
from .test_program import ROOT, wait_for

PROGRAM = program.find()


class Model:
    """Least `x + 2 y + z` where the running sums are at least the parameter, and x is at most 5."""

    def __init__(self):
        self.x, self.p = cp.Variable(3, name="x", nonneg=True), cp.Parameter(3, name="p")
        self.rule = cp.cumsum(self.x) >= self.p
        rules = [self.rule, self.x[0] <= 5, cp.sum(self.x) <= 40]
        self.problem = cp.Problem(cp.Minimize(np.array([1, 2, 1]) @ self.x), rules)

    def settings(self, count):
        return [{self.p: [number % 9, number % 7 - 1, Fraction(number, 10)]} for number in range(count)]

    def by_hand(self, setting):
        """The value: the first is as great as the greatest but at most 5, the second what the second sum wants, the
        third the rest."""
        first, second, third = (max(Fraction(number), Fraction(0)) for number in setting[self.p])
        if first > 5:
            return None
        x = min(max(first, second, third), 5)
        y = max(0, second - x)
        z = max(0, third - x - y)
        return x + 2 * y + z if x + y + z <= 40 else None


class Case(unittest.TestCase):
    def setUp(self):
        self.model = Model()
        self.folder = Path(tempfile.mkdtemp())
        self.addCleanup(shutil.rmtree, self.folder)

    def check(self, results, settings):
        self.assertEqual(len(results), len(settings))
        for number, (result, setting) in enumerate(zip(results, settings)):
            self.assertIs(result.setting, setting)
            wanted = self.model.by_hand(setting)
            self.assertEqual((result.index, result.exact, result.error), (number, wanted, None), setting)
            self.assertEqual(result.status, "infeasible" if wanted is None else "optimal")

    def wrapped(self, before):
        """The program behind some lines of a shell, which see the words `resolve SCRIPT SETTINGS`."""
        path = self.folder / "wrapped"
        path.write_text(f"#!/bin/sh\n{before}\nexec {shlex.quote(PROGRAM)} \"$@\"\n")
        path.chmod(0o755)
        return mock.patch.dict(os.environ, DCX=str(path))


class Here(Case):
    def test_any_number_of_settings(self):
        settings = self.model.settings(2300)
        done = []
        with mock.patch("dcx.runs.run_part", wraps=runs.run_part) as part:
            results = self.model.problem.solve_at(settings, progress=lambda *counts: done.append(counts))
        self.check(results, settings)
        self.assertEqual([call.args[1].count("\n") for call in part.call_args_list], [1000, 1000, 300])
        self.assertEqual(done, [(1000, 2300), (2000, 2300), (2300, 2300)])

    def test_cold_and_warm_have_the_same_values(self):
        settings = self.model.settings(120)
        for warm in (True, False):
            with mock.patch("dcx.runs.run_part", wraps=runs.run_part) as part:
                self.check(self.model.problem.solve_at(settings, warm=warm, chunk=50), settings)
            self.assertEqual(["--warm" in call.args[2] for call in part.call_args_list], [warm] * 3)

    def test_a_result(self):
        model = self.model
        (result,) = model.problem.solve_at([{"p": np.array([1, 4, 6.5])}])
        self.assertEqual((result.value, result.exact, result.status), (6.5, Fraction(13, 2), "optimal"))
        x = result.exact_value(model.x)
        self.assertEqual((x[1], x[0] + x[2], 4 <= x[0] <= 5), (0, Fraction(13, 2), True))
        np.testing.assert_array_equal(result[model.x], x.astype(float))
        self.assertEqual(result.exact_dual(model.rule).tolist(), [0, 0, 1])
        self.assertEqual((model.x.value, model.p.value, model.problem.status), (None, None, None))
        result.save()
        np.testing.assert_array_equal(model.x.exact, x)
        np.testing.assert_array_equal(model.rule.dual_value, [0, 0, 1])
        with self.assertRaises(KeyError):
            result[cp.Variable()]

    def test_infeasible_and_unbounded_ones(self):
        x, p, q = cp.Variable(), cp.Parameter(name="p"), cp.Parameter(name="q", value=2)
        problem = cp.Problem(cp.Maximize(q * x), [x <= 4 * p, p <= 2, x >= q - 9])
        results = problem.solve_at([{p: 1}, {p: 3}, {"p": -1, "q": -3}, {p: 0, q: -1}])
        self.assertEqual([result.value for result in results], [8, -float("inf"), 36, 10])
        self.assertEqual(results[1].farkas.gap > 0, True)
        free = cp.Problem(cp.Minimize(q * x), [x <= 4 * p])
        (result,) = free.solve_at([{p: 1}])
        self.assertEqual((result.value, result[x]), (-float("inf"), None))
        self.assertLess(result.ray.direction[x], 0)

    def test_values_that_parameters_have(self):
        x, p, q = cp.Variable(), cp.Parameter(value=1), cp.Parameter(value=2)
        problem = cp.Problem(cp.Minimize(x), [x >= p + q])
        self.assertEqual([result.value for result in problem.solve_at([{}, {p: 5}, {q: 7}])], [3, 7, 8])

    def test_no_settings(self):
        self.assertEqual(self.model.problem.solve_at([]), [])
        with ThreadPoolExecutor(1) as executor:
            self.assertEqual(self.model.problem.solve_at(iter([]), executor=executor), [])

    def test_a_stop_costs_its_setting_alone(self):
        x, p = cp.Variable(), cp.Parameter()
        problem = cp.Problem(cp.Minimize(x), [x >= 1 / p])
        results = problem.solve_at([{p: 4}, {p: 0}, {p: -1}])
        self.assertEqual([result.value for result in results], [0.25, None, -1])
        bad = results[1]
        self.assertEqual((bad.status, bad.error.stop.name, bad[x]), ("solver_error", "ZeroDivisor", None))
        self.assertIn("test_runs.py", str(results[1].error))

    def test_whole_numbers(self):
        x, p = cp.Variable(2, integer=True), cp.Parameter()
        problem = cp.Problem(cp.Minimize(cp.sum(x)), [2 * x[0] >= p, x[1] >= p / 3])
        results = problem.solve_at([{p: number} for number in range(7)])
        wanted = [-(-number // 2) - (-number // 3) for number in range(7)]
        self.assertEqual([result.value for result in results], wanted)

    def test_long_settings_are_cut_by_bytes(self):
        p, x = cp.Parameter(3000, name="p"), cp.Variable()
        problem = cp.Problem(cp.Minimize(x), [x >= cp.max(p)])
        values = [np.arange(3000) * 1000 + 123456789 + number for number in range(40)]
        with mock.patch("dcx.runs.run_part", wraps=runs.run_part) as part:
            results = problem.solve_at([{p: value} for value in values])
        self.assertEqual([result.exact for result in results], [max(value) for value in values])
        self.assertGreater(part.call_count, 1)
        self.assertTrue(all(len(call.args[1]) <= 1_048_576 for call in part.call_args_list))

    def test_what_is_no_setting(self):
        problem, p = self.model.problem, self.model.p
        with self.assertRaisesRegex(ParameterError, r"settings\[1\]: .*'p'.* does not have a value"):
            problem.solve_at([{p: [1, 2, 3]}, {}])
        with self.assertRaisesRegex(KeyError, r"settings\[0\] names 'q', which is no parameter"):
            problem.solve_at([{"q": 1}])
        with self.assertRaisesRegex(KeyError, r"settings\[0\] names .*no parameter"):
            problem.solve_at([{cp.Parameter(): 1}])
        with self.assertRaisesRegex(KeyError, "no parameter"):
            problem.solve_at([{self.model.x: [1, 2, 3]}])
        with self.assertRaisesRegex(ValueError, r"settings\[0\]: Invalid dimensions"):
            problem.solve_at([{p: [1, 2]}])
        with self.assertRaisesRegex(ValueError, r"settings\[1\]: Parameter value of p: NaN"):
            problem.solve_at([{p: [1, 2, 3]}, {p: [1, float("nan"), 3]}])
        with self.assertRaisesRegex(ValueError, r"settings\[1\] has two values of p: by itself, and by its name"):
            problem.solve_at([{p: [1, 2, 3]}, {p: [1, 2, 3], "p": [3, 2, 1]}])
        with self.assertRaisesRegex(TypeError, r"settings\[0\] is a list"):
            problem.solve_at([[1]])
        for chunk in (0, -3, 1.5, True, float("inf"), "3"):
            with self.assertRaisesRegex(ValueError, "chunk is a whole number"):
                problem.solve_at([], chunk=chunk)
        with self.assertRaisesRegex(TypeError, "an executor has a method submit, .* and 3 has none"):
            problem.solve_at([{p: [1, 2, 3]}], executor=3)
        y, other = cp.Variable(), cp.Parameter(name="p", value=1)
        twice = cp.Problem(cp.Minimize(y), [y >= p[0], y >= other])
        with self.assertRaisesRegex(KeyError, "'p' is the name of 2 parameters"):
            twice.solve_at([{"p": [4, 5, 6]}])
        results = twice.solve_at([{p: [4, 5, 6]}, {p: [0, 5, 6], other: 3}])
        self.assertEqual([result.exact for result in results], [4, 3])
        (result,) = problem.solve_at([{"p": [1, 2, 3]}])
        self.assertEqual(result.exact, self.model.by_hand({p: [1, 2, 3]}))
        for ask in (lambda: result[p], lambda: result["x"], lambda: result.exact_value(cp.Variable())):
            with self.assertRaisesRegex(KeyError, "is no variable that the problem reaches"):
                ask()
        with self.assertRaisesRegex(KeyError, "is no constraint of the problem"):
            result.dual_value(self.model.x >= 1)
        x = cp.Variable()
        with self.assertRaises(DCPError):
            cp.Problem(cp.Maximize(cp.abs(x) * p[0]), []).solve_at([{p: [1, 2, 3]}])

    def test_a_part_that_fails_is_asked_again_once(self):
        settings = self.model.settings(40)
        once = f"grep -q 'p = .0, -1, 0.' \"$3\" && mkdir {self.folder}/once 2> /dev/null"
        with self.wrapped(f"if {once}; then kill -KILL $$; fi"):
            self.check(self.model.problem.solve_at(settings, chunk=10), settings)
        self.assertTrue((self.folder / "once").exists())

    def test_a_part_that_fails_again_is_told_by_name(self):
        settings = self.model.settings(40)
        counts = f"echo run >> {self.folder}/runs;"
        with self.wrapped(f"if grep -q ', 2.5.$' \"$3\"; then {counts} kill -KILL $$; fi"):
            for executor in (None, ThreadPoolExecutor(2)):
                done = []
                more = {"executor": executor, "progress": lambda *counts: done.append(counts)}
                results = self.model.problem.solve_at(settings, chunk=10, **more)
                bad = results[20:30]
                for result in bad:
                    self.assertEqual((result.status, result.value, result[self.model.x]), ("solver_error", None, None))
                    self.assertIsInstance(result.error, SolverError)
                    told = r"settings\[20:30\]: no answer, since the worker died or failed twice .*SIGKILL"
                    self.assertRegex(str(result.error), told)
                good = results[:20] + results[30:]
                wanted = [self.model.by_hand(result.setting) for result in good]
                self.assertEqual([result.exact for result in good], wanted)
                self.assertEqual([result.index for result in results], list(range(40)))
                self.assertEqual(done[-1], (40, 40))
                if executor is not None:
                    executor.shutdown()
        self.assertEqual((self.folder / "runs").read_text(), "run\n" * 4)


class Interrupted(Case):
    """What was answered before an interruption stays."""

    def check_part(self, settings, answered):
        """The settings at these places are answered, and no others; they needn't be asked again."""
        problem = self.model.problem
        found = problem.partial_results
        self.assertEqual([place for place, result in enumerate(found) if result is not None], sorted(answered))
        kept = [result for result in found if result is not None]
        self.assertEqual([result.exact for result in kept], [self.model.by_hand(result.setting) for result in kept])
        rest = [setting for setting, result in zip(settings, found) if result is None]
        self.check(problem.solve_at(rest), rest)
        self.assertIsNone(problem.partial_results)

    def test_here(self):
        settings, problem = self.model.settings(50), self.model.problem
        self.assertIsNone(problem.partial_results)
        for error in (KeyboardInterrupt, ZeroDivisionError):

            def progress(done, total, error=error):
                if done == 20:
                    raise error

            with self.assertRaises(error):
                problem.solve_at(settings, chunk=10, progress=progress)
            self.check_part(settings, range(20))

    def test_by_an_executor(self):
        settings, done = self.model.settings(50), []

        def progress(*counts):
            done.append(counts)
            if len(done) == 3:
                raise KeyboardInterrupt

        with ThreadPoolExecutor(2) as executor, self.assertRaises(KeyboardInterrupt):
            self.model.problem.solve_at(settings, chunk=10, executor=executor, progress=progress)
        found = self.model.problem.partial_results
        answered = [place for place, result in enumerate(found) if result is not None]
        self.assertEqual(([len(answered)], len({place // 10 for place in answered})), ([30], 3))
        self.check_part(settings, answered)

    def test_what_did_not_begin_leaves_nothing(self):
        with self.assertRaises(KeyError):
            self.model.problem.solve_at([{"q": 1}])
        self.assertIsNone(self.model.problem.partial_results)

    def test_a_signal(self):
        """The third run of the program doesn't end; the interruption reaches Python while it waits for that."""
        code = (
            "import dcx.cvxpy as cp\nx, p = cp.Variable(), cp.Parameter(name='p')\n"
            "problem = cp.Problem(cp.Minimize(x), [2 * x >= p])\n"
            "try:\n    problem.solve_at([{'p': number} for number in range(6)], chunk=2)\n"
            "except KeyboardInterrupt:\n"
            "    print([result and str(result.exact) for result in problem.partial_results])\n"
        )
        began = self.folder / "began"
        before = signal.signal(signal.SIGINT, signal.default_int_handler)
        self.addCleanup(signal.signal, signal.SIGINT, before or signal.SIG_DFL)
        with self.wrapped(f"if grep -q 'p = 4' \"$3\"; then touch {began}; exec sleep 60; fi"):
            environment = {**os.environ, "PYTHONPATH": str(ROOT / "python")}
            words = [sys.executable, "-c", code]
            process = subprocess.Popen(words, stdout=subprocess.PIPE, text=True, env=environment)
            wait_for(began.exists)
            process.send_signal(signal.SIGINT)
            told, _ = process.communicate(timeout=60)
        self.assertEqual((told, process.returncode), ("['0', '1/2', '1', '3/2', None, None]\n", 0))


class BehindStops(unittest.TestCase):
    """Settings at which the program stops are answered as `solve` answers them."""

    def setUp(self):
        problem, self.x, self.found = wide.fit(3)
        self.A, self.b = (item.array for item in problem.constants())
        self.p = cp.Parameter(12, name="p")
        A = cp.Constant(self.A)
        self.problem = cp.Problem(cp.Minimize(cp.norm1(A @ self.x - self.p)))

    def settings(self):
        """The observations, which stop the program, and a few that don't."""
        return [{self.p: self.b}, {self.p: [0] * 12}, {"p": [2 * entry for entry in self.b.entries]}]

    def check(self, results, counts):
        self.assertEqual([result.status for result in results], ["optimal"] * 3)
        for result, value in zip(results, (self.found.fun, 0, 2 * self.found.fun)):
            self.assertAlmostEqual(result.value, value, places=7)
        self.assertEqual([result.shown_by for result in results], [shown.CERTIFICATE, shown.PROGRAM, shown.CERTIFICATE])
        self.assertEqual([result.index for result in results], [0, 1, 2])
        self.assertEqual(counts, [(1, 3), (2, 3), (3, 3)])
        results[2].save()
        A, b = (np.array(array.entries, dtype=float).reshape(array.shape) for array in (self.A, self.b))
        self.assertAlmostEqual(np.abs(A @ self.x.value - 2 * b).sum(), 2 * self.found.fun, places=7)

    def test_here_and_by_executors(self):
        seen = []

        def gives(executor, function, args):
            function, args = pickle.loads(pickle.dumps((function, args)))
            seen.append(function)
            return pickle.loads(pickle.dumps(function(*args)))

        with ProcessPoolExecutor(2) as pool:
            for executor in (None, pool, Odd(gives)):
                counts = []
                more = {"executor": executor, "progress": lambda *count: counts.append(count), "chunk": 1000}
                self.check(self.problem.solve_at(self.settings(), **more), counts)
        self.assertEqual(seen, [runs.run_part, runs.ask_behind, runs.ask_behind])

    def test_a_worker_that_fails_there_is_asked_here(self):
        def gives(executor, function, args):
            if function is runs.ask_behind:
                raise RuntimeError("a worker died")
            return function(*args)

        counts = []
        more = {"executor": Odd(gives), "progress": lambda *count: counts.append(count), "chunk": 1000}
        self.check(self.problem.solve_at(self.settings(), **more), counts)

    def test_what_is_left_out(self):
        first, second, _ = self.problem.solve_at(self.settings(), exact=False)
        self.assertEqual((first.status, first.error.stop.name, first.shown_by), ("solver_error", "Wide", None))
        self.assertEqual((second.status, second.shown_by), ("optimal", shown.PROGRAM))
        # a limit of pivots that the user sets is the user's
        (first,) = self.problem.solve_at([{self.p: self.b}], max_iters=2)
        self.assertEqual((first.status, first.error.stop.name), ("solver_error", "PivotLimit"))

    def test_no_answer_behind_a_stop(self):
        told = "26 Wide.* Behind that, the exact solver had no answer after 0.001 s"
        (first,) = self.problem.solve_at([{self.p: self.b}], time_limit=0.001)
        self.assertEqual((first.status, first.value, first[self.x]), ("solver_error", None, None))
        self.assertRegex(str(first.error), told)
        for wrong in ({"trust": "me"}, {"box": -1}, {"time_limit": 0}):
            with self.assertRaises(ValueError):
                self.problem.solve_at([], **wrong)
        with self.assertRaises(TypeError):
            self.problem.solve_at([], tolerance=1)

    def test_an_interruption_there(self):
        """What the program answered stays, and so does what was shown behind the first stop."""
        def progress(done, total):
            if done == 2:
                raise KeyboardInterrupt

        with self.assertRaises(KeyboardInterrupt):
            self.problem.solve_at(self.settings(), progress=progress)
        first, second, third = self.problem.partial_results
        self.assertAlmostEqual(first.value, self.found.fun, places=7)
        self.assertEqual((first.shown_by, second.exact, third), (shown.CERTIFICATE, 0, None))

    def test_python_s_word(self):
        (first,) = self.problem.solve_at([{self.p: self.b}], trust="python")
        self.assertAlmostEqual(first.value, self.found.fun, places=7)

    def test_whole_numbers(self):
        """Bounds of 650 entries pass the program's rows; the search has them as boxes."""
        cost = np.arange(650) % 17 + 1
        take, p = cp.Variable(650, boolean=True, name="take"), cp.Parameter(name="p")
        problem = cp.Problem(cp.Minimize(cost @ take), [cp.sum(take) >= p])
        first, second = problem.solve_at([{p: 41}, {p: 651}])
        self.assertEqual((first.status, first.value), ("optimal", sum(sorted(cost)[:41])))
        self.assertEqual((second.status, second.shown_by), ("infeasible", EVIDENCE))
        self.assertEqual(problem.solve_at([{p: 41}], exact=False)[0].error.stop.name, "Branch")

        def interrupted(question):
            def told(progress):
                if progress.best is not None:
                    raise KeyboardInterrupt

            return solving.asked(question, told)

        with mock.patch("dcx.runs.ask_behind", interrupted), self.assertRaises(KeyboardInterrupt):
            problem.solve_at([{p: 651}, {p: 41}, {p: 42}])
        first, second, third = problem.partial_results
        self.assertEqual((first.status, second.status, third), ("infeasible", "user_limit", None))
        chosen = second[take]
        self.assertEqual((set(chosen) | {0, 1}, sum(chosen) >= 41, cost @ chosen), ({0, 1}, True, second.value))


class Odd(Executor):
    """An executor that runs each part at once, and gives for some what no worker should."""

    def __init__(self, gives):
        self.gives, self.asked = gives, []

    def submit(self, function, *args, **more):
        self.asked.append(args[1] if function is runs.run_part else args[0])
        future = Future()
        try:
            future.set_result(self.gives(self, function, args))
        except BaseException as error:
            future.set_exception(error)
        return future


class Executors(Case):
    def test_what_a_worker_is_handed(self):
        """The function and its arguments are picklable, as texts, and know nothing of the user's objects."""
        seen = []

        def gives(executor, function, args):
            function, args = pickle.loads(pickle.dumps((function, args)))
            self.assertEqual([type(arg) for arg in args], [str, str, tuple])
            seen.append(function)
            return pickle.loads(pickle.dumps(function(*args)))

        settings = self.model.settings(30)
        self.check(self.model.problem.solve_at(settings, executor=Odd(gives), chunk=7), settings)
        self.assertEqual(seen, [runs.run_part] * 5)

    def test_what_goes_wrong_once(self):
        def gives(executor, function, args):
            if len(executor.asked) == 2:
                raise RuntimeError("a worker died")
            if len(executor.asked) == 4:
                return "no run"
            return function(*args)

        settings = self.model.settings(50)
        executor = Odd(gives)
        self.check(self.model.problem.solve_at(settings, executor=executor, chunk=10), settings)
        self.assertEqual(len(executor.asked), 7)

    def test_what_goes_wrong_twice(self):
        def broken(run):
            return run._replace(report=run.report[:40])

        def of_others(run):
            return run._replace(report=b"setting 1 stopped 31 Memory\nanswered 0 stopped 1\n")

        for change, told in ((broken, "ReportError"), (of_others, "1 answers to 10 settings")):

            def gives(executor, function, args, change=change):
                run = function(*args)
                return change(run) if executor.asked[0] == args[1] else run

            settings, executor = self.model.settings(20), Odd(gives)
            results = self.model.problem.solve_at(settings, executor=executor, chunk=10)
            self.assertRegex(str(results[3].error), rf"settings\[0:10\]: no answer, .* twice .*{told}")
            self.assertEqual(results[13].exact, self.model.by_hand(settings[13]))
            self.assertEqual(len(executor.asked), 3)

    def test_want_of_memory_costs_its_part(self):
        def gives(executor, function, args):
            run = function(*args)
            return run._replace(status=5, report=b"want of memory\n") if len(executor.asked) == 2 else run

        settings = self.model.settings(30)
        results = self.model.problem.solve_at(settings, executor=Odd(gives), chunk=10)
        self.assertIn("settings[10:20]: the program has no answer for want of memory", str(results[15].error))
        self.assertEqual([result.error is None for result in results[::10]], [True, False, True])

    def test_an_executor_that_takes_nothing_any_more(self):
        executor = ThreadPoolExecutor(1)
        executor.shutdown()
        settings = self.model.settings(25)
        self.check(self.model.problem.solve_at(settings, executor=executor, chunk=5), settings)

    def test_a_pool_of_four_processes(self):
        settings = self.model.settings(400)
        done = []
        with ProcessPoolExecutor(4) as executor:
            more = {"executor": executor, "progress": lambda *counts: done.append(counts)}
            results = self.model.problem.solve_at(settings, **more)
        self.check(results, settings)
        self.assertEqual(done, sorted(done))
        self.assertEqual((len(done), done[-1]), (16, (400, 400)))

    def test_a_worker_of_a_pool_is_killed(self):
        """Each run takes a while, so that the worker that is killed has one in hand."""
        settings = self.model.settings(120)
        killed = []
        with self.wrapped("sleep 0.15"), ProcessPoolExecutor(4) as executor:

            def progress(done, total):
                if not killed:
                    killed.append(list(executor._processes)[1])
                    os.kill(killed[0], signal.SIGKILL)

            results = self.model.problem.solve_at(settings, executor=executor, progress=progress, chunk=6)
        self.assertEqual(len(killed), 1)
        self.check(results, settings)

    def test_a_cluster_of_two_workers_one_of_them_killed(self):
        from distributed import Client, LocalCluster

        settings = self.model.settings(120)
        killed = []
        how = {"n_workers": 2, "threads_per_worker": 1, "dashboard_address": None, "silence_logs": 50}
        with self.wrapped("sleep 0.15"):
            with LocalCluster(**how) as cluster, Client(cluster) as client:
                pids = client.run(os.getpid)

                def progress(done, total):
                    if not killed:
                        killed.append(list(pids.values())[0])
                        os.kill(killed[0], signal.SIGKILL)

                executor = client.get_executor()
                results = self.model.problem.solve_at(settings, executor=executor, progress=progress, chunk=6)
        self.assertEqual(len(set(pids.values())), 2)
        self.assertEqual(len(killed), 1)
        self.check(results, settings)


class Values(unittest.TestCase):
    def test_against_scipy(self):
        draw = np.random.default_rng(2)
        x, p, q = cp.Variable(5, nonneg=True), cp.Parameter(4), cp.Parameter(nonneg=True)
        A, c = draw.integers(0, 6, (4, 5)) + np.eye(4, 5, dtype=int), draw.integers(1, 9, 5)
        problem = cp.Problem(cp.Minimize(c @ x + q * cp.max(x)), [A @ x >= p])
        settings = [{p: draw.integers(-2, 20, 4), q: int(draw.integers(0, 9))} for _ in range(30)]
        results = problem.solve_at(settings)
        for result, setting in zip(results, settings):
            most = np.hstack([np.eye(5), -np.ones((5, 1))])
            above, right = np.vstack([np.hstack([-A, np.zeros((4, 1))]), most]), [*(-setting[p]), 0, 0, 0, 0, 0]
            found = linprog([*c, setting[q]], above, right, method="highs")
            self.assertAlmostEqual(result.value, found.fun, places=6)


if __name__ == "__main__":
    unittest.main()
