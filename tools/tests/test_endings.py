#!/usr/bin/env python3
"""Tries how the program ends where memory is wanting and where nothing can be written.

usage: tools/tests/test_endings.py

It runs the program that was built last from these sources: crates/dcx/out/dcx, or else that of dist/; or the one that DCX names.
"""
import os
import resource
import subprocess
import tempfile
import unittest

TOP = os.path.dirname(os.path.dirname(os.path.dirname(os.path.realpath(__file__))))
BUILT = os.path.join(TOP, "crates/dcx/out/dcx")
PROGRAM = os.environ.get("DCX") or (BUILT if os.access(BUILT, os.X_OK) else os.path.join(TOP, "dist/dcx"))
# So many MiB are enough for the report, and not for a tableau of the size that is asked for.
FEW = 10
# So many are enough for a thousand small solves, and not for a report that tells a name of so many letters at each of them.
SOME = 16
LETTERS = 20000


def run(*words, memory=None, full=False):
    """The status and the report, with at most so many MiB of memory, and into a full device."""

    def limit():
        if memory:
            resource.setrlimit(resource.RLIMIT_AS, (memory << 20, resource.RLIM_INFINITY))

    with open("/dev/full", "wb") as device:
        made = subprocess.run([PROGRAM, *words], stdout=device if full else subprocess.PIPE, stderr=subprocess.DEVNULL, preexec_fn=limit, timeout=60)
    return made.returncode, made.stdout


class Endings(unittest.TestCase):
    def test_want_of_memory_stands_over_a_write_that_fails(self):
        status, report = run("trial", "298", memory=FEW)
        self.assertEqual((status, report), (5, b"trial 298\nsetting 1 stopped 31 Memory\nsetting 2 stopped 31 Memory\nanswered 0 stopped 2\n"))
        self.assertEqual(run("trial", "298", memory=FEW, full=True)[0], 5)

    def test_want_of_memory_for_the_report_alone(self):
        with tempfile.TemporaryDirectory() as folder:
            script, settings = os.path.join(folder, "model.py"), os.path.join(folder, "settings.txt")

            def solves(letters, **limits):
                name = "x" * letters
                with open(script, "w", encoding="utf-8") as file:
                    file.write(f"import cvxpy as cp\np = cp.Parameter()\n{name} = cp.Variable()\nprob = cp.Problem(cp.Minimize({name}), [{name} >= p])\n")
                return run("resolve", script, settings, **limits)

            with open(settings, "w", encoding="utf-8") as file:
                file.writelines(f"p = {number}\n" for number in range(1000))
            for letters, memory in ((1, SOME), (LETTERS, None)):
                status, report = solves(letters, memory=memory)
                self.assertEqual((status, report[-24:]), (0, b"answered 1000 stopped 0\n"))
                self.assertGreater(len(report), 1000 * letters)
            self.assertEqual(solves(LETTERS, memory=SOME), (5, b"want of memory\n"))
            self.assertEqual(solves(LETTERS, memory=SOME, full=True)[0], 5)

    def test_a_write_that_fails_stands_over_the_others(self):
        for words in (["trial", "3"], ["trial", "3", "--max-pivots", "1"], ["nothing"], ["check", "no such file"]):
            self.assertNotIn(run(*words)[0], (4, 5))
            self.assertEqual(run(*words, full=True)[0], 4)


if __name__ == "__main__":
    unittest.main()
