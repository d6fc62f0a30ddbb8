#!/usr/bin/env python3
"""Tries `tools/try-edits` over a small checkout whose prover is a script that says of each function what its body says.

usage: tools/tests/test_edits.py
"""
import os
import shutil
import signal
import subprocess
import tempfile
import time
import unittest

TOP = os.path.dirname(os.path.dirname(os.path.dirname(os.path.realpath(__file__))))
RT = """#!/bin/sh
case $1 in
  version) echo a kit ;;
  doc) echo "$(dirname "$0")/START-HERE.md" ;;
esac
"""
# A function whose body has the word `wrong` is refused, or `weak`: the search finds nothing; `named`: its proof file names what is gone; `hard`: a limit; and
# `broken`: it doesn't compile. With `breaks g` in it, g is refused. A function that calls one that isn't proved waits for it, and functions of a
# cycle are refused together. It tells how it is called; while a file `wait` is there it waits at crates named top.
RATTLE = """#!/usr/bin/env python3
import os, re, sys, time
words = sys.argv[1:]
crate = words[words.index("--crate-name") + 1]
only = sorted(words[at + 1] for at, word in enumerate(words) if word == "--only")
given = [words[at + 1] for at, word in enumerate(words) if word == "--extern"]
text = open("src/lib.rt").read()
bodies = dict(re.findall(r"fn (\\w+)\\(\\)(?:\\n *ensures .*)?\\s*\\{\\n *(.*)\\n *\\}", text))
methods = re.search(r"(?s)impl Turns for Wheel \\{(.*?)\\n\\}", text)
path = lambda f: f"{crate}::wheel::WheelTurns::{f}" if methods and f"fn {f}()" in methods[1] else f"{crate}::{f}"
with open(os.environ["CALLS"], "a") as file:
    file.write(f"{crate}: {' '.join(it.split('::')[-1] for it in only) or 'all'}\\n")
for library in given:
    assert os.path.isdir(library.split("=")[1]), library
while crate == "top" and os.path.exists(os.environ["WAIT"]):
    time.sleep(0.05)
if any("broken" in body for body in bodies.values()):
    print("src/lib.rt:2:5: error: mismatched types")
    sys.exit(1)
asked = [f for f in bodies if not only or any(path(f).endswith(it) for it in only)]
if only and not asked:
    sys.exit(2)
for f in asked:
    asked += [g for g in re.findall(r"call (\\w+)", bodies[f]) if g not in asked]
broken = {g for f in asked for g in re.findall(r"breaks (\\w+)", bodies[f])}
if "LARGEST: 2" in text:
    broken.add("bounded")
said = {}
def end_of(f):
    body = bodies[f]
    waits = [g for g in re.findall(r"call (\\w+)", body) if end_of(g) != "proved"]
    if waits:
        return f"no proof: it calls `{path(waits[0])}`, which is not proved"
    if "wrong" in body or f in broken or ("cycle" in body and any("wrong" in it and "cycle" in it for it in bodies.values())):
        return "not proved"
    if "weak" in body:
        return f"no proof: expected answers in ./proofs/{f}/Answers.antt; `search` did not prove `returns`"
    if "named" in body:
        return "not proved"
    return "could not tell" if "hard" in body else "proved"
ends = {f: end_of(f) for f in asked}
for f, end in ends.items():
    if "named" in bodies[f]:
        print(f"./proofs/{f}/Answers.antt:3:1: error: `returns`: module `Goals` has no `returns-then`")
for f, end in ends.items():
    print(f"fn {path(f)}: {end}")
proved = sum(end == "proved" for end in ends.values())
if "could not tell" in ends.values():
    print("rattle: no verdict: a limit")
    sys.exit(3)
print(f"only={len(ends)} proved={proved}" if only else f"logic={'proved' if proved == len(ends) else 'not-proved'}")
sys.exit(proved != len(ends))
"""
CODE = """//! Code.
const LARGEST: 1

/// Is called by the others.
fn low()
    ensures { A }
{
    step low
}

fn high() {
    call low, step high
}

fn bounded() {
    step bounded
}

#[cycle(both)]
fn there() {
    cycle, step there
}

#[cycle(both)]
fn back() {
    cycle, step back
}

impl Turns for Wheel {
    fn turn() {
        step turn
    }
}
"""


def write(path, text, mode=None):
    os.makedirs(os.path.dirname(path), exist_ok=True)
    with open(path, "w", encoding="utf-8") as file:
        file.write(text)
    if mode:
        os.chmod(path, mode)


class Edits(unittest.TestCase):
    def setUp(self):
        self.room = tempfile.mkdtemp()
        self.addCleanup(shutil.rmtree, self.room)
        self.top = os.path.join(self.room, "a checkout")
        self.calls, self.wait = os.path.join(self.room, "calls"), os.path.join(self.room, "wait")
        os.makedirs(self.at("tools"))
        shutil.copy(os.path.join(TOP, "tools/try-edits"), self.at("tools/try-edits"))
        write(os.path.join(self.room, "kit", "rt"), RT, 0o755)
        write(os.path.join(self.room, "kit", "bin", "rattle"), RATTLE, 0o755)
        for name in ("std", "itoa"):
            os.makedirs(os.path.join(self.room, "kit", "rlibs", f"{name}.rlib"))
        write(self.at("HANDLES"), "Handles allowed: none.\n")
        write(self.at("crates.txt"), "# Words.\nlow: itoa\nmiddle: low\ntop: low middle\nbare: low\n")
        for crate in ("low", "middle", "top", "bare"):
            write(self.at("crates", crate, "src/lib.rt"), CODE)
            write(self.at("crates", crate, "must-fail/other.edit"), "file: src/lib.rt\nold: step low\nnew: as before\n")
            if crate != "bare":
                self.put_edit(crate, "turned", "step low", "wrong")
            self.build(crate)

    def at(self, *names):
        return os.path.join(self.top, *names)

    def build(self, crate):
        shutil.rmtree(self.at("crates", crate, "out"), ignore_errors=True)
        os.makedirs(self.at("crates", crate, "out/rlib", crate + ".rlib"))

    def put_edit(self, crate, name, old, new):
        write(self.at("crates", crate, "edits", name + ".edit"), f"file: src/lib.rt\nold: {old}\nnew: {new}\n")

    def environment(self):
        return {**os.environ, "PATH": os.path.join(self.room, "kit") + ":" + os.environ["PATH"], "CALLS": self.calls, "WAIT": self.wait}

    def run_tool(self, *words):
        return subprocess.run([self.at("tools/try-edits"), *words], capture_output=True, text=True, env=self.environment(), stdin=subprocess.DEVNULL, timeout=60)

    def read_calls(self):
        """The checks since the last look: of which crate, and of which functions."""
        try:
            with open(self.calls, encoding="utf-8") as file:
                return file.read().splitlines()
        except FileNotFoundError:
            return []

    def take_calls(self):
        found = self.read_calls()
        if found:
            os.remove(self.calls)
        return found

    def row(self, run, crate):
        """The numbers of a row of the table, but for the seconds."""
        return next(line.split()[1:-1] for line in run.stdout.splitlines() if line.split()[:1] == [crate])

    def test_all(self):
        run = self.run_tool()
        self.assertEqual(run.returncode, 0, run.stderr)
        calls = ["low: low", "middle: low", "top: low"]
        self.assertEqual(sorted(self.take_calls()), calls)
        self.assertEqual(self.row(run, "low"), ["1", "0", "0", "0"])
        self.assertEqual(self.row(run, "all"), ["3", "0", "0", "0"])
        self.assertIn("3 of 3 crates", run.stderr)
        # All is kept, and forgotten where that is asked.
        self.assertEqual(self.run_tool().stdout, run.stdout)
        self.assertEqual(self.take_calls(), [])
        self.assertEqual(self.run_tool("--again").returncode, 0)
        self.assertEqual(sorted(self.take_calls()), calls)

    def test_one_check_for_edits_of_different_functions(self):
        self.put_edit("low", "a", "step bounded", "weak")
        self.put_edit("low", "b", "step turn", "wrong")
        run = self.run_tool("low")
        self.assertEqual((run.returncode, self.row(run, "low")), (0, ["3", "0", "0", "0"]), run.stderr)
        self.assertEqual(self.take_calls(), ["low: turn bounded low"])

    def test_a_function_has_one_edit_at_a_time(self):
        self.put_edit("low", "another", "step low", "weak")
        self.put_edit("low", "b", "step bounded", "wrong")
        run = self.run_tool("low")
        self.assertEqual((run.returncode, self.row(run, "low")), (0, ["3", "0", "0", "0"]), run.stderr)
        self.assertEqual(self.take_calls(), ["low: bounded low", "low: low"])

    def test_a_caller_waits_for_what_it_calls(self):
        self.put_edit("low", "a", "step high", "weak")
        run = self.run_tool("low")
        self.assertEqual((run.returncode, self.row(run, "low")), (0, ["2", "0", "0", "0"]), run.stderr)
        self.assertEqual(self.take_calls(), ["low: high low", "low: high"])

    def test_functions_of_a_cycle_are_one(self):
        self.put_edit("low", "a", "step there", "wrong")
        self.put_edit("low", "b", "step back", "wrong")
        run = self.run_tool("low")
        self.assertEqual((run.returncode, self.row(run, "low")), (0, ["3", "0", "0", "0"]), run.stderr)
        self.assertEqual(self.take_calls(), ["low: low there", "low: back"])

    def test_what_stands_in_no_body_is_tried_alone(self):
        self.put_edit("low", "constant", "LARGEST: 1", "LARGEST: 2")
        self.put_edit("low", "clause", "ensures { A }", "ensures { B }")
        run = self.run_tool("low")
        self.assertEqual((run.returncode, self.row(run, "low")), (1, ["2", "1", "0", "0"]), run.stderr)
        self.assertIn("NOT REFUSED: a contract is too weak, or the edit means the same as before:\n  low/clause.edit\n", run.stdout)
        self.assertEqual(self.take_calls(), ["low: low", "low: all", "low: all"])

    def test_nothing_is_taken_where_another_function_is_refused(self):
        self.put_edit("low", "a", "step high", "breaks low")
        run = self.run_tool("low")
        self.assertEqual((run.returncode, self.row(run, "low")), (0, ["2", "0", "0", "0"]), run.stderr)
        # (in the second check what no edit turned is refused)
        self.assertEqual(self.take_calls(), ["low: high low", "low: high", "low: all"])

    def test_kinds(self):
        self.put_edit("low", "as_before", "step bounded", "step bounded again")
        self.put_edit("low", "missing", "step nowhere", "wrong")
        self.put_edit("low", "twice", "step", "wrong")
        self.put_edit("low", "limit", "step turn", "hard")
        self.put_edit("low", "name", "step back", "named")
        self.put_edit("middle", "no_code", "step bounded", "broken")
        run = self.run_tool("low", "middle")
        self.assertEqual(run.returncode, 1, run.stderr)
        self.assertEqual(self.row(run, "low"), ["3", "1", "2", "0"])
        self.assertEqual(self.row(run, "middle"), ["1", "0", "1", "0"])
        told = run.stdout.split("\nall ")[1]
        for words, names in (
            ("refused only by a limit of the prover", ["low/limit"]),
            ("refused only since a proof file names what the edit took away", ["low/name"]),
            ("NOT REFUSED: a contract is too weak, or the edit means the same as before", ["low/as_before"]),
            ("can't be applied, compiled or read", ["low/missing", "low/twice", "middle/no_code"]),
        ):
            self.assertIn("\n".join([f"{words}:", *(f"  {name}.edit" for name in names)]) + "\n", told)
        self.assertNotIn("not tried", told)
        self.take_calls()
        self.assertEqual((self.run_tool("low", "middle").stdout, self.take_calls()), (run.stdout, []))

    def test_changes(self):
        self.run_tool()
        self.take_calls()
        for change, crates in (
            (lambda: write(self.at("crates/middle/proofs/Lib.antt"), "proof\n"), ["middle", "top"]),
            (lambda: write(self.at("crates/top/src/lib.rt"), CODE + "// more\n"), ["top"]),
            (lambda: self.put_edit("low", "turned", "step low", "wrong again"), ["low"]),
            (lambda: write(self.at("crates/top/data/table"), "1\n"), []),
            (lambda: write(self.at("crates/low/must-fail/more.edit"), ""), []),
            (lambda: write(self.at("HANDLES"), "Handles allowed: Wait.\n"), ["low", "middle", "top"]),
        ):
            change()
            for crate in ("low", "middle"):
                self.build(crate)
            self.assertEqual(self.run_tool().returncode, 0)
            self.assertEqual(sorted(line.split(":")[0] for line in self.take_calls()), crates)

    def test_libraries_are_those_of_the_files(self):
        later = time.time() + 60
        write(self.at("crates/low/specs/Lib.antt"), "more\n")
        os.utime(self.at("crates/low/specs/Lib.antt"), (later, later))
        run = self.run_tool()
        self.assertEqual((run.returncode, run.stdout, self.take_calls()), (1, "", []))
        self.assertIn("no library of low", run.stderr)
        # Those of low itself need none.
        self.assertEqual(self.run_tool("low").returncode, 0)

    def test_what_was_not_tried_is_tried_again(self):
        write(os.path.join(self.room, "kit", "bin", "rattle"), "#!/bin/sh\necho rattle: no room >&2\nexit 2\n", 0o755)
        run = self.run_tool("low")
        self.assertEqual((run.returncode, self.row(run, "low")), (1, ["0", "0", "0", "1"]))
        self.assertIn("not tried:\n  low/turned.edit\n", run.stdout)
        self.assertIn("no room", run.stderr)
        write(os.path.join(self.room, "kit", "bin", "rattle"), RATTLE, 0o755)
        run = self.run_tool("low")
        self.assertEqual((run.returncode, self.row(run, "low")), (0, ["1", "0", "0", "0"]))

    def test_interrupted(self):
        write(self.wait, "")
        run = subprocess.Popen([self.at("tools/try-edits")], env=self.environment(), stdin=subprocess.DEVNULL, stdout=subprocess.PIPE, stderr=subprocess.PIPE, text=True)
        end = time.monotonic() + 60
        while time.monotonic() < end and not (all(os.path.exists(self.at("out/edits", crate)) for crate in ("low", "middle")) and len(self.read_calls()) == 3):
            time.sleep(0.05)
        run.send_signal(signal.SIGTERM)
        out, told = run.communicate(timeout=60)
        self.assertEqual((run.returncode, out), (130, ""))
        self.assertIn("the next call goes on", told)
        os.remove(self.wait)
        self.take_calls()
        run = self.run_tool()
        self.assertEqual((run.returncode, self.row(run, "all")), (0, ["3", "0", "0", "0"]))
        self.assertEqual(self.take_calls(), ["top: low"])

    def test_names(self):
        run = self.run_tool("top", "low", "bare")
        self.assertEqual(run.returncode, 0, run.stderr)
        self.assertIn("bare has no folder edits", run.stderr)
        self.assertEqual(sorted(self.take_calls()), ["low: low", "top: low"])
        self.assertEqual(self.row(run, "all"), ["2", "0", "0", "0"])
        run = self.run_tool("another")
        self.assertEqual((run.returncode, run.stdout), (1, ""))
        self.assertIn("usage: tools/try-edits", run.stderr)


if __name__ == "__main__":
    unittest.main()
