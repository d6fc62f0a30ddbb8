#!/usr/bin/env python3
"""Tries `./dcx` and the scripts that find its program, over small checkouts whose programs, and whose `rt`, are scripts of a line or two.

usage: tools/tests/test_launcher.py
"""
import os
import shutil
import socket
import stat
import subprocess
import tempfile
import time
import unittest
from concurrent.futures import ThreadPoolExecutor

TOP = os.path.dirname(os.path.dirname(os.path.dirname(os.path.realpath(__file__))))
TOOLS = ("readlink", "awk", "find", "sort", "xargs", "sha256sum", "cut")
OTHERS = ("bash", "env", "cat", "mktemp", "mkdir", "mv", "rm", "cp", "split", "stat", "cmp", "tar", "grep", "wc", "date", "nproc", "sleep", "dirname", "head", "tail")
PROGRAM = '#!/bin/sh\necho "dist $*"\n'
# It counts how often it is called, and gives a program that prints the code that it was made from.
RT = """#!/bin/sh
echo called >>"$CALLS"
sleep 0.2
eval "$WHILE_PROVING"
mkdir -p crates/dcx/out
{ printf '#!/bin/sh\\necho "built '; cat crates/low/src/lib.rt | tr -d '\\n'; echo ' $*"'; } >crates/dcx/out/dcx
chmod +x crates/dcx/out/dcx
echo 'rt: dcx proved'
"""


def write(path, text, mode=None):
    os.makedirs(os.path.dirname(path), exist_ok=True)
    with open(path, "w", encoding="utf-8") as file:
        file.write(text)
    if mode:
        os.chmod(path, mode)


class Checkout:
    """A checkout whose path has a blank, with two crates below `dcx` and one that it doesn't stand on."""

    def __init__(self, room, name):
        self.top = os.path.join(room, name)
        self.calls = os.path.join(room, name + " calls")
        shutil.copytree(os.path.join(TOP, "tools"), self.at("tools"), ignore=shutil.ignore_patterns("tests", "__pycache__"))
        shutil.copy(os.path.join(TOP, "dcx"), self.at("dcx"))
        write(self.at("HANDLES"), "Handles allowed: none.\n")
        write(self.at("crates.txt"), "low:\ndcx: low\nother:\n")
        for crate, file in (("low", "src/lib.rt"), ("dcx", "src/main.rt"), ("other", "src/lib.rt")):
            write(self.at("crates", crate, file), f"code of {crate}\n")
        write(self.at("crates/low/specs/Lib.antt"), "definition\n")
        write(self.at("crates/low/proofs/f/Answers.antt"), "proof\n")
        write(self.at("crates/low/data/table.txt"), "1\n")
        write(self.at("elsewhere.rt"), "code elsewhere\n")
        write(self.at("outside/inner.rt"), "inner\n")
        link(self.at("crates/low/src/linked.rt"), "../../../elsewhere.rt")
        link(self.at("crates/low/src/folder"), "../../../outside")
        self.give_program(PROGRAM)

    def at(self, *names):
        return os.path.join(self.top, *names)

    def give_program(self, text):
        write(self.at("dist/dcx"), text, 0o755)
        write(self.at("dist/dcx.sources"), self.run(self.at("tools/sources")).stdout)
        write(self.at("dist/dcx.sha256"), subprocess.run(["sha256sum", "dcx"], cwd=self.at("dist"), capture_output=True, text=True, check=True).stdout)

    def environment(self, **more):
        return {"PATH": os.environ["PATH"], "CALLS": self.calls, "WHILE_PROVING": "", **more}

    def run(self, *words, **more):
        options = {key: more.pop(key) for key in ("cwd", "user", "preexec_fn") if key in more}
        return subprocess.run(words, capture_output=True, text=True, env=self.environment(**more), stdin=subprocess.DEVNULL, timeout=60, **options)

    def dcx(self, *words, **more):
        return self.run(self.at("dcx"), *words, **more)

    def count_proofs(self):
        try:
            with open(self.calls, encoding="utf-8") as file:
                return len(file.readlines())
        except FileNotFoundError:
            return 0


def put(path, text):
    """Writes a file anew in place, of the same size where the text is, and with the times that it had."""
    seen = os.stat(path)
    with open(path, "r+", encoding="utf-8") as file:
        file.truncate()
        file.write(text)
    os.utime(path, ns=(seen.st_atime_ns, seen.st_mtime_ns))


def restore(path, text):
    """Puts another file in the place of one, with the times that it had."""
    seen = os.stat(path)
    write(path + ".new", text)
    os.utime(path + ".new", ns=(seen.st_atime_ns, seen.st_mtime_ns))
    os.replace(path + ".new", path)


def link(path, to):
    if os.path.lexists(path):
        os.remove(path)
    os.symlink(to, path)


# What is done to a checkout whose program was seen to be that of its sources. After each of them that program must not run.
CHANGES = {
    "code rewritten in place with its size and times": lambda it: put(it.at("crates/low/src/lib.rt"), "code of LOW\n"),
    "code restored with its size and times": lambda it: restore(it.at("crates/low/src/lib.rt"), "code of LOW\n"),
    "a definition": lambda it: put(it.at("crates/low/specs/Lib.antt"), "Definition\n"),
    "a proof": lambda it: put(it.at("crates/low/proofs/f/Answers.antt"), "Proof\n"),
    "a file more": lambda it: write(it.at("crates/dcx/src/more.rt"), ""),
    "a file more, with a blank in its name": lambda it: write(it.at("crates/dcx/src/a b.rt"), ""),
    "a folder more": lambda it: write(it.at("crates/dcx/specs/Lib.antt"), ""),
    "a folder more, of a proof": lambda it: write(it.at("crates/low/proofs/g/Proof.antt"), ""),
    "a file less": lambda it: os.remove(it.at("crates/low/proofs/f/Answers.antt")),
    "another name": lambda it: os.rename(it.at("crates/low/specs/Lib.antt"), it.at("crates/low/specs/Lab.antt")),
    "a link more": lambda it: link(it.at("crates/dcx/src/more.rt"), "main.rt"),
    "a link in place of a file": lambda it: link(it.at("crates/low/src/lib.rt"), "../../other/src/lib.rt"),
    "what a link leads to": lambda it: put(it.at("elsewhere.rt"), "CODE elsewhere\n"),
    "a link that leads elsewhere": lambda it: link(it.at("crates/low/src/linked.rt"), "lib.rt"),
    "a link that leads nowhere": lambda it: link(it.at("crates/low/src/linked.rt"), "nowhere.rt"),
    "a file in a folder behind a link": lambda it: put(it.at("outside/inner.rt"), "INNER\n"),
    "a file more in a folder behind a link": lambda it: write(it.at("outside/more.rt"), ""),
    "HANDLES": lambda it: put(it.at("HANDLES"), "Handles allowed: Wait\n"),
    "the edges": lambda it: put(it.at("crates.txt"), "low:\ndcx: low other\nother:\n"),
    "no crates": lambda it: put(it.at("crates.txt"), ""),
    "a program that isn't the one that was made": lambda it: put(it.at("dist/dcx"), PROGRAM.replace("dist", "Dist")),
    "a program of other sources": lambda it: put(it.at("dist/dcx.sources"), "0" * 64 + "\n"),
    "a checksum that is empty": lambda it: write(it.at("tools/sources"), "#!/bin/sh\n"),
    "a checksum that can't be had": lambda it: write(it.at("tools/sources"), "#!/bin/sh\nexit 1\n"),
}


class Launcher(unittest.TestCase):
    @classmethod
    def setUpClass(cls):
        cls.room = tempfile.mkdtemp()
        os.chmod(cls.room, 0o755)
        cls.tools = os.path.join(cls.room, "tools")
        for tool in TOOLS + OTHERS:
            link(os.path.join(cls.make_folder("tools"), tool), shutil.which(tool))
        write(os.path.join(cls.make_folder("kit"), "rt"), RT, 0o755)
        cls.kit = os.path.join(cls.room, "kit")
        names = ["main", "other", "moved", *CHANGES]
        with ThreadPoolExecutor() as pool:
            cls.checkouts = dict(zip(names, pool.map(lambda name: Checkout(cls.room, "a checkout, " + name), names)))
        # (only what was changed more than two seconds ago gives a stamp)
        time.sleep(2.1)

    @classmethod
    def tearDownClass(cls):
        shutil.rmtree(cls.room)

    @classmethod
    def make_folder(cls, name):
        path = os.path.join(cls.room, name)
        os.makedirs(path, exist_ok=True)
        return path

    def new(self):
        return Checkout(self.room, f"a checkout, {self.id().rsplit('.', maxsplit=1)[-1]}")

    def assert_runs(self, run, out):
        self.assertEqual((run.stdout, run.stderr, run.returncode), (out, "", 0))

    def assert_refused(self, run, *told):
        self.assertEqual((run.stdout, run.returncode), ("", 70), run.stderr)
        for words in told:
            self.assertIn(words, run.stderr)

    def test_stamp(self):
        it = self.checkouts["main"]
        self.assert_runs(it.dcx("solve", "a b"), "dist solve a b\n")
        self.assertTrue(os.path.exists(it.at("out/seen")))
        # Where the stamp holds, nothing is read anew: the tool that would be needed isn't there.
        without = self.path_without("sha256sum")
        self.assert_runs(it.dcx("check", PATH=without), "dist check\n")
        self.assert_runs(it.run(it.at("tools/program")), it.at("dist/dcx") + "\n")
        # What is no source changes nothing.
        put(it.at("crates/low/data/table.txt"), "2\n")
        write(it.at("crates/other/src/more.rt"), "")
        write(it.at("crates/low/out/kept.rt"), "")
        self.assert_runs(it.dcx("check", PATH=self.path_without("rt")), "dist check\n")
        # A stamp that was cut off holds nothing.
        for name in os.listdir(it.at("out")):
            if name.startswith("seen."):
                for part in os.listdir(it.at("out", name)):
                    os.truncate(it.at("out", name, part), 0)
        self.assert_refused(it.dcx("check", PATH=without), "sha256sum is not on the path")

    def test_changes(self):
        path = self.path_without("rt")

        def both(name):
            it = self.checkouts[name]
            before = it.dcx("x"), os.path.exists(it.at("out/seen"))
            CHANGES[name](it)
            return before, it.dcx("x", PATH=path)

        with ThreadPoolExecutor() as pool:
            for name, ((before, is_seen), after) in zip(CHANGES, pool.map(both, CHANGES)):
                with self.subTest(name):
                    self.assert_runs(before, "dist x\n")
                    self.assertTrue(is_seen)
                    self.assert_refused(after)

    def test_build(self):
        it = self.checkouts["other"]
        path = f"{self.kit}:{os.environ['PATH']}"
        self.assert_runs(it.dcx("x"), "dist x\n")
        put(it.at("crates/low/src/lib.rt"), "code of LOW\n")
        runs = [subprocess.Popen([it.at("dcx"), "x"], env=it.environment(PATH=path), stdout=subprocess.PIPE, stderr=subprocess.PIPE, text=True) for _ in range(3)]
        for run in runs:
            out, told = run.communicate(timeout=60)
            self.assertEqual((out, run.returncode), ("built code of LOW x\n", 0), told)
            self.assertIn("dcx: proving 2 crates", told)
        self.assertEqual(it.count_proofs(), 3)
        self.assert_runs(it.dcx("x", PATH=path), "built code of LOW x\n")
        # Sources as they were before have their program still, and so have these.
        put(it.at("crates/low/src/lib.rt"), "code of low\n")
        self.assert_runs(it.dcx("x", PATH=path), "dist x\n")
        put(it.at("crates/low/src/lib.rt"), "code of LOW\n")
        self.assert_runs(it.dcx("x", PATH=path), "built code of LOW x\n")
        self.assertEqual(it.count_proofs(), 3)
        # A program is kept for the sources that it was made from, whatever they are by then.
        put(it.at("crates/low/src/lib.rt"), "CODE OF LOW\n")
        self.assert_refused(it.dcx("x", PATH=path, WHILE_PROVING=f"echo changed >'{it.at('crates/low/src/lib.rt')}'"), "were changed while they were proved")
        put(it.at("crates/low/src/lib.rt"), "CODE OF LOW\n")
        self.assert_runs(it.dcx("x", PATH=path), "built CODE OF LOW x\n")
        self.assertEqual(it.count_proofs(), 4)

    def test_calls_at_once(self):
        it = self.new()
        runs = [subprocess.Popen([it.at("dcx"), str(number)], env=it.environment(), stdout=subprocess.PIPE, stderr=subprocess.STDOUT, text=True) for number in range(6)]
        for number, run in enumerate(runs):
            self.assertEqual((run.communicate(timeout=60)[0], run.returncode), (f"dist {number}\n", 0))

    def test_moved(self):
        it = self.checkouts["moved"]
        self.assert_runs(it.dcx("x"), "dist x\n")
        os.rename(it.top, it.top + " elsewhere")
        it.top += " elsewhere"
        self.assert_runs(it.dcx("x", PATH=self.path_without("sha256sum")), "dist x\n")

    def test_links(self):
        it = self.new()
        folder = self.make_folder("some where")
        link(os.path.join(folder, "first"), it.at("dcx"))
        link(os.path.join(folder, "second"), "first")
        link(os.path.join(folder, "top"), it.top)
        self.assert_runs(it.run(os.path.join(folder, "second"), "x"), "dist x\n")
        self.assert_runs(it.run(os.path.join(folder, "top", "dcx"), "x"), "dist x\n")
        self.assert_runs(it.run("./second", "x", cwd=folder), "dist x\n")
        self.assert_runs(it.run("bash", "second", "x", cwd=folder), "dist x\n")
        self.assert_runs(it.run("bash", "dcx", "x", cwd=it.top), "dist x\n")
        self.assert_runs(it.run("env", "second", "x", PATH=f"{folder}:{os.environ['PATH']}"), "dist x\n")
        self.assert_runs(it.run("tools/program", cwd=it.top, CDPATH=folder), it.at("dist/dcx") + "\n")

    def test_checkout_that_cannot_be_written(self):
        it = self.new()
        if os.getuid() == 0:
            options = {"user": 65534}
        else:
            options = {}
            for folder, _, _ in os.walk(it.top):
                os.chmod(folder, stat.S_IRUSR | stat.S_IXUSR)
        self.assert_runs(it.dcx("x", **options), "dist x\n")
        self.assertFalse(os.path.exists(it.at("out")))
        write_as_owner(it.at("crates/low/src/lib.rt"), "code of LOW\n")
        self.assert_refused(it.dcx("x", PATH=f"{self.kit}:{os.environ['PATH']}", **options), "out can't be written")
        self.assertEqual(it.count_proofs(), 0)
        for folder, _, _ in os.walk(it.top):
            os.chmod(folder, 0o755)

    def path_without(self, *missing):
        folder = self.make_folder("without " + " ".join(missing))
        for tool in TOOLS + OTHERS:
            if tool not in missing:
                link(os.path.join(folder, tool), os.path.join(self.tools, tool))
        return folder

    def test_missing_tools(self):
        it = self.new()
        for tool in TOOLS:
            with self.subTest(tool):
                path = self.path_without(tool)
                self.assert_refused(it.dcx("x", PATH=f"{path}:{self.kit}"), f"the command {tool} is not on the path")
                self.assert_refused(it.run(it.at("tools/sources"), PATH=path), f"the command {tool} is not on the path")
        self.assertEqual(it.count_proofs(), 0)
        # What is wanted for a stamp alone may be missing.
        self.assert_runs(it.dcx("x", PATH=self.path_without("cat", "mktemp", "split", "stat", "cmp")), "dist x\n")

    def test_words_that_are_none(self):
        """A script that doesn't know its words tells which it takes, and proves and writes nothing."""
        it = self.new()
        for words in (["build", "--help"], ["test", "--help"], ["program", "x"], ["sources", "--help"], ["copies", "--help"], ["pages", "--help"], ["below"]):
            with self.subTest(words[0]):
                run = it.run(it.at("tools", words[0]), *words[1:], PATH=f"{self.kit}:{os.environ['PATH']}")
                self.assertEqual((run.returncode, run.stdout), (2, ""))
                self.assertEqual(run.stderr.split()[:2], ["usage:", f"tools/{words[0]}"])
        run = it.run(it.at("tools/below"), "nowhere")
        self.assertEqual((run.returncode, run.stdout, run.stderr), (1, "", "dcx: crates.txt has no crate nowhere\n"))
        self.assertEqual(it.count_proofs(), 0)

    def test_memory(self):
        it = self.new()
        write(it.at("dist/dcx"), '#!/bin/sh\nulimit -v\n', 0o755)
        it.give_program('#!/bin/sh\nulimit -v\n')
        self.assert_runs(it.dcx(), "4194304\n")
        self.assert_runs(it.dcx(DCX_MEMORY="0800"), "819200\n")
        for few in ("0", "1", "2", "3", "7"):
            self.assert_refused(it.dcx(DCX_MEMORY=few), f"DCX_MEMORY is 8 MiB at least, and not {few}")
        for odd in ("x", "-1", "1.5", "12345678901"):
            self.assert_refused(it.dcx(DCX_MEMORY=odd), "DCX_MEMORY is a number of MiB")
        self.assert_runs(it.run("bash", "-c", 'ulimit -v 3000000; exec "$0"', it.at("dcx")), "3000000\n")
        self.assert_runs(it.run("bash", "-c", 'ulimit -v 3000000; exec "$0"', it.at("dcx"), DCX_MEMORY="999999999"), "3000000\n")

    def test_output_that_does_not_block(self):
        it = self.new()
        it.give_program("#!/bin/sh\nhead -c 1000000 /dev/zero\n")
        read, write_ = os.pipe()
        ends = {"a pipe": (read, write_), "a socket": tuple(end.detach() for end in socket.socketpair()), "a terminal": os.openpty()}
        for name, (read, write_) in ends.items():
            with self.subTest(name):
                os.set_blocking(write_, False)
                run = subprocess.Popen([it.at("dcx")], env=it.environment(), stdout=write_, stderr=subprocess.PIPE)
                time.sleep(0.5)
                os.close(write_)
                count = 0
                try:
                    while some := os.read(read, 1 << 16):
                        count += len(some)
                except OSError:
                    pass
                os.close(read)
                self.assertEqual((count, run.stderr.read(), run.wait(timeout=60)), (1000000, b"", 0))
                run.stderr.close()


def write_as_owner(path, text):
    """Writes a file in a folder that can't be written to."""
    os.chmod(path, 0o644)
    with open(path, "r+", encoding="utf-8") as file:
        file.write(text)


if __name__ == "__main__":
    unittest.main()
