"""The program is found and run, within its memory, and nothing is left behind."""

from __future__ import annotations

import hashlib
import os
import shutil
import signal
import subprocess
import sys
import tempfile
import threading
import time
import unittest
from pathlib import Path
from unittest import mock

from dcx import program
from dcx.program import ProgramError, TimedOut

ROOT = Path(__file__).resolve().parents[2]
SCRIPT = "import cvxpy as cp\np = cp.Parameter()\nx = cp.Variable()\nprob = cp.Problem(cp.Minimize(x), [2*x >= p])\n"
# needs some tens of MiB
LARGE = """import cvxpy as cp
x = cp.Variable(120)
prob = cp.Problem(cp.Minimize(cp.norm1(x)), [x >= 1, cp.cumsum(x) <= 240])
"""


def setUpModule():
    """Programs that are started here may be interrupted, also where this process was started by one that may not."""
    before = signal.signal(signal.SIGINT, signal.default_int_handler)
    unittest.addModuleCleanup(signal.signal, signal.SIGINT, before or signal.SIG_DFL)


class Folder(unittest.TestCase):
    """A folder for programs that are no dcx, as the variable DCX may name them."""

    def setUp(self):
        self.folder = Path(tempfile.mkdtemp())
        self.addCleanup(shutil.rmtree, self.folder)
        # the lines of a shell by which it tells its number, in a file that is there at once
        self.told = f"echo $$ > {self.folder}/new; mv {self.folder}/new {self.folder}/pid"

    def shell(self, body, name="other", mode=0o755):
        path = self.folder / name
        path.write_text(f"#!/bin/sh\n{body}\n")
        path.chmod(mode)
        return mock.patch.dict(os.environ, DCX=str(path))


class Running(Folder):
    def test_a_report_and_its_status(self):
        run = program.run("resolve", SCRIPT, "p = 1\np = 3/7\n")
        self.assertEqual((run.word, run.status), ("resolve", 0))
        self.assertEqual(run.report.splitlines()[1::4][:2], [b"value 1/2", b"value 3/14"])
        self.assertEqual(program.run("resolve", SCRIPT.encode(), b"q = 1\n").status, 6)
        self.assertEqual(program.run("check", "x = $").status, 1)
        self.assertEqual(program.run("check").status, 2)

    def test_options_stand_behind_the_files(self):
        run = program.run("range", SCRIPT, "p = 1", options=["p"])
        self.assertIn(b"range p from 0 to none value 0 slope 1/2", run.report)
        run = program.run("resolve", SCRIPT, "p = 1\np = 2", options=["--warm", "--max-pivots=9"])
        self.assertTrue(run.report.endswith(b"warm 1\n"))

    def test_large_files_come_whole(self):
        comment = "#" + "é" * 400_000 + "\n"
        self.assertEqual(program.run("check", comment + SCRIPT).status, 0)
        self.assertIn(b"8 TooLong", program.run("check", comment * 2 + SCRIPT).report)
        settings = "".join(f"p = {number}\n" for number in range(1000))
        self.assertTrue(program.run("resolve", SCRIPT, settings).report.endswith(b"answered 1000 stopped 0\n"))

    def test_many_at_once(self):
        found = {}

        def ask(number):
            found[number] = program.run("resolve", SCRIPT, f"p = {number}\n").report

        threads = [threading.Thread(target=ask, args=(number,)) for number in range(24)]
        for thread in threads:
            thread.start()
        for thread in threads:
            thread.join()
        for number in range(24):
            self.assertIn(f"var x () = {program_half(number)}\n".encode(), found[number])


class Memory(Folder):
    def test_the_limit_is_that_of_the_variable(self):
        with mock.patch.dict(os.environ, DCX_MEMORY="8"):
            run = program.run("solve", LARGE)
        self.assertEqual((run.status, run.report.split()[2:5]), (5, [b"stopped", b"31", b"Memory"]))
        with mock.patch.dict(os.environ, DCX_MEMORY="1024"):
            self.assertIn(b"value 120\n", program.run("solve", LARGE).report)

    def test_the_limit_that_a_program_sees(self):
        for said, told in (({"DCX_MEMORY": "12"}, 12 * 1024), ({}, 4096 * 1024)):
            with self.shell(limit_of_memory(told)):
                with mock.patch.dict(os.environ, said):
                    if not said:
                        os.environ.pop("DCX_MEMORY", None)
                    self.assertEqual(program.run("check").report, f"usage: {told}\n".encode())

    def test_a_hard_limit_that_is_less_holds(self):
        code = (
            "import resource, sys; resource.setrlimit(resource.RLIMIT_AS, (2000 << 20, 2000 << 20));"
            "from dcx import program; sys.stdout.buffer.write(program.run('check').report)"
        )
        with self.shell(limit_of_memory(2000 * 1024)):
            self.assertEqual(python(code).stdout, f"usage: {2000 * 1024}\n")

    def test_what_is_no_number(self):
        for said in ("", "4 GB", "-1", "12345678901", "²"):
            with mock.patch.dict(os.environ, DCX_MEMORY=said):
                with self.assertRaisesRegex(ProgramError, "DCX_MEMORY .* is a number of MiB"):
                    program.run("check", SCRIPT)


class Faults(Folder):
    def test_a_program_that_is_not_there(self):
        for name in ("/nowhere/dcx", "no-such-word"):
            with mock.patch.dict(os.environ, DCX=name):
                with self.assertRaisesRegex(ProgramError, f"DCX .* '{name}'.* no such program"):
                    program.run("check", SCRIPT)

    def test_a_program_on_the_path(self):
        with self.shell("echo usage: me", "some-dcx"):
            with mock.patch.dict(os.environ, DCX="some-dcx", PATH=f"{self.folder}:{os.environ['PATH']}"):
                self.assertEqual(program.run("check").report, b"usage: me\n")

    def test_a_program_that_may_not_be_run(self):
        with self.shell("exit 0", mode=0o644), self.assertRaisesRegex(ProgramError, "may not be run; `chmod"):
            program.run("check", SCRIPT)

    def test_a_program_without_its_interpreter(self):
        path = self.folder / "lost"
        path.write_text("#!/no/such/interpreter\n")
        path.chmod(0o755)
        with mock.patch.dict(os.environ, DCX=str(path)):
            with self.assertRaisesRegex(ProgramError, "isn't there, or what it is run by"):
                program.run("check", SCRIPT)

    def test_what_is_no_program(self):
        path = self.folder / "text"
        path.write_bytes(b"\x7fELF but no more")
        path.chmod(0o755)
        with mock.patch.dict(os.environ, DCX=str(path)), self.assertRaisesRegex(ProgramError, "can't be run: "):
            program.run("check", SCRIPT)

    def test_signals(self):
        killed = "SIGKILL.*for want of memory.*DCX_MEMORY"
        for name, told in (("KILL", killed), ("SEGV", "ended by SIGSEGV"), ("INT", "was interrupted")):
            with self.shell(f"kill -{name} $$; sleep 5"), self.assertRaisesRegex(ProgramError, told):
                program.run("check", SCRIPT)

    def test_what_is_no_report(self):
        with self.shell("echo lost >&2; exit 3"):
            with self.assertRaisesRegex(ProgramError, "ended with status 3 and without a report of dcx: lost"):
                program.run("check", SCRIPT)
        with self.shell("exit 0"), self.assertRaisesRegex(ProgramError, "nothing was said"):
            program.run("check", SCRIPT)

    def test_too_long(self):
        start = time.monotonic()
        with self.shell(f"echo $$ > {self.folder}/pid; exec sleep 60"):
            with self.assertRaisesRegex(TimedOut, "no answer after 0.5 s"):
                program.run("check", SCRIPT, timeout=0.5)
        self.assertLess(time.monotonic() - start, 20)
        self.assertFalse(is_running(int((self.folder / "pid").read_text())))

    def test_an_interrupt_ends_the_program_too(self):
        code = "from dcx import program; program.run('check', 'x = 1')"
        with self.shell(f"trap '' INT; {self.told}; while :; do sleep 0.1; done"):
            process = subprocess.Popen([sys.executable, "-c", code], stderr=subprocess.PIPE, env=environment())
            wait_for((self.folder / "pid").exists)
            process.send_signal(signal.SIGINT)
            _, said = process.communicate(timeout=60)
        self.assertIn(b"KeyboardInterrupt", said)
        self.assertFalse(is_running(int((self.folder / "pid").read_text())))

    def test_an_interrupt_while_it_is_started_ends_it(self):
        def interrupted(*_):
            # (what the start of a process reads last, when the process runs already)
            wait_for((self.folder / "pid").exists)
            raise KeyboardInterrupt

        with self.shell(f"{self.told}; exec sleep 60"), mock.patch("os.read", interrupted):
            with self.assertRaises(KeyboardInterrupt):
                program.run("check", SCRIPT)
        self.assertFalse(is_running(int((self.folder / "pid").read_text())))


class Leftovers(Folder):
    def test_nothing_is_left(self):
        """No file in the folder for temporary ones while the program runs or behind it, and no open file behind it."""
        temporary = self.folder / "temporary"
        temporary.mkdir()
        code = (
            "import os\nfrom dcx import program\n"
            "program.run('check', 'x = 1')\n"
            "before = os.listdir('/dev/fd')\n"
            "for word in ('check', 'solve', 'nonsense'): program.run(word, 'x = 1')\n"
            f"assert os.listdir('/dev/fd') == before\nassert os.listdir({str(temporary)!r}) == []\n"
        )
        done = python(code, TMPDIR=str(temporary))
        self.assertEqual((done.returncode, done.stderr), (0, ""))

    def test_streams_that_are_closed(self):
        """A file doesn't take the number of a stream, which the program has again: it would read what it writes."""
        code = (
            "import os\nfrom dcx import program\n"
            "for number in (0, 1, 2): os.close(number)\n"
            "done = program.run('resolve', 'x = 1', 'y = 2', timeout=30)\n"
            "os._exit(20 if done.report == b'refused script 16 NoProblem at 1:1\\n' else 21)\n"
        )
        self.assertEqual(python(code).returncode, 20)

    def test_nothing_is_left_by_python_that_is_killed(self):
        temporary = self.folder / "temporary"
        temporary.mkdir()
        code = "from dcx import program; program.run('check', 'x = 1')"
        with self.shell(f"{self.told}; exec sleep 60"):
            process = subprocess.Popen([sys.executable, "-c", code], env=environment(TMPDIR=str(temporary)))
            wait_for((self.folder / "pid").exists)
            process.kill()
            process.wait()
        os.kill(int((self.folder / "pid").read_text()), signal.SIGKILL)
        self.assertEqual(os.listdir(temporary), [])


class Finding(Folder):
    """The package in folders of its own: in a checkout, and with a program in itself."""

    def setUp(self):
        super().setUp()
        self.package = self.folder / "python"
        left_out = shutil.ignore_patterns("__pycache__", "bin")
        shutil.copytree(ROOT / "python" / "dcx", self.package / "dcx", ignore=left_out)
        self.body = "#!/bin/sh\necho usage: checkout\n"

    def ask(self, code="print(program.find(), program.run('check').report.decode(), end='')"):
        with mock.patch.dict(os.environ):
            os.environ.pop("DCX", None)
            return python(f"from dcx import program\n{code}", PYTHONPATH=str(self.package), TMPDIR=str(self.folder))

    def put(self, folder, body):
        folder.mkdir(parents=True)
        (folder / "dcx").write_text(body)
        (folder / "dcx").chmod(0o755)
        return folder / "dcx"

    def state(self, path, body):
        """Writes the checksum of a program beside it."""
        path.with_name("dcx.sha256").write_text(f"{hashlib.sha256(body.encode()).hexdigest()}  dcx\n")

    def test_none(self):
        done = self.ask()
        self.assertIn("the program dcx isn't found", done.stderr)
        self.assertIn(f"{self.folder}/dist/dcx", done.stderr)

    def test_that_of_the_checkout_has_its_checksum(self):
        path = self.put(self.folder / "dist", self.body)
        self.state(path, self.body)
        self.assertEqual(self.ask().stdout, f"{path} usage: checkout\n")
        path.write_text(self.body + "# changed\n")
        done = self.ask()
        self.assertEqual(done.stdout, "")
        self.assertIn("isn't the program that was made", done.stderr)

    def test_that_of_the_package_comes_first(self):
        self.put(self.folder / "dist", self.body)
        path = self.put(self.package / "dcx" / "bin", "#!/bin/sh\necho usage: package\n")
        self.assertEqual(self.ask().stdout, f"{path} usage: package\n")

    def test_a_call_does_little_beside_the_process(self):
        """As Python's own audit tells: one process, no import, and no file but those that are handed over; the
        program itself is read by the first call alone, for its checksum."""
        path = self.put(self.folder / "dist", self.body)
        self.state(path, self.body)
        done = self.ask(
            "import sys\nseen = []\nsys.addaudithook(lambda event, args: seen.append((event, *args[:1])))\n"
            "def call():\n    seen.clear()\n    program.run('check', 'x = 1')\n"
            "    return [(event, *what) for event, *what in seen if what and type(what[0]) is str]\n"
            f"print(('open', {str(path)!r}) in call())\nsecond = call()\nprint(sorted(set(second)))\n"
            "print([what for event, what in second].count(program.find()))\n"
        )
        known = [("open", "/dev/null"), ("open", str(self.folder)), ("subprocess.Popen", str(path))]
        self.assertEqual((done.stdout, done.stderr), (f"True\n{known}\n1\n", ""))


def limit_of_memory(awaited):
    """The lines of a shell that tells its limit of memory in KiB. It is set behind the start of a process, so this one
    waits for it, 20 seconds at the most."""
    now = "$(ulimit -S -v)"
    return f'for _ in $(seq 400); do [ "{now}" = {awaited} ] && break; sleep 0.05; done; echo usage: {now}'


def program_half(number):
    """Half of a whole number as a report prints it."""
    return str(number // 2) if number % 2 == 0 else f"{number}/2"


def environment(**more):
    return {**os.environ, "PYTHONPATH": str(ROOT / "python"), **more}


def python(code, **more):
    words = [sys.executable, "-c", code]
    # in a folder from which no package is imported
    return subprocess.run(words, capture_output=True, text=True, env=environment(**more), cwd="/")


def is_running(pid):
    try:
        os.kill(pid, 0)
    except ProcessLookupError:
        return False
    return Path(f"/proc/{pid}/stat").read_text().rsplit(")", 1)[1].split()[0] != "Z"


def wait_for(condition):
    end = time.monotonic() + 60
    while not condition():
        if time.monotonic() > end:
            raise AssertionError("it didn't come about within a minute")
        time.sleep(0.02)


if __name__ == "__main__":
    unittest.main()
