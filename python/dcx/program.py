"""Finds the program `dcx` and runs it: words and files go in, a status and a report come out.

The program is the proved part. It reads files and writes a report to its standard output, and this module adds
nothing to either. Files are handed over as open files without a name, so that nothing is left behind, however Python
ends.
"""

from __future__ import annotations

import fcntl
import hashlib
import os
import shutil
import signal
import subprocess
import tempfile
from contextlib import ExitStack
from pathlib import Path
from typing import Any, NamedTuple, Optional, Sequence, Union

from .errors import DCXError

try:
    import resource
except ImportError:  # a system without limits of this kind
    resource = None

__all__ = ["Process", "ProgramError", "Run", "TimedOut", "find", "limit_memory", "patience", "run"]

_MEMORY = 4096  # MiB, where DCX_MEMORY says nothing
_LONGEST = 1_000_000  # seconds: more than this some systems don't count in a wait
_seen: dict[str, tuple[int, int]] = {}  # programs whose checksum was right: size and time of change


class ProgramError(DCXError):
    """The program can't be found or started, or it ended in a way that is no report: by a signal, or after too long a
    time."""


class TimedOut(ProgramError):
    """The program was ended, since it took longer than it was given."""


class Run(NamedTuple):
    """One run of the program: its word, its exit status (docs/FORMATS.md, "Status") and the bytes of its report."""

    word: str
    status: int
    report: bytes


class Process(subprocess.Popen):
    """A process that ends with the `with` around it, and where its start is interrupted. Its arguments and errors are
    those of `subprocess.Popen`."""

    def __init__(self, words: Sequence[str], **how: Any) -> None:
        try:
            super().__init__(words, **how)
        except BaseException:
            # An interrupt may come when it runs already; one that couldn't be started has ended.
            if getattr(self, "pid", None) is not None and self.returncode is None:
                self.kill()
                self.wait()
            raise

    def __exit__(self, *_: Any) -> None:
        if self.poll() is None:
            self.kill()
        self.wait()
        for pipe in filter(None, (self.stdin, self.stdout, self.stderr)):
            pipe.close()


def find() -> str:
    """The path of the program: what the variable `DCX` of the environment names, else the package's own, else that of
    the checkout.

    Where a file `dcx.sha256` lies beside the package's own program or that of the checkout, the program's checksum
    has to be the one that it states; that is looked at once a process. Raises `ProgramError` where there is no
    program, or another one than was made.
    """
    named = os.environ.get("DCX")
    if named:
        path = shutil.which(named) if os.sep not in named else named
        if path is None or not os.path.exists(path):
            raise ProgramError(f"the variable DCX of the environment names {named!r}, and there is no such program")
        return path
    folder = Path(__file__).resolve().parent
    places = [folder / "bin" / "dcx", folder.parent.parent / "dist" / "dcx"]
    for place in places:
        if place.exists():
            _compare(place)
            return str(place)
    raise ProgramError(
        "the program dcx isn't found: it is neither "
        + " nor ".join(map(str, places))
        + "; set the variable DCX of the environment to its path"
    )


def _compare(program: Path) -> None:
    """Raises `ProgramError` where a checksum lies beside the program and is another one than the program's."""
    stated = program.with_name(program.name + ".sha256")
    now = program.stat()
    if _seen.get(str(program)) == (now.st_size, now.st_mtime_ns) or not stated.exists():
        return
    words = stated.read_text().split()
    if not words or hashlib.sha256(program.read_bytes()).hexdigest() != words[0]:
        raise ProgramError(f"{program} isn't the program that was made: {stated} states another checksum")
    _seen[str(program)] = (now.st_size, now.st_mtime_ns)


def run(
    word: str,
    *contents: Union[bytes, str],
    options: Sequence[str] = (),
    timeout: Optional[float] = None,
) -> Run:
    """Runs the program with this word over these files.

    `contents` are the files' contents, in the order of the word's operands (text is written as UTF-8). `options`
    stand behind them: the name of a parameter, `--warm`, `--max-pivots=N`. `timeout` is in seconds; without it, or
    above a million, the program takes its time.

    The program may use as many MiB of memory as the variable `DCX_MEMORY` says, 4096 where it says nothing, and never
    more than the hard limit of the process; where that is too little it says `want of memory` or stops a setting.

    Raises `ProgramError` where the program isn't found, can't be started, is ended by a signal or by `timeout`, or
    says something else than a report. A refusal or a stop is a report, and no error here. Where Python itself is
    interrupted, so is the program.
    """
    program = find()
    limit = _memory()
    with ExitStack() as files:
        paths, numbers = [], []
        for content in contents:
            file = files.enter_context(_nameless())
            _write(file, content.encode() if isinstance(content, str) else content)
            numbers.append(file.fileno())
            paths.append(f"/dev/fd/{file.fileno()}")
        try:
            process = Process(
                [program, word, *paths, *options],
                stdin=subprocess.DEVNULL,
                stdout=subprocess.PIPE,
                stderr=subprocess.PIPE,
                pass_fds=numbers,
                restore_signals=False,  # a write that fails is told by its status, and ends nothing by a signal
            )
        except FileNotFoundError:
            reason = f"{program} isn't there, or what it is run by isn't (a loader, an interpreter)"
            raise ProgramError(reason) from None
        except PermissionError:
            raise ProgramError(f"{program} may not be run; `chmod +x {program}` lets it be") from None
        except OSError as error:
            raise ProgramError(f"{program} can't be run: {error.strerror or error}") from error
        with process:
            _limit(process.pid, limit)
            try:
                report, said = process.communicate(timeout=patience(timeout))
            except subprocess.TimeoutExpired:
                reason = f"the program had no answer after {timeout:g} s, and was ended (word {word!r})"
                raise TimedOut(reason) from None
    status = process.returncode
    if status < 0:
        raise ProgramError(_ended(word, -status, limit))
    if said or status > 7 or not report:
        text = said.decode(errors="replace").strip() or "nothing was said"
        raise ProgramError(f"{program} ended with status {status} and without a report of dcx: {text}")
    return Run(word, status, report)


def patience(seconds: Optional[float]) -> Optional[float]:
    """How long a process is waited for: as long as it takes where there is no limit, or one of more than a million
    seconds."""
    return seconds if seconds is None or seconds <= _LONGEST else None


def _nameless():
    """A new open file without a name. Its number isn't that of a standard stream, which is free where a stream is
    closed: in the program that number is the stream's again."""
    file = tempfile.TemporaryFile(buffering=0)
    if file.fileno() > 2:
        return file
    with file:
        return open(fcntl.fcntl(file.fileno(), fcntl.F_DUPFD_CLOEXEC, 3), "r+b", buffering=0)


def _write(file, content: bytes) -> None:
    """Writes all bytes of a file, which is then at its beginning."""
    rest = memoryview(content)
    while rest:
        rest = rest[file.write(rest) :]
    file.seek(0)


def _memory() -> int:
    """How many bytes of memory the program may use."""
    text = os.environ.get("DCX_MEMORY", str(_MEMORY))
    if not (text.isascii() and text.isdigit() and len(text) <= 9):
        raise ProgramError(f"the variable DCX_MEMORY of the environment is a number of MiB, and not {text!r}")
    return int(text) << 20


def limit_memory(pid: int) -> None:
    """Sets the limit on the memory of a process that works for the package, or is to be the program: the one that the
    program has. Raises `ProgramError` where the variable `DCX_MEMORY` is no number."""
    _limit(pid, _memory())


def _limit(pid: int, memory: int) -> None:
    """Sets the limit on the memory of a program that was started, as far as the system lets one be set."""
    if not hasattr(resource, "prlimit"):
        return
    try:
        _, hard = resource.prlimit(pid, resource.RLIMIT_AS)
        soft = memory if hard == resource.RLIM_INFINITY else min(memory, hard)
        resource.prlimit(pid, resource.RLIMIT_AS, (soft, hard))
    except OSError:
        pass  # it has ended already, or the system doesn't let it be limited


def _ended(word: str, number: int, memory: int) -> str:
    """What is said of a program that was ended by a signal."""
    try:
        name = signal.Signals(number).name
    except ValueError:
        name = f"signal {number}"
    if number == signal.SIGINT:
        return f"the program was interrupted ({name}, word {word!r})"
    if number == signal.SIGKILL:
        return (
            f"the program was ended by {name} (word {word!r}), by another process or by the system for want of memory: "
            f"it may use {memory >> 20} MiB, and the variable DCX_MEMORY of the environment sets another limit"
        )
    return f"the program was ended by {name} (word {word!r})"
