"""What a run of a program takes: processor seconds, seconds of the wall, and the most memory, for the scripts beside this one."""
import os
import resource
import subprocess
import time
from typing import NamedTuple, Optional

TOP = os.path.dirname(os.path.dirname(os.path.abspath(__file__)))
MEMORY = 4 << 30  # the limit that ./dcx sets where nobody asks for another one


class Run(NamedTuple):
    status: int  # below 0 where a signal ended it, as at the end of its seconds
    printed: str
    seconds: float  # of processors, the user's and the system's
    wall: float
    memory: int  # in bytes; that of this process where the program held less


class Program(NamedTuple):
    name: str
    path: str
    checkout: Optional[str]  # the folder of sources that it lies in, with `./dcx` beside it


def run(words, most=None, folder=None, to=None):
    """Runs a program, with at most so many processor seconds, in a folder. With `to` what it prints goes into that file."""

    def limit():
        resource.setrlimit(resource.RLIMIT_AS, (MEMORY, MEMORY))
        if most is not None:
            resource.setrlimit(resource.RLIMIT_CPU, (most, most))

    with open(to or os.devnull, "wb") as file:
        begun = time.monotonic()
        out = file if to else subprocess.PIPE
        child = subprocess.Popen(words, stdout=out, stderr=subprocess.DEVNULL, cwd=folder, preexec_fn=limit)
        printed = "" if to else child.stdout.read().decode()
        _, state, used = os.wait4(child.pid, 0)
        wall = time.monotonic() - begun
    child.returncode = os.waitstatus_to_exitcode(state)
    if child.stdout:
        child.stdout.close()
    return Run(child.returncode, printed, used.ru_utime + used.ru_stime, wall, used.ru_maxrss * 1024)


def programs(words):
    """The programs that [NAME=]PATH asks for. The path of a folder is that of a checkout, which has its program in dist/. Where nothing is asked for, the one
    program of these sources as they stand."""
    if not words:
        path = subprocess.run([os.path.join(TOP, "tools", "program")], stdout=subprocess.PIPE, text=True, check=True).stdout.strip()
        return [Program("`dcx`", path, TOP)]
    found = []
    for word in words:
        name, has_name, path = word.rpartition("=")
        path = os.path.abspath(path)
        is_checkout = os.path.isdir(path)
        found.append(Program(name if has_name else "`dcx`", os.path.join(path, "dist", "dcx") if is_checkout else path, path if is_checkout else None))
    return found
