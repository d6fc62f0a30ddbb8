"""Measures what a user waits for, beside other solvers that have the same numbers, and prints a table: `waits.py [RUNS]`.

    python3 bench/waits.py
    python3 bench/waits.py 5 --program before=OLD --program after=NEW --long

A cell is the least of RUNS runs, 3 where nothing is said, in processor seconds of the user and the system. Within a run all columns are taken in turn,
row by row, so that other work on the machine hits all alike. Where values differ that should be the same, it says so and ends with status 1.

--program [NAME=]PATH   a program to measure, or the folder of a checkout that has one in its dist/, and `./dcx` beside it. It may be given several times:
                        each is a column. Without it the program of the sources as they stand is measured.
--long                  certificates of 1,000 settings, as long as one may be, in place of 100.
--profile               where the last program spends its time in three of the rows, by `perf record`, as a second table.
--only WORD ..          rows whose name has one of the words alone.
"""
import argparse
import filecmp
import os
import re
import shutil
import sys
import tempfile
from fractions import Fraction

from reach import KINDS, glpsol
from taken import TOP, programs, run

HERE = os.path.dirname(os.path.abspath(__file__))
CALLS = 20
BOUNDS = 530
TOP_FUNCTIONS = 5

PACKAGES = {"glpsol": "glpk-utils", "z3": "z3", "esolver": "qsopt-ex"}  # of Debian, by the command that each has
HEADS = {"glpsol": "`glpsol`", "z3": "Z3", "esolver": "QSopt_ex"}

# The names of rows of which something more is told.
FIT = "`trial 298`, both settings (`glpsol --exact`)"
UNITS = "unit commitment, 3 units over 12 hours (`glpsol` in floating point)"
ANEW = "1,000 settings, reduced anew at each"
KEPT = "1,000 settings, reduced once"
COLD = "1,000 settings along a trajectory"
WARM = "the same with `--warm`"
SCRIPT = "`./dcx` of the first example, of the wall"
SAME_VALUES = {KEPT: ANEW, WARM: COLD}  # rows whose values must be those of another row
PROFILED = {FIT: ["trial", "298"], UNITS: ["solve", "commitment.py"], ANEW: ["resolve", "model.py", "settings.txt"]}


class Answer:
    """What one run of one cell took, what its answer is, how many nodes it had, and how long the program alone takes."""

    def __init__(self, seconds, value, nodes=None, alone=None):
        self.seconds, self.value, self.nodes, self.alone = seconds, value, nodes, alone

    def told(self):
        """What a cell says of it."""
        if self.alone is not None:
            return f"{1000 * self.seconds:.1f} ms more than the program alone, which takes {1000 * self.alone:.1f}"
        shown = f"{self.seconds:.3f}" if self.seconds < 0.1 else f"{self.seconds:.2f}"
        return shown if self.nodes is None else f"{shown} ({self.nodes:,} nodes, {1000 * self.seconds / self.nodes:.2f} ms each)"


def finished(words, folder=None, to=None):
    """A run that must end with status 0."""
    made = run(words, None, folder, to)
    if made.status != 0:
        raise SystemExit(f"{' '.join(words)}: status {made.status}")
    return made


def written(script, *words):
    """Has a script of this folder write what it writes; gives what it prints."""
    return finished([sys.executable, os.path.join(HERE, script), *map(str, words)]).printed


def values_of(report):
    """How each setting ends and its value: without the points, of which a problem may have several that are best, and without what `--warm` tells of settings
    that began at the one before."""
    lines = [line for line in report.split("\n") if line.startswith(("setting ", "value ", "without ", "answered "))]
    return [" ".join(line.split()[:4]) if line.startswith("answered ") else line for line in lines]


# ---- the runs of the programs to measure
def settings_row(command, *more):
    """A run over the model and the settings of a folder."""

    def measured(program, folder):
        made = finished([program.path, command, "model.py", "settings.txt", *more], folder=folder)
        return Answer(made.seconds, values_of(made.printed))

    return measured


def trial(program, _):
    made = finished([program.path, "trial", "298"])
    values = [Fraction(line.split()[-1]) for line in made.printed.split("\n") if line.startswith("setting ")]
    return Answer(made.seconds, values)


def commitment(program, folder):
    made = finished([program.path, "solve", "commitment.py"], folder=folder)
    lines = {line.split()[0]: line.split()[-1] for line in made.printed.split("\n") if line}
    return Answer(made.seconds, Fraction(lines["value"]), nodes=int(lines["nodes"]))


def certificate(command):
    def measured(program, folder):
        # Each program checks its own certificate, and `migrate` writes it as it was read.
        mine = os.path.join(folder, f"{program.name}.cert")
        if command == "certificate":
            made = finished([program.path, command, "model.py", "settings.txt"], folder=folder, to=mine)
            return Answer(made.seconds, os.path.getsize(mine))
        again = mine + ".again"
        made = finished([program.path, command, "model.py", "settings.txt", mine], folder=folder, to=again)
        if command == "migrate":
            if not filecmp.cmp(mine, again, shallow=False):
                raise SystemExit(f"{program.name}: migrate writes another certificate")
            return Answer(made.seconds, "the same")
        with open(again, encoding="utf-8") as file:
            return Answer(made.seconds, file.read())

    return measured


def script_beside(program, _):
    """The least seconds of the wall of `./dcx`, less those of the program alone, which the cell tells."""
    if program.checkout is None:
        return None
    words = ["solve", os.path.join(TOP, "examples", "production", "model.py")]
    calls = [(finished([os.path.join(program.checkout, "dcx"), *words]), finished([program.path, *words])) for _ in range(CALLS)]
    script, alone = (min(call[i].wall for call in calls) for i in (0, 1))
    return Answer(script - alone, [call[0].printed for call in calls], alone=alone)


# ---- the runs of other solvers
def both_settings(command, words, value_of):
    """Both settings of `trial 298`, which other_solvers.py writes."""

    def measured(folder):
        made = [run([command, *words(os.path.join(folder, f"fit_{q}"))], folder=folder) for q in (0, 10)]
        return Answer(sum(one.seconds for one in made), [value_of(one.printed, os.path.join(folder, f"fit_{q}")) for one, q in zip(made, (0, 10))])

    return measured


def value_of_glpsol(_, path):
    with open(path + ".told", encoding="utf-8") as file:
        head = next(line.split() for line in file if line.startswith("s "))
    return Fraction(head[6])


def value_of_z3(printed, _):
    return Fraction(printed.replace(")", " ").split()[-1])


def value_of_esolver(_, path):
    with open(path + ".sol", encoding="utf-8") as file:
        return Fraction(next(line.split()[-1] for line in file if "Value" in line))


def glpsol_commitment(_):
    end, value, seconds = glpsol(KINDS["commitment"](3, 12)[0].text(), 600)
    return Answer(float(seconds), value if end == "optimal" else end)


# ---- the rows
def rows(folder, count):
    """Each row: its name, its folder, what each program runs, and what each other solver runs. Writes the files into the folders."""

    def at(*names):
        return os.path.join(folder, *names)

    os.makedirs(at("trial"))
    for q in (0, 10):
        for kind, end in (("lp", "lp"), ("smt", "smt2")):
            with open(at("trial", f"fit_{q}.{end}"), "w", encoding="utf-8") as file:
                file.write(written("other_solvers.py", kind, 298, q))
    os.makedirs(at("commitment"))
    with open(at("commitment", "commitment.py"), "w", encoding="utf-8") as file:
        file.write(KINDS["commitment"](3, 12)[1])
    for kind in ("anew", "kept"):
        written("settings.py", kind, 200, 1000, at(kind))
    written("schedule.py", 20, at("late"))
    written("trajectory.py", 1000, at("cart"))
    written("long_certificate.py", BOUNDS, count, at("long"))
    exact = {
        "glpsol": both_settings("glpsol", lambda path: ["--exact", "--lp", path + ".lp", "-w", path + ".told"], value_of_glpsol),
        "z3": both_settings("z3", lambda path: [path + ".smt2"], value_of_z3),
        "esolver": both_settings("esolver", lambda path: ["-O", path + ".sol", "-L", path + ".lp"], value_of_esolver),
    }
    yield FIT, at("trial"), trial, exact
    yield UNITS, at("commitment"), commitment, {"glpsol": glpsol_commitment}
    yield ANEW, at("anew"), settings_row("resolve"), {}
    yield KEPT, at("kept"), settings_row("resolve"), {}
    yield "`iis` over 40 constraints", at("late"), settings_row("iis"), {}
    yield "`resolve` of the same", at("late"), settings_row("resolve"), {}
    yield COLD, at("cart"), settings_row("resolve"), {}
    yield WARM, at("cart"), settings_row("resolve", "--warm"), {}
    for command in ("certificate", "certify", "migrate"):
        yield f"`{command}`, {BOUNDS} bounds, {count:,} settings", at("long"), certificate(command), {}
    yield SCRIPT, folder, script_beside, {}


def cell(answers):
    """The least of the runs, as a cell."""
    if answers is None:
        return "not installed"
    return min(answers, key=lambda answer: answer.seconds).told() if answers and answers[0] is not None else ""


def show(table, taken, heads):
    print("| processor seconds | " + " | ".join(heads + list(HEADS.values())) + " |\n|" + "---|" * (1 + len(heads) + len(HEADS)))
    for name, *_ in table:
        cells = [cell(taken.get((name, column), [])) for column in [*heads, *HEADS]]
        print(f"| {name} | " + " | ".join(cells) + " |", flush=True)


def do_differ(taken):
    """Whether an answer is another one than the first to the same question; tells which."""
    seen, found = {}, False
    for (name, column), answers in taken.items():
        for value in [answer.value for answer in answers or [] if answer is not None]:
            first = seen.setdefault(SAME_VALUES.get(name, name), value)
            if differ(first, value):
                print(f"{name}, {column}: {str(value)[:200]}, and not {str(first)[:200]}", file=sys.stderr)
                found = True
    return found


def differ(first, second):
    if isinstance(first, Fraction) and isinstance(second, Fraction):
        return abs(first - second) > Fraction(1, 10**6)  # (glpsol prints floats)
    return first != second


def aims(taken, name):
    """Prints what is aimed at beside what was measured of a program."""
    best = {key: min(answers, key=lambda answer: answer.seconds) for key, answers in taken.items() if answers and answers[0] is not None}

    def least(row, column=name):
        return best[row, column].seconds if (row, column) in best else None

    def times(first, second):
        return first / second if first and second else None

    fit, nodes = least(FIT), best[UNITS, name].nodes if (UNITS, name) in best else None
    told = [
        ("`trial 298` takes at most half of `glpsol --exact`", times(fit, least(FIT, "glpsol")), 0.5, "{:.2f} of it"),
        ("`trial 298` takes no more than Z3", times(fit, least(FIT, "z3")), 1, "{:.2f} of it"),
        ("a node of the unit commitment takes at most 1.5 ms", times(1000 * least(UNITS), nodes) if nodes else None, 1.5, "{:.2f} ms"),
        ("1,000 settings reduced anew take at most 1.5 s", least(ANEW), 1.5, "{:.2f} s"),
        ("`./dcx` takes at most 20 ms more than the program alone", 1000 * least(SCRIPT) if least(SCRIPT) is not None else None, 20, "{:.1f} ms"),
    ]
    told = [aim for aim in told if aim[1] is not None]
    if told:
        print("\n| what is aimed at | measured | |\n|---|---|---|")
        for aim, measured, most, form in told:
            print(f"| {aim} | {form.format(measured)} | {'yes' if measured <= most else 'no'} |")


def profile(path, table):
    """Prints which functions take most of the time, by `perf`, in the rows of PROFILED."""
    print("\n| run | where its time goes |\n|---|---|")
    for name, place, *_ in table:
        if name not in PROFILED:
            continue
        with tempfile.NamedTemporaryFile() as record:
            run(["perf", "record", "-N", "-o", record.name, path, *PROFILED[name]], folder=place)
            told = run(["perf", "report", "-i", record.name, "--stdio", "--no-children", "-F", "overhead,symbol"]).printed
        found = [line.split(None, 2) for line in told.split("\n") if line.strip() and not line.startswith("#")]
        parts = [f"`{re.sub('::<#.*', '', symbol)}` {round(float(part.rstrip('%')))} %" for part, _, symbol in found[:TOP_FUNCTIONS]]
        print(f"| {name} | {', '.join(parts)} |", flush=True)


def main():
    parser = argparse.ArgumentParser(description=__doc__, formatter_class=argparse.RawDescriptionHelpFormatter)
    parser.add_argument("runs", nargs="?", type=int, default=3)
    parser.add_argument("--program", action="append")
    parser.add_argument("--long", action="store_true")
    parser.add_argument("--profile", action="store_true")
    parser.add_argument("--only", nargs="+", default=[])
    asked = parser.parse_args()
    asked_programs = programs(asked.program)
    lacking = [command for command in PACKAGES if shutil.which(command) is None]
    with tempfile.TemporaryDirectory() as folder:
        table = list(rows(folder, 1000 if asked.long else 100))
        table = [row for row in table if not asked.only or any(word in row[0] for word in asked.only)]
        taken = {}
        for number in range(asked.runs):
            for name, place, measured, others in table:
                for program in asked_programs:
                    taken.setdefault((name, program.name), []).append(measured(program, place))
                for command, other in others.items():
                    if command in lacking:
                        taken[name, command] = None
                    else:
                        taken.setdefault((name, command), []).append(other(place))
            print(f"run {number + 1} of {asked.runs}, load {os.getloadavg()[0]:.1f}", file=sys.stderr, flush=True)
        show(table, taken, [program.name for program in asked_programs])
        aims(taken, asked_programs[-1].name)
        if asked.profile and shutil.which("perf") is None:
            print("\n`perf` isn't installed: it is in Debian's package `linux-perf`.")
        elif asked.profile:
            profile(asked_programs[-1].path, table)
    for command in lacking:
        print(f"\n`{command}` isn't installed: it is in Debian's package `{PACKAGES[command]}`.")
    return 1 if do_differ(taken) else 0


if __name__ == "__main__":
    sys.exit(main())
