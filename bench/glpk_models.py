"""The example models of GLPK as scripts of the language, and what becomes of them.

    PYTHONPATH=python python3 bench/glpk_models.py [--folder /usr/share/doc/glpk-utils/examples] [--models diet ..]
                                                   [--scripts FOLDER] [--seconds 60] [--whole] [--jobs 1]

`glpsol`, of Debian's glpk-utils, writes each model out as a free MPS file; that becomes a script, which is answered.
The table has a row for each linear program: rows and columns, who answers (`program`, `certificate`, an interval, or
why nothing is shown), the seconds that took, the value, and that of `glpsol`. Models in whole numbers, and those of
which `glpsol` writes no program within a minute, are counted below it. With `--scripts` the scripts are kept in a
folder.

With `--whole` it has the models in whole numbers instead: rows, columns and how many of these are whole; who shows the
answer, `program` or `boxes`, or why nothing is shown; the leaves of the tree; the seconds until the evidence is made,
its size, and the seconds of its check; the value, and that of `glpsol --cuts` with its seconds. The program has
PROGRAM_SECONDS for its own branch and bound, all of a solve `--seconds`, and `glpsol` as many. A search is interrupted
at twice that, where a box takes it past its clock. `limit` is a search that ended so, whose value is that of its best
point. `--jobs` models are answered at once.
"""
from __future__ import annotations

import argparse
import re
import signal
import subprocess
import sys
import tempfile
import time
from concurrent.futures import ProcessPoolExecutor
from fractions import Fraction
from functools import partial
from pathlib import Path
from typing import Optional

import dcx.cvxpy as cp
from dcx.arrays import Array, Sparse
from dcx.errors import DCXError, LimitError
from dcx.expressions import Constant
from dcx.shown import CERTIFICATE, INTERVAL, PROGRAM
from dcx.whole import EVIDENCE
from dcx.whole.checking import checked

LARGE = 4_000_000  # bytes of an MPS file: what is larger has far more entries than a script may have
FORMS = {".mod": "-m", ".mps": "--mps", ".lp": "--lp"}
DATA = {"sudoku": "sudoku.dat", "misp": "misp1.dat"}
PROGRAM_SECONDS = 2
NEAR = 1e-6  # of the other value, relatively: glpsol prints floats
KINDS = {
    "x": {"nonneg": True}, "y": {}, "b": {"boolean": True}, "n": {"integer": True, "nonneg": True},
    "z": {"integer": True},
}  # the variables, by name, with what is said of their entries


class Model:
    """A program of an MPS file: rows by name with their type, coefficients and right sides, bounds of columns, and
    which columns are whole."""

    def __init__(self, text: str, is_maximized: bool):
        self.is_maximized = is_maximized
        self.types: dict[str, str] = {}
        self.objective: Optional[str] = None
        self.rows: dict[str, dict[int, Fraction]] = {}
        self.right: dict[str, Fraction] = {}
        self.ranges: dict[str, Fraction] = {}
        self.columns: dict[str, int] = {}
        self.low: dict[int, Optional[Fraction]] = {}
        self.high: dict[int, Optional[Fraction]] = {}
        self.whole: set[int] = set()
        self.is_marked = False
        part = ""
        for line in text.splitlines():
            if line.startswith("*") or not line.strip():
                continue
            words = line.split()
            if not line[0].isspace():
                part = words[0]
                continue
            getattr(self, f"_{part.lower()}")(words)

    def _rows(self, words):
        kind, name = words
        self.types[name] = kind
        self.rows[name] = {}
        if kind == "N" and self.objective is None:
            self.objective = name

    def _columns(self, words):
        if "'MARKER'" in words:
            self.is_marked = "'INTORG'" in words
            return
        number = self.columns.setdefault(words[0], len(self.columns))
        if self.is_marked:
            self.whole.add(number)
        self.low.setdefault(number, Fraction(0))
        self.high.setdefault(number, None)
        for name, value in zip(words[1::2], words[2::2]):
            self.rows[name][number] = Fraction(value)

    def _rhs(self, words):
        words = words if len(words) % 2 == 0 else words[1:]
        for name, value in zip(words[::2], words[1::2]):
            self.right[name] = Fraction(value)

    def _ranges(self, words):
        words = words if len(words) % 2 == 0 else words[1:]
        for name, value in zip(words[::2], words[1::2]):
            self.ranges[name] = Fraction(value)

    def _bounds(self, words):
        kind, *rest = words
        value = None
        if kind not in ("FR", "MI", "PL", "BV"):
            value = Fraction(rest.pop())
        column = self.columns[rest[-1]]
        if kind in ("BV", "LI", "UI"):
            raise ValueError(f"glpsol writes no bounds of the kind {kind}")
        if kind in ("LO", "FX", "FR", "MI"):
            self.low[column] = value if kind in ("LO", "FX") else None
        if kind in ("UP", "FX", "FR", "PL"):
            self.high[column] = value if kind in ("UP", "FX") else None

    def problem(self) -> cp.Problem:
        """The model, recorded: columns of at least 0 are one variable, all others another one, and so it is with whole
        columns, those of 0 and 1 apart."""
        kinds: dict[str, list] = {kind: [] for kind in KINDS}
        for column in self.low:
            kinds[self.kind(column)].append(column)
        self.parts = [
            (cp.Variable(len(columns), name=kind, **KINDS[kind]), {c: i for i, c in enumerate(columns)})
            for kind, columns in kinds.items() if columns
        ]
        rules = []
        for op, listed in self.sides().items():
            if listed:
                left = self.product([terms for terms, _ in listed])
                right = Constant(Array((len(listed),), tuple(value for _, value in listed)))
                rules.append(left == right if op == "E" else left <= right if op == "L" else left >= right)
        aim = self.product([self.rows[self.objective]] if self.objective else [{}])
        cost = (0 if aim is None else aim[0]) - self.right.get(self.objective, Fraction(0))
        return cp.Problem(cp.Maximize(cost) if self.is_maximized else cp.Minimize(cost), rules)

    def kind(self, column: int) -> str:
        """The variable that a column is an entry of."""
        is_signed = self.low[column] == 0
        if column not in self.whole:
            return "x" if is_signed else "y"
        return "b" if is_signed and self.high[column] == 1 else "n" if is_signed else "z"

    def sides(self) -> dict[str, list]:
        """Rows with their right sides, by their type; ranges and bounds are rows too."""
        found: dict[str, list] = {"E": [], "L": [], "G": []}
        for name, kind in self.types.items():
            terms, right = self.rows[name], self.right.get(name, Fraction(0))
            if kind == "N" or not terms:
                continue
            found[kind].append((terms, right))
            if name in self.ranges:
                size = self.ranges[name]
                if kind == "E":
                    found["E"].pop()
                    low, high = (right, right + size) if size >= 0 else (right + size, right)
                    found["G"].append((terms, low))
                    found["L"].append((terms, high))
                else:
                    other, end = ("G", right - abs(size)) if kind == "L" else ("L", right + abs(size))
                    found[other].append((terms, end))
        for column in self.low:
            if self.low[column] not in (None, 0):
                found["G"].append(({column: Fraction(1)}, self.low[column]))
            if self.high[column] is not None and self.kind(column) != "b":
                found["L"].append(({column: Fraction(1)}, self.high[column]))
        return found

    def product(self, listed):
        """Rows times the columns."""
        total = None
        for variable, places in self.parts:
            rows = [sorted((places[c], v) for c, v in terms.items() if c in places) for terms in listed]
            if any(rows):
                term = Constant(Sparse((len(rows), variable.size), rows)) @ variable
                total = term if total is None else total + term
        return total


def written(path: Path, folder: Path) -> Optional[str]:
    """The MPS file of a model, its front alone where it is large; None where glpsol doesn't write one in time."""
    out = folder / "model.mps"
    out.unlink(missing_ok=True)
    data = ["-d", str(path.parent / DATA[path.stem])] if path.stem in DATA else []
    words = ["glpsol", "--check", "--wfreemps", str(out), FORMS[path.suffix], str(path), *data]
    try:
        subprocess.run(words, capture_output=True, timeout=60, cwd=path.parent)
    except subprocess.TimeoutExpired:
        return None
    if not out.exists():
        return None
    with out.open() as file:
        return file.read(LARGE)


def solved(path: Path, folder: Path, *options: str, limit: float = 60) -> tuple[Optional[float], bool, str]:
    """glpsol's value, whether the model is maximized, and how it ends; it is ended after `limit` seconds."""
    out = folder / "report.txt"
    out.unlink(missing_ok=True)
    data = ["-d", str(path.parent / DATA[path.stem])] if path.stem in DATA else []
    words = ["glpsol", FORMS[path.suffix], str(path), *data, "-o", str(out), *options]
    try:
        subprocess.run(words, capture_output=True, timeout=limit, cwd=path.parent)
    except subprocess.TimeoutExpired:
        return None, False, f"no end in {limit:.0f} s"
    text = out.read_text() if out.exists() else ""
    found = re.search(r"^Objective: +(?:.*= +)?(\S+) \((MIN|MAX)imum\)", text, re.M)
    status = re.search(r"^Status: +(.*)$", text, re.M)
    if found is None:
        return None, False, "no report"
    return float(found[1]), found[2] == "MAX", status[1].strip().lower() if status else ""


def row_of(name: str, problem: cp.Problem, seconds: float, theirs: str) -> tuple[str, str]:
    """A row of the table, and the script, empty where a limit keeps it from being written."""
    began, script = time.perf_counter(), ""
    try:
        script = problem.script()
        problem.solve(time_limit=seconds)
        shown = {PROGRAM: "program", CERTIFICATE: "certificate", INTERVAL: "interval"}[problem.shown_by]
        value = problem.status if problem.status in ("infeasible", "unbounded") else f"{problem.value:.9g}"
        shown += f" {problem.interval.width:.0e}" if problem.interval else ""
    except LimitError as error:
        shown, value = "passes a limit of the language", ""
        print(f"{name}: {error.reason[:160]}", file=sys.stderr)
    except DCXError as error:
        shown, value = "no", ""
        print(f"{name}: {str(error)[:300]}", file=sys.stderr)
    size = problem.size_metrics
    rows = size.num_scalar_eq_constr + size.num_scalar_leq_constr
    spent = time.perf_counter() - began
    return f"| {name} | {rows} | {size.num_scalar_variables} | {shown} | {spent:.1f} | {value} | {theirs} |", script


def whole_row(seconds: float, path: Path) -> str:
    """A row of the table of models in whole numbers, empty where the model is none."""
    with tempfile.TemporaryDirectory() as name:
        folder = Path(name)
        text = written(path, folder)
        if text is None or "'MARKER'" not in text:
            return ""
        if len(text) == LARGE:
            return f"| {path.name} | | | | passes a limit of the language | | | | | | |"
        begun = time.perf_counter()
        theirs, is_maximized, status = solved(
            path, folder, "--cuts", "--tmlim", f"{seconds:.0f}", limit=2 * seconds
        )
        spent = time.perf_counter() - begun
        model = Model(text, is_maximized)
        problem = model.problem()
        told, value = answered(problem, seconds, path.name, folder / "evidence")
    size = problem.size_metrics
    rows = size.num_scalar_eq_constr + size.num_scalar_leq_constr
    is_shown = status == "integer optimal"
    if is_shown and value is not None and abs(value - theirs) > NEAR * max(1, abs(theirs)):
        raise SystemExit(f"{path.name}: glpsol has the value {theirs:.12g}, and not {value:.12g}")
    ends = {"integer empty": "infeasible", "integer undefined": "no point"}.get(status)
    if ends is None:
        ends = status if theirs is None else f"{theirs:.9g}" + ("" if is_shown else ", not shown")
    return f"| {path.name} | {rows} | {len(model.low)} | {len(model.whole)} | {told} | {ends} | {spent:.1f} |"


def answered(problem: cp.Problem, seconds: float, name: str, folder: Path) -> tuple[str, Optional[float]]:
    """Who shows the answer, leaves, seconds, megabytes of evidence, seconds of its check, and the value, as cells of
    the table; and the value, None where none is shown to be best."""
    def late(number, frame):
        raise KeyboardInterrupt

    signal.signal(signal.SIGALRM, late)
    signal.alarm(round(2 * seconds))
    begun, leaves, megabytes, checking = time.perf_counter(), "", "", ""
    shown, value = "", None
    try:
        problem.solve(program_seconds=PROGRAM_SECONDS, time_limit=seconds)
        shown = {PROGRAM: "program", EVIDENCE: "boxes"}.get(problem.shown_by, "")
    except KeyboardInterrupt:
        pass
    except LimitError as error:
        shown = "passes a limit of the language"
        print(f"{name}: {error.reason[:200]}", file=sys.stderr)
    except DCXError as error:
        shown = "nothing"
        print(f"{name}: {str(error)[:400]}", file=sys.stderr)
    finally:
        signal.alarm(0)
    spent = time.perf_counter() - begun
    if shown in ("program", "boxes"):
        value = problem.value
    elif not shown:
        gap = None if problem.progress is None else problem.progress.gap
        shown = "limit" if gap is None else f"limit, gap {100 * gap:.3g} %"
    if shown == "boxes":
        problem.evidence.write(folder)
        begun = time.perf_counter()
        leaves = f"{checked(folder).leaves:,}"
        checking, megabytes = f"{time.perf_counter() - begun:.1f}", f"{problem.evidence.size / 1e6:.2f}"
    text = "" if problem.value is None else f"{problem.value:.9g}" if abs(problem.value) < 1e300 else problem.status
    return f"{shown} | {leaves} | {spent:.1f} | {megabytes} | {checking} | {text}", value


def table(heads: str) -> None:
    """Prints the head of a table, whose columns are parted by `|`."""
    heads = heads.split("|")
    print(f"| {' | '.join(heads)} |\n|{'---|' * len(heads)}", flush=True)


def main() -> None:
    parser = argparse.ArgumentParser(description=__doc__.partition("\n")[0])
    parser.add_argument("--folder", type=Path, default=Path("/usr/share/doc/glpk-utils/examples"))
    parser.add_argument("--models", nargs="+")
    parser.add_argument("--scripts", type=Path)
    parser.add_argument("--seconds", type=float, default=60)
    parser.add_argument("--whole", action="store_true")
    parser.add_argument("--jobs", type=int, default=1)
    arguments = parser.parse_args()
    asked = arguments.models
    paths = sorted(path for path in arguments.folder.iterdir() if path.suffix in FORMS)
    paths = [path for path in paths if not asked or path.stem in asked or path.name in asked]
    if arguments.whole:
        table("model|rows|columns|whole|shown by|leaves|seconds|MB|check, seconds|value|`glpsol`|its seconds")
        with ProcessPoolExecutor(arguments.jobs) as pool:
            for row in filter(None, pool.map(partial(whole_row, arguments.seconds), paths)):
                print(row, flush=True)
        return
    table("model|rows|columns|answered by|seconds|value|glpsol")
    whole, without = [], []
    with tempfile.TemporaryDirectory() as folder:
        for path in paths:
            text = written(path, Path(folder))
            if text is None or "'MARKER'" in text:
                (without if text is None else whole).append(path.name)
                continue
            if len(text) == LARGE:
                print(f"| {path.name} | | | passes a limit of the language | | | |", flush=True)
                continue
            value, is_maximized, status = solved(path, Path(folder))
            model = Model(text, is_maximized)
            if not model.columns:
                without.append(path.name)
                continue
            theirs = status if value is None or status != "optimal" else f"{value:.9g}"
            row, script = row_of(path.name, model.problem(), arguments.seconds, theirs)
            print(row, flush=True)
            if arguments.scripts and script:
                arguments.scripts.mkdir(parents=True, exist_ok=True)
                (arguments.scripts / f"{path.stem}.py").write_text(script)
    print(f"\n{len(whole)} models in whole numbers: {' '.join(whole)}")
    print(f"{len(without)} models of which glpsol writes no program: {' '.join(without)}")


if __name__ == "__main__":
    main()
