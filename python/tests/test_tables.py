"""What `table` prints, and which lines made which constraints, against Python's own parser, hand work and reports."""
from __future__ import annotations

import ast
import contextlib
import io
import os
import pty
import random
import re
import subprocess
import sys
import tempfile
import unittest
from decimal import ROUND_HALF_EVEN, Context, Decimal
from fractions import Fraction
from pathlib import Path

from dcx import program
from dcx.__main__ import main
from dcx.exact import cases
from dcx.exact.elaborate import elaborate
from dcx.exact.faults import Refused
from dcx.exact.grammar import parse
from dcx.exact.tokens import text_of, tokens_of
from dcx.grids import Look, at_points, decimals, matrix_rows, named_rows
from dcx.reports import read_report
from dcx.sources import Lines, read_settings, read_sources
from dcx.tables import Tables
from dcx.values import Entries, Place

TOP = Path(__file__).resolve().parents[2]
DATA = TOP / "crates" / "dcx_cases" / "data"
# A row of a constraint: its number, line, text, and multiplier with its fraction.
ROW = r"^ +(\d+)  line (\d+) +(.*?)(?:  (-?[\d.e+-]+|all 0)(?: {2,}(-?[\d/]+))?)?$"
LOOPS = b"""\
import cvxpy as cp
import numpy as np

d = np.array([[1, 2], [3, 4.5]])
p = cp.Parameter(nonneg=True, value=1/3)
X = cp.Variable((2, 2), nonneg=True)
y = cp.Variable()
rules = [y >= -1]
for i in range(2):
    for j in [0, 1]:
        rules += [X[i, j] >= p*d[i, j]]
rules += [X[k, 0] <=
          10 + k for k in range(2)]
prob = cp.Problem(
    cp.Minimize(cp.sum(X) + 2*y),
    rules + [X <= 40])
prob.solve()
for value in [1, 0]:
    p.value = value
    prob.solve()
"""


def table(*words):
    """Standard output, standard error and the status of the command, carried out here, in the top folder."""
    out, told, before = io.StringIO(), io.StringIO(), os.getcwd()
    os.chdir(TOP)
    try:
        with contextlib.redirect_stdout(out), contextlib.redirect_stderr(told):
            status = main(["table", *map(str, words)])
    except SystemExit as end:
        status = end.code
    finally:
        os.chdir(before)
    return out.getvalue(), told.getvalue(), status


def table_process(*words, **options):
    """Standard output, standard error and the status of `python3 -m dcx table`, a process of its own."""
    command = [sys.executable, "-m", "dcx", "table", *map(str, words)]
    done = subprocess.run(command, capture_output=True, text=True, cwd=TOP, **options)
    return done.stdout, done.stderr, done.returncode


def fractions(*texts):
    return tuple(map(Fraction, texts))


def case_scripts():
    """The scripts of the worked cases, as far as they are of a size that a person writes."""
    for name in (DATA / "index.txt").read_text().split():
        if not name.endswith(".md"):
            for line, head, body in cases.sections(str(DATA / name)):
                if head.startswith("file ") and head.endswith(".py") and len(body) < 3000:
                    yield f"{name}:{line}", body


class Grids(unittest.TestCase):
    def test_decimals_are_those_of_the_decimal_module(self):
        """Against one division of Python's decimals, rounded half to even, on fractions of all sizes."""
        draw = random.Random(5)
        for _ in range(3000):
            numerator = draw.randint(-(10 ** draw.randint(1, 30)), 10**9)
            value = Fraction(numerator, draw.randint(1, 10 ** draw.randint(1, 30)))
            digits = draw.randint(1, 20)
            text = decimals(value, digits)
            if value.denominator == 1:
                self.assertEqual(text, str(value.numerator))
                continue
            context = Context(prec=digits, rounding=ROUND_HALF_EVEN)
            wanted = context.divide(Decimal(value.numerator), Decimal(value.denominator))
            self.assertEqual(Decimal(text), wanted, value)
            self.assertFalse("." in text and text.partition("e")[0].endswith(("0", ".")), text)

    def test_decimals_by_hand(self):
        for value, digits, text in (
            ("1/3", 6, "0.333333"),
            ("2/3", 3, "0.667"),
            ("-7/2", 6, "-3.5"),
            ("1/5000000", 6, "2e-07"),
            ("123456789/2", 6, "61728400"),
            ("1/8", 2, "0.12"),
            ("99999/100000", 3, "1"),
            ("10000000000000000000000000000001/3", 4, "3.333e+30"),
            ("12345678901234567890", 3, "12345678901234567890"),
        ):
            self.assertEqual(decimals(Fraction(value), digits), text)

    def test_points_stand_below_each_other(self):
        self.assertEqual(at_points(["1.25", "-3", "10.5"]), [" 1.25", "-3   ", "10.5 "])

    def test_matrices(self):
        array = Entries((2, 3), fractions("1/2", 1, -3, 10, "7/3", 0))
        self.assertEqual(
            matrix_rows([array], Look(digits=3), 80),
            ["[   0.5  1     -3  ]  [  1/2    1  -3  ]", "[  10    2.33   0  ]  [   10  7/3   0  ]"],
        )
        narrow = matrix_rows([array], Look(digits=3), 30)
        self.assertEqual(narrow[2:], ["[  1/2    1  -3  ]", "[   10  7/3   0  ]"])
        wide = matrix_rows([Entries((2, 40), fractions(*range(80)))], Look(), 60)
        self.assertLessEqual(max(map(len, wide)), 60)
        heads = [row for row in wide if row.startswith("columns ")]
        ends = [tuple(map(int, re.findall(r"\d+", head))) for head in heads]
        self.assertEqual([first for first, _ in ends], [0, *(last + 1 for _, last in ends[:-1])])
        self.assertEqual(ends[-1][1], 39)
        numbers = [int(number) for row in wide if row[0] == "[" for number in re.findall(r"\d+", row)]
        self.assertEqual(sorted(numbers), list(range(80)))
        self.assertEqual(wide[1].split()[1:4], ["0", "1", "2"])
        whole = Entries((2, 1), fractions(5, -10))
        self.assertEqual(matrix_rows([whole], Look(), 80), ["[    5  ]", "[  -10  ]"])

    def test_names_with_numbers(self):
        named = [
            ("x", [Entries((), fractions("1/3"))]),
            ("v", [Entries((3,), fractions(1, 2, 3))]),
            ("long", [Entries((), fractions(12))]),
            ("w", [Entries((2,), fractions("1/2", 4))]),
        ]
        self.assertEqual(
            named_rows(named, Look(digits=3)),
            ["x      0.333  1/3", "v (3)", "  [0]  1  2  3", "long  12", "w (2)", "  [0]  0.5  1/2", "  [1]  4"],
        )
        many = [("v", [Entries((40,), fractions(*range(40)))])]
        rows = named_rows(many, Look(width=60))
        self.assertLessEqual(max(map(len, rows)), 60)
        self.assertEqual(re.findall(r"\d+", re.sub(r"\[\d+\]", "", " ".join(rows[1:]))), [str(n) for n in range(40)])
        self.assertEqual([int(row.split("]")[0].strip(" [")) for row in rows[1:]], [*range(0, 40, 12)])


class SourcesOfScripts(unittest.TestCase):
    def test_by_hand(self):
        sources = read_sources(LOOPS)
        found = [(n, s.place.line, s.text, s.turn) for n, s in sources.constraints.items()]
        entry = "X[i, j] >= p*d[i, j]"
        self.assertEqual(
            found,
            [
                (1, 8, "y >= -1", ()),
                (2, 11, entry, (("i", "0"), ("j", "0"))),
                (3, 11, entry, (("i", "0"), ("j", "1"))),
                (4, 11, entry, (("i", "1"), ("j", "0"))),
                (5, 11, entry, (("i", "1"), ("j", "1"))),
                (6, 12, "X[k, 0] <= 10 + k", (("k", "0"),)),
                (7, 12, "X[k, 0] <= 10 + k", (("k", "1"),)),
                (8, 16, "X <= 40", ()),
            ],
        )
        self.assertEqual((sources.sense, sources.objective.text), ("minimize", "cp.Minimize(cp.sum(X) + 2*y)"))
        self.assertEqual(sources.objective.line, "    cp.Minimize(cp.sum(X) + 2*y),")
        self.assertEqual({name: s.place.line for name, s in sources.variables.items()}, {"X": 6, "y": 7})
        self.assertEqual({name: s.place.line for name, s in sources.parameters.items()}, {"p": 5})
        solves = [(s.place.line, s.turn) for s in sources.solves]
        self.assertEqual(solves, [(17, ()), (20, (("value", "1"),)), (20, (("value", "0"),))])
        self.assertEqual([values["p"].entries[0] for values in sources.values], [Fraction(1, 3), 1, 0])
        self.assertEqual([sources.of_row(row) for row in (0, 6, 7, 10, 11)], [(1, 0), (7, 0), (8, 0), (8, 3), None])

    def test_against_pythons_parser(self):
        """Of scripts of the cases: each constraint's text is the comparison that Python's parser has at its sign."""
        constraints = scripts = 0
        examples = [(str(path), path.read_bytes()) for path in sorted((TOP / "examples").rglob("*.py"))]
        for place, data in [*list(case_scripts())[::6], *examples]:
            sources = read_sources(data)
            if sources is None:
                with self.assertRaises(Refused):
                    elaborate(parse(tokens_of(text_of(data))))
                continue
            problem, events, _ = elaborate(parse(tokens_of(text_of(data))))
            places = [tuple(constraint.place) for constraint in problem.constraints]
            self.assertEqual([source.place for source in sources.constraints.values()], places, place)
            self.assertEqual(len(sources.values), len(events), place)
            if len(sources.constraints) > 300:
                continue
            text = data.decode()
            try:
                tree = ast.parse(text)
            except SyntaxError:  # what isn't Python and isn't carried out, as between the brackets of `print`
                continue
            compared = {}
            for node in ast.walk(tree):
                if isinstance(node, ast.Compare):
                    behind = sign_behind(text, node.left)
                    compared[behind] = " ".join(without_comments(ast.get_source_segment(text, node)).split())
            for source in sources.constraints.values():
                self.assertEqual(source.text.replace(" ", ""), compared[source.place].replace(" ", ""), place)
                constraints += 1
            scripts += 1
        self.assertGreater(scripts, 150)
        self.assertGreater(constraints, 350)

    def test_settings(self):
        data = b"# first\np = 1; q = 1/2   # one\n\n{}\nA = [[1, 2],\n     [3, 4]]; p = 3\n"
        settings = read_settings(data)
        self.assertEqual([s.text for s in settings], ["p = 1; q = 1/2", "{}", "A = [[1, 2],\n     [3, 4]]; p = 3"])
        self.assertEqual([s.place for s in settings], [(2, 1), (4, 1), (5, 1)])
        self.assertEqual(settings[2].names, {"A": (5, 1), "p": (6, 15)})
        self.assertIsNone(read_settings(b"p = 1; p = 2\n"))

    def test_carets(self):
        lines = Lines("é = 価格 + x\r\n\tz\xff".encode() + b"\xff")
        # The column counts bytes: two of the first letter, three of each of the wide ones.
        self.assertEqual(lines.caret(Place(1, len("é = 価格 + ".encode()) + 1)), " " * 11 + "^")
        self.assertEqual(lines.text(1), "é = 価格 + x")
        self.assertEqual(lines.caret(Place(2, 2)), "\t^")
        self.assertEqual((lines.text(9), lines.caret(Place(9, 3))), ("", "^"))
        self.assertEqual(Lines(b"a\x1b[2J\tb").text(1), "a\ufffd[2J\tb")


def sign_behind(text, left):
    """The place of the first comparison sign behind an expression, columns in bytes, from 1."""
    lines = text.split("\n")
    line, column = left.end_lineno, left.end_col_offset
    while True:
        rest = lines[line - 1].encode()[column:].split(b"#")[0]
        match = re.search(rb"<=|>=|==", rest)
        if match is not None:
            return line, column + match.start() + 1
        line, column = line + 1, 0


def without_comments(text):
    """The text without what stands behind a `#`; no text of these scripts has one."""
    return " ".join("\n".join(line.split("#")[0] for line in text.split("\n")).split())


class Printed(unittest.TestCase):
    def test_by_hand(self):
        """-3x - 2y under x + y <= 4 and x <= 3: x = 3, y = 1, and 2 times the first and 1 times the second show it."""
        text, told, status = table_process("examples/production/model.py")
        self.assertEqual((told, status), ("", 0))
        self.assertEqual(table("examples/production/model.py"), (text, told, status))
        self.assertEqual(
            text,
            "optimal: the least objective is -11\n"
            "variables\n"
            "  x  3\n"
            "  y  1\n"
            "constraints and their multipliers\n"
            "  1  line 6  x + y <= 4  2\n"
            "  2  line 6  x <= 3      1\n"
            "\n"
            "answered 1, stopped 0\n",
        )

    def test_loops_and_matrices(self):
        """Each entry of X is at its bound p*d, and y at -1: at p = 1/3 the sum is 10.5/3 - 2."""
        report = read_report(program.run("solve", LOOPS).report)
        text = Tables(LOOPS, look=Look(digits=4)).text(report)
        first, second, third, last = text.split("\n\n")
        self.assertTrue(first.startswith("solve 1 of 3, line 17\noptimal: the least objective is 3/2 (1.5)\n"))
        self.assertIn("parameters\n  p  0.3333  1/3\nvariables\n  X (2,2)\n", first)
        self.assertIn("    [  0.3333  0.6667  ]  [  1/3  2/3  ]\n    [  1       1.5     ]  [    1  3/2  ]\n", first)
        self.assertIn("]\n  y  -1\nconstraints and their multipliers\n", first)
        self.assertIn("  4  line 11  X[i, j] >= p*d[i, j]  (i = 1, j = 0)  1\n", first)
        self.assertIn("  7  line 12  X[k, 0] <= 10 + k  (k = 1)            0\n", first)
        self.assertIn("  8  line 16  X <= 40                               all 0", first)
        self.assertIn("solve 2 of 3, line 20  (value = 1)\n", second)
        self.assertIn("solve 3 of 3, line 20  (value = 0)\noptimal: the least objective is -2\n", third)
        self.assertEqual(last, "answered 3, stopped 0\n")

    def test_each_multiplier_stands_beside_its_constraint(self):
        """Over the examples: each row has the report's number, and the line that the script has there."""
        rows = 0
        for path in sorted((TOP / "examples").rglob("report.txt")):
            script = (path.parent / "model.py").read_bytes()
            settings = path.parent / "settings.txt"
            data = settings.read_bytes() if settings.exists() else None
            report = read_report(path.read_bytes())
            if report.kind != "solved":
                continue
            text = Tables(script, data, look=Look(digits=8, width=400)).text(report)
            blocks = text.split("\n\n")
            self.assertEqual(len(blocks), len(report.answers) + 1)
            lines = script.decode().split("\n")
            for answer, block in zip(report.answers, blocks):
                found = re.findall(ROW, block, re.M)
                self.assertEqual([int(row[0]) for row in found], list(answer.duals), path)
                for number, line, front, decimal, fraction in found:
                    dual = answer.duals[int(number)]
                    start = front.split(" ")[0].split("(")[0]
                    self.assertIn(start, lines[int(line) - 1])
                    rows += 1
                    if not dual.shape:
                        (value,) = dual.entries
                        self.assertEqual(Fraction(fraction or decimal), value, path)
                        self.assertAlmostEqual(float(decimal), float(value), delta=abs(float(value)) * 1e-7)
                    else:
                        self.assertEqual(decimal == "all 0", not any(dual.entries), path)
        self.assertGreater(rows, 60)

    def test_the_report_of_another_script(self):
        """No line of a script is told of what it didn't make."""
        report = read_report((TOP / "examples/transport/report.txt").read_bytes())
        text = Tables((TOP / "examples/production/model.py").read_bytes()).text(report)
        self.assertNotIn("line ", text)
        self.assertIn("  crates (2,3)\n    [  8  0  2  ]\n    [  0  7  5  ]\n", text)
        self.assertIn("\n  1\n      [0]  4  3\n", text)

    def test_sorted_by_multiplier(self):
        """Three bounds of 1 on what brings 2, 5 and 3 a piece."""
        with tempfile.TemporaryDirectory() as folder:
            script = Path(folder) / "model.py"
            script.write_text(
                "import cvxpy as cp\nx = cp.Variable(3, nonneg=True)\n"
                "prob = cp.Problem(cp.Maximize(2*x[0] + 5*x[1] + 3*x[2]), [x[0] <= 1, x[1] <= 1, x[2] <= 1])\n"
            )
            text, _, _ = table(script, "--sort", "multiplier")
        rows = [row.split() for row in text.split("\n") if "  line " in row]
        self.assertEqual([(row[0], row[-1]) for row in rows], [("2", "5"), ("3", "3"), ("1", "2")])

    def test_infeasible_unbounded_and_whole(self):
        text, _, status = table("examples/certificates/model.py", "examples/certificates/settings.txt")
        self.assertEqual(status, 0)
        first, second, third, _ = text.split("\n\n")
        self.assertIn("setting 1 of 3: p = 1/2; q = 1\noptimal: the least objective is 3/2 (1.5)\n", first)
        self.assertIn("infeasible: no point keeps the constraints", second)
        self.assertIn("1/2 (0.5)", second)
        self.assertIn("unbounded: the objective falls for ever, from -2 at the point by 2 for each step", third)
        self.assertIn("variables\n     point  ray\n  x  1      1", third)
        text, _, status = table("examples/guide/whole.py")
        self.assertRegex(text, r"^optimal in whole numbers: the greatest objective is \d+, shown by \d+ nodes\n")

    def test_stops_show_their_places(self):
        text, _, status = table("examples/messages/model.py", "examples/messages/settings.txt")
        self.assertEqual(status, 6)
        blocks = text.split("\n\n")
        self.assertEqual(len(blocks), 7)
        for block, number in zip(blocks[1:], (21, 22, 23, 24, 25)):
            self.assertRegex(block, rf"stopped: {number} \w+")
        self.assertIn("settings.txt:2:14\n  speed = 1/2; price = [3, 2]\n               ^\n", blocks[1])
        self.assertIn("model.py:5:9\n  speed = cp.Parameter()\n          ^\nThe parameter speed has no", blocks[2])
        self.assertIn("[cp.sum(made)/speed <= 8", blocks[5])
        self.assertEqual(caret_char(blocks[5]), "/")
        text, _, status = table("examples/messages/wide_row.py")
        self.assertEqual(status, 6)
        self.assertIn("wide_row.py:5:77\n", text)
        self.assertEqual(caret_char(text), "<")  # of the second constraint, whose row is 1

    def test_refusals_show_their_places(self):
        text, _, status = table("examples/portfolio/too_little_turnover.py")
        self.assertEqual(status, 1)
        self.assertIn("refused: 19 NotDcp rule at_most\nexamples/portfolio/too_little_turnover.py:10:29\n", text)
        self.assertEqual(caret_char(text), ">")
        with tempfile.TemporaryDirectory() as folder:
            settings = Path(folder, "s.txt")
            settings.write_text("speed = 1/2\nspeed = 1; speed = 2\n")
            text, _, status = table("examples/messages/model.py", settings)
        self.assertEqual(status, 1)
        self.assertIn(f"refused: 6 Unexpected\n{settings}:2:12\n  speed = 1; speed = 2\n             ^\n", text)

    def test_statuses_are_the_programs(self):
        self.assertEqual(table("examples/production/model.py", "--max-pivots", "1")[2], 6)
        text, told, status = table("examples/nowhere.py")
        self.assertEqual((text, status), ("", 3))
        self.assertIn("examples/nowhere.py can't be read", told)
        self.assertEqual(table("examples/production/model.py", "--max-pivots", "x")[2], 2)
        self.assertEqual(table("examples/production/model.py", "--warm")[2], 2)
        self.assertEqual(table()[2], 2)

    def test_warm(self):
        text, _, status = table("examples/diet/model.py", "examples/diet/settings.txt", "--warm")
        self.assertEqual(status, 0)
        report = read_report(program.run("resolve", *diet(), options=["--warm"]).report)
        self.assertTrue(text.endswith(f"answered {report.answered}, stopped 0, from an earlier answer {report.warm}\n"))

    def test_text_that_the_output_cannot_say(self):
        with tempfile.TemporaryDirectory() as folder:
            script = Path(folder, "m.py")
            problem = "p = cp.Problem(cp.Minimize(x), [x >= été])"
            script.write_text("\n".join(["import cvxpy as cp", "x = cp.Variable()", "été = 4", problem]))
            text, told, status = table_process(script, env={**os.environ, "PYTHONIOENCODING": "ascii"})
        self.assertEqual((told, status), ("", 0))
        self.assertIn("x >= \\xe9t\\xe9  1", text)


class Terminal(unittest.TestCase):
    """Standard error at a terminal: what is asked and what comes is the same, and progress is told."""

    def on_terminal(self, *words, out=False):
        """The bytes of standard output and of the terminal, and the status."""
        main, side = pty.openpty()
        command = [sys.executable, "-m", "dcx", "table", *map(str, words)]
        process = subprocess.Popen(command, stdout=side if out else subprocess.PIPE, stderr=side, cwd=TOP)
        os.close(side)
        shown = b""
        try:
            while True:
                part = os.read(main, 4096)
                if not part:
                    break
                shown += part
        except OSError:  # the other side is closed
            pass
        os.close(main)
        text = b"" if out else process.stdout.read()
        if not out:
            process.stdout.close()
        return text.decode(), shown.decode(), process.wait()

    def test_the_same_is_answered(self):
        for folder in ("examples/diet", "examples/messages"):
            files = (f"{folder}/model.py", f"{folder}/settings.txt")
            text, told, status = table(*files)
            self.assertEqual(told, "")
            on_terminal, shown, its_status = self.on_terminal(*files)
            self.assertEqual((on_terminal, its_status), (text, status))
            count = text.count("setting ")
            self.assertIn(f"setting 1 of {len(read_settings((TOP / files[1]).read_bytes()))}", shown)
            self.assertTrue(shown.endswith("\x1b[K"))
            self.assertGreater(count, 1)

    def test_many_settings_are_handed_over_in_parts(self):
        with tempfile.TemporaryDirectory() as folder:
            script, settings = Path(folder, "m.py"), Path(folder, "s.txt")
            problem = "q = cp.Problem(cp.Minimize(x), [x >= p])"
            script.write_text("\n".join(["import cvxpy as cp", "p = cp.Parameter()", "x = cp.Variable()", problem]))
            settings.write_text("".join(f"p = {n}\n" if n % 7 else "r = 1\n" for n in range(60)))
            text, _, status = table(script, settings)
            self.assertEqual(self.on_terminal(script, settings)[::2], (text, status))
            self.assertEqual((status, text.count("optimal"), text.count("stopped: 21")), (6, 51, 9))
            settings.write_text("p = 1\n" * 1001)
            text, shown, status = self.on_terminal(script, settings)
            self.assertEqual((status, shown), (1, ""))
            self.assertIn("refused: 8 TooLong", text)

    def test_colours(self):
        _, shown, _ = self.on_terminal("examples/production/model.py", out=True)
        self.assertIn("\x1b[1mvariables\x1b[0m", shown)
        _, plain, _ = self.on_terminal("examples/production/model.py", "--no-color", out=True)
        self.assertNotIn("\x1b", plain)
        self.assertEqual(re.sub(r"\x1b\[\d*m", "", shown), plain)


def diet():
    return [(TOP / "examples/diet" / name).read_bytes() for name in ("model.py", "settings.txt")]


def caret_char(text):
    """The character above the first caret."""
    lines = text.split("\n")
    at = next(at for at, line in enumerate(lines) if line.strip() == "^")
    return lines[at - 1][lines[at].index("^")]


if __name__ == "__main__":
    unittest.main()
