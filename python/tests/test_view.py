"""Pages that show an answer: their text is read by Python's own parser, and what they add to the report is worked out
here."""
from __future__ import annotations

import base64
import contextlib
import gzip
import io
import os
import random
import re
import tempfile
import unittest
from fractions import Fraction
from html.parser import HTMLParser
from pathlib import Path

import numpy as np

import dcx.cvxpy as cp
from dcx import program
from dcx.__main__ import main
from dcx.reports import read_report
from dcx.view import found, page
from dcx.view.style import STYLE

TOP = Path(__file__).resolve().parents[2]
EMPTY = {"meta", "link", "br", "wbr", "input"}
PAGES = {
    "plan": ["examples/project/model.py", "examples/project/settings.txt"],
    "fit": ["examples/deviations/model.py"],
    "schedule": ["examples/schedule/model.py", "examples/schedule/settings.txt", "--setting", "2"],
    "range": ["examples/prices/model.py", "examples/prices/settings.txt", "--range", "neighbour"],
    "refusal": ["examples/portfolio/too_little_turnover.py"],
}


class Node:
    """An element with its attributes and what is in it."""

    def __init__(self, tag, attributes):
        self.tag, self.attributes, self.parts = tag, attributes, []

    def text(self):
        """The text in it, blanks as one."""
        return " ".join("".join(part if isinstance(part, str) else f" {part.text()} " for part in self.parts).split())

    def all(self, tag=None, class_=None):
        """The elements in it of this tag and class, in order."""
        for part in self.parts:
            if isinstance(part, Node):
                if tag in (None, part.tag) and (class_ is None or class_ in part.attributes.get("class", "").split()):
                    yield part
                yield from part.all(tag, class_)


class Reader(HTMLParser):
    """Reads a page whose elements all end in order."""

    def __init__(self, text):
        super().__init__(convert_charrefs=True)
        self.open = [Node("page", {})]
        self.feed(text)
        self.close()
        assert len(self.open) == 1, self.open[-1].tag

    def handle_starttag(self, tag, attributes):
        node = Node(tag, dict(attributes))
        self.open[-1].parts.append(node)
        if tag not in EMPTY:
            self.open.append(node)

    def handle_endtag(self, tag):
        assert self.open.pop().tag == tag, tag

    def handle_data(self, data):
        self.open[-1].parts.append(data)


def read(text):
    return Reader(text).open[0]


def of(script, settings=None, **words):
    """The page of a script, read."""
    parameter, chosen = words.pop("parameter", None), words.pop("chosen", 1)
    texts = script.encode(), settings and settings.encode(), ("model.py", "settings.txt")
    shown = found(*texts, parameter=parameter, chosen=chosen, **words)
    return read(page(shown, parameter, chosen))


def listing(tree, short=False):
    """Of each line that is shown in the (first) listing: its code, what is beside it, what is below it."""
    whole = next(part for part in tree.all("div", "listing") if ("short" in part.attributes["class"]) == short)
    lines = {}
    for part in whole.parts:
        if "line" in part.attributes["class"].split():
            number = int(next(part.all("span", "no")).text())
            code = next(one for one in part.parts if one.tag == "code")
            lines[number] = [code, next((one.text() for one in part.all(class_="beside")), ""), None]
        else:
            lines[number][2] = part
    return lines


def cells(table):
    return [[cell.text() for cell in row.parts] for row in table.all("tr")]


def command(*words):
    out, told = io.StringIO(), io.StringIO()
    with contextlib.redirect_stdout(out), contextlib.redirect_stderr(told):
        try:
            status = main(["view", *map(str, words)])
        except SystemExit as end:
            status = end.code
    return status, out.getvalue(), told.getvalue()


def contrast(one, other):
    """The contrast of two colours, as WCAG defines it."""

    def light(colour):
        parts = [int(colour[at : at + 2], 16) / 255 for at in (1, 3, 5)]
        linear = (c / 12.92 if c <= 0.04045 else ((c + 0.055) / 1.055) ** 2.4 for c in parts)
        return sum(w * c for w, c in zip((0.2126, 0.7152, 0.0722), linear))

    darker, lighter = sorted((light(one), light(other)))
    return (lighter + 0.05) / (darker + 0.05)


PLAN = """\
# What is made of two goods?
import cvxpy as cp
import numpy as np

need = np.array([[1, 2], [3, 1], [1, 1]])
have = np.array([14, 18, 10])
price = cp.Parameter(nonneg=True, value=7/2)
made = cp.Variable(2, nonneg=True)
late = cp.Variable()
rules = [need @ made <= have]
for i in range(2):
    rules += [made[i] >= i + 1]
prob = cp.Problem(cp.Maximize(price*made[0] + 3*made[1] - late), rules + [\
late >= cp.abs(made[0] - made[1]), late == 2*made[0] - 3])
"""


class Answers(unittest.TestCase):
    def test_plan(self):
        """Values, slacks and whether they bind, as NumPy works them out at the report's point."""
        answer = read_report(program.run("resolve", PLAN, "{}\n").report).answers[0]
        made = np.array(answer.variables["made"].entries)
        slack = np.array([14, 18, 10]) - np.array([[1, 2], [3, 1], [1, 1]]) @ made
        tree = of(PLAN, "{}\n")
        lines = listing(tree)
        self.assertEqual([lines[at][0].text() for at in lines], [" ".join(line.split()) for line in PLAN.splitlines()])
        self.assertEqual(lines[7][1], "price = 3.5 = 7/2")
        self.assertEqual(lines[9][1], "late = " + shown(answer.variables["late"].entries[0]))
        entries = [item.text() for item in lines[8][2].all("li")]
        self.assertEqual(entries, [f"[{at}] {shown(value)}" for at, value in enumerate(made)])
        rows = cells(next(lines[10][2].all("table")))
        self.assertEqual(rows[0][:3], ["entry", "slack", "multiplier"])
        for at in range(3):
            multiplier, binds = answer.duals[1].entries[at], "binds" if slack[at] == 0 else ""
            self.assertEqual(rows[at + 1], [f"[{at}]", shown(slack[at]), shown(multiplier), binds])
        # A row for each turn of the loop.
        rows = cells(next(lines[12][2].all("table")))
        for i in range(2):
            left = made[i] - (i + 1)
            self.assertEqual(rows[i + 1][:3], [f"i = {i}", shown(left), shown(answer.duals[i + 2].entries[0])])
        self.assertIn("greatest objective " + shown(answer.value), lines[13][1])
        distance = answer.variables["late"].entries[0] - abs(made[0] - made[1])
        rows = cells(next(lines[13][2].all("table")))
        multiplier = answer.duals[4].entries[0]
        self.assertEqual(rows[1][:3], ["late >= cp.abs(made[0] - made[1])", shown(distance), shown(multiplier)])
        self.assertEqual(rows[2][:3], ["late == 2*made[0] - 3", "0", shown(answer.duals[5].entries[0])])

    def test_ranks_are_exact(self):
        """Multipliers that floats don't tell apart are put in order all the same."""
        script = (
            "import cvxpy as cp\nx = cp.Variable(3)\n"
            "prob = cp.Problem(cp.Maximize(100000000000000000001*x[0] + 100000000000000000002*x[1]"
            " - 100000000000000000000*x[2]), [x[0] <= 1, x[1] <= 1, x[2] >= 1])\n"
        )
        table = next(table for table in of(script, "{}\n").all("table", "sortable"))
        keys = [row.attributes["data-k"].split() for row in next(table.all("tbody")).all("tr")]
        self.assertEqual([row[0] for row in keys], ["1", "2", "3"])
        self.assertEqual([row[-1] for row in keys], ["2", "3", "1"])

    def test_infeasible(self):
        """The schedule's chain of tasks: 2 + 2 + 3 + 1 + 3 days are 11, and there are 10."""
        script = (TOP / "examples/schedule/model.py").read_text()
        tree = of(script, (TOP / "examples/schedule/settings.txt").read_text(), chosen=2)
        lines = listing(tree)
        marked = {at: code.text() for at, (code, beside, _) in lines.items() if "in the way" in beside}
        self.assertEqual(list(marked), [17, 20, 22, 23, 25])
        for at, (code, beside, below) in lines.items():
            if at in marked:
                self.assertEqual(beside, "in the way · multiplier 1")
                self.assertEqual([mark.text() for mark in code.all("mark")], [marked[at].partition(",")[0].strip()])
                self.assertIn("the others can be kept", below.text())
        self.assertEqual(lines[16][1], "no point; gap 1")
        self.assertEqual({lines[at][1] for at in (18, 19, 21, 24, 26)}, {"multiplier 0"})
        # Without the fourth one: the point of iis.txt.
        self.assertRegex(lines[20][2].text(), r"start 6 entries \[0\] 0 \[1\] 2 \[2\] 2 \[3\] 3 \[4\] 6 \[5\] 7")

    def test_unbounded(self):
        script = "import cvxpy as cp\nx = cp.Variable(nonneg=True)\nprob = cp.Problem(cp.Minimize(1 - 2*x), [x >= 3])\n"
        lines = listing(of(script, "{}\n"))
        told = re.search(r"x at the point = (\S+) x along the ray = (\S+)", lines[2][1])
        point, ray = (Fraction(number) for number in told.groups())
        self.assertGreaterEqual(point, 3)
        self.assertGreater(ray, 0)
        self.assertIn(f"falls for ever: {shown(1 - 2*point)} at the point, {shown(2*ray)} for each step", lines[3][1])

    def test_whole(self):
        script = (
            "import cvxpy as cp\nx = cp.Variable(integer=True)\n"
            "prob = cp.Problem(cp.Minimize(x), [2*x >= 5, x <= 9])\nprob.solve()\n"
        )
        tree = of(script)
        lines = listing(tree)
        self.assertEqual(lines[2][1], "x = 3")
        self.assertEqual(cells(next(lines[3][2].all("table")))[1:], [["2*x >= 5", "1"], ["x <= 9", "6"]])
        self.assertIn("answers in whole numbers have none", tree.text())

    def test_refusal(self):
        script = (TOP / "examples/portfolio/too_little_turnover.py").read_text()
        lines = listing(of(script))
        self.assertEqual([mark.text() for mark in lines[10][0].all("mark")], [">="])
        self.assertIn("isn't convex, or the greater one isn't concave", lines[10][2].text())
        self.assertEqual([at for at in lines if lines[at][2] is not None], [10])
        # At the end of the file, and in the settings.
        self.assertIn("line 2 of model.py", of("import cvxpy as cp\n").text().replace("line 1 of", "line 2 of"))
        lines = listing(of(PLAN, "{}\nprice = 1\nprice = [\n"), short=True)
        self.assertEqual([at for at in lines if lines[at][2] is not None], [3])

    def test_stop(self):
        tree = of(PLAN, "price = -1\nprize = 3\n")
        self.assertIn("Entry 0 of the parameter price is -1", listing(tree)[7][2].text())
        self.assertIn("2 settings: 2 stopped", tree.text())
        self.assertIn("The setting names prize, which is no parameter", tree.text())

    def test_solves_of_a_script(self):
        tree = of((TOP / "examples/guide/hours.py").read_text())
        rows = cells(next(tree.all("table", "sortable")))
        self.assertEqual(rows[0][:2], ["solve", "at"])
        self.assertEqual([row[2] for row in rows[1:]], ["60", "45"])
        dots = list(next(tree.all("svg")).all("circle"))
        report = read_report(program.run("solve", (TOP / "examples/guide/hours.py").read_text()).report)
        values = [answer.value for answer in report.answers]
        places = {(dot.attributes["data-x"], dot.attributes["data-y"]) for dot in dots}
        self.assertEqual(places, {("60", str(values[0])), ("45", str(values[1]))})


def shown(value):
    """A number as the page tells it: six digits, and the fraction with whether both are equal."""
    value = Fraction(value)
    if value.denominator == 1:
        return str(value.numerator)
    told = f"{float(value):.6g}"
    return f"{told} {'=' if Fraction(told) == value else '≈'} {value}"


def weighted(numbers):
    """The sum of the entries of x, each times its number, as a script says it."""
    return " + ".join(f"{number}*x[{at}]" for at, number in enumerate(numbers))


class Ranges(unittest.TestCase):
    def course(self, script, settings, name):
        return found(script.encode(), settings.encode(), parameter=name).course

    def test_against_single_answers(self):
        """Random problems: the pieces have the values that `resolve` prints, and no point beyond their ends."""
        seen = set()
        for seed in range(6):
            chance = random.Random(seed)
            rows = [[chance.randint(-3, 4) for _ in range(3)] for _ in range(4)]
            sides = [
                f"{weighted(row)} >= {chance.randint(-4, 6)} + {chance.randint(-2, 2)}*p" for row in rows
            ]
            sense, sign = (("Minimize", 1), ("Maximize", -1))[seed % 2]
            costs = [sign * chance.randint(1, 5) for _ in range(3)]
            attribute = ("", "nonneg=True", "nonpos=True")[seed % 3]
            script = (
                f"import cvxpy as cp\np = cp.Parameter({attribute})\nx = cp.Variable(3, nonneg=True)\n"
                f"prob = cp.Problem(cp.{sense}({weighted(costs)}), [{', '.join(sides)}])\n"
            )
            one = self.course(script, "p = 0\n", "p")
            if one.refused is not None:
                seen.add("refused")
                continue
            asked = [Fraction(chance.randint(-400, 400), 30) for _ in range(12)]
            for piece in one.pieces:
                asked += [place for place in (piece.low, piece.high) if place is not None]
            for end, place in (("low", one.pieces[0].low), ("high", one.pieces[-1].high)):
                self.assertIn(one.ends[end], (None, "infeasible", "sign"))
                seen.add(one.ends[end])
                if one.ends[end] == "infeasible":
                    asked.append(place + Fraction(-1 if end == "low" else 1, 10**9))
            if attribute:
                asked = [abs(place) if attribute == "nonneg=True" else -abs(place) for place in asked]
            settings = "".join(f"p = {place}\n" for place in asked)
            answers = read_report(program.run("resolve", script, settings).report).answers
            for place, answer in zip(asked, answers):
                there = [
                    piece for piece in one.pieces
                    if (piece.low is None or piece.low <= place) and (piece.high is None or place <= piece.high)
                ]
                self.assertEqual(bool(there), answer.status == "optimal", (seed, place, one))
                for piece in there:
                    self.assertEqual(piece.at(place), answer.value, (seed, place))
            for left, right in zip(one.pieces, one.pieces[1:]):
                self.assertEqual(left.high, right.low)
                self.assertNotEqual(left.slope, right.slope)
        self.assertLessEqual({None, "infeasible", "sign"}, seen)

    def test_degenerate(self):
        """Where bases that differ have one plan, ranges may be single points: the value is |p| + |p - 1| anyway."""
        script = (
            "import cvxpy as cp\np = cp.Parameter()\nx = cp.Variable(2)\n"
            "prob = cp.Problem(cp.Minimize(cp.abs(x[0]) + cp.abs(x[1])), "
            "[x[0] == p, x[1] == p - 1, x[0] + x[1] == 2*p - 1, x[0] >= p])\n"
        )
        one = self.course(script, "p = 0\n", "p")
        pieces = [(piece.low, piece.high, piece.value, piece.slope) for piece in one.pieces]
        self.assertEqual(pieces, [(None, 0, 1, -2), (0, 1, 1, 0), (1, None, -1, 2)])

    def test_page(self):
        """The stall's prices: the breakpoints 12/5, 3 and 18/5 by hand, in the table and as points of the plot."""
        files = [(TOP / f"examples/prices/{name}").read_text() for name in ("model.py", "settings.txt")]
        tree = of(*files, parameter="neighbour")
        section = next(part for part in tree.all("section") if part.attributes["id"] == "range")
        corners = [
            tuple(Fraction(dot.attributes[key]) for key in ("data-x", "data-y"))
            for dot in section.all("circle", "corner")
        ]
        self.assertEqual(corners, [(Fraction(12, 5), 288), (3, 360), (Fraction(18, 5), 408)])
        rows = cells(next(section.all("table")))
        self.assertEqual([row[:3] for row in rows[1:]], [
            ["2.4 = 12/5", "3", "120 × neighbour"], ["3", "3.6 = 18/5", "120 + 80 × neighbour"],
            ["3.6 = 18/5", "without end", "408"],
        ])
        # The dots lie where their numbers say: on one line between two ticks' places.
        dots = [tuple(float(dot.attributes[key]) for key in ("cx", "cy")) for dot in section.all("circle", "corner")]
        for axis in (0, 1):
            told, drawn = ([float(one[axis]) for one in listed] for listed in (corners, dots))
            for number, place in zip(told, drawn):
                part = (place - drawn[0]) / (drawn[2] - drawn[0])
                self.assertAlmostEqual((number - told[0]) / (told[2] - told[0]), part, delta=1e-3)
        self.assertIn("There is no point below 2.4 = 12/5", section.text())
        self.assertIn("no range", of(*files, parameter="neighbour", chosen=4).text())
        self.assertIn("no parameter of this name", of(*files, parameter="price").text())


class Pages(unittest.TestCase):
    def test_hostile(self):
        """Names, comments and file names are text, whatever they look like; nothing is fetched."""
        evil = "</script></style><script>alert(1)</script><img src=x onerror=alert(1)>\"'&lt;"
        script = (
            f"# {evil}\nimport cvxpy as cp\nx = cp.Variable()  # {evil}\np = cp.Parameter()\n"
            "prob = cp.Problem(cp.Minimize(x), [x >= p])\n"
        )
        names = f"{evil}/a<b>.py", '"s<i>.txt'
        shown_page = found(script.encode(), f"p = 1 # {evil}\np = 2\n".encode(), names, parameter="p")
        for text in (page(shown_page, "p"), page(found(f"{script}{evil}".encode(), None, (f"a{evil[:30]}.py", "")))):
            tree = read(text)
            self.assertEqual(len(list(tree.all("script"))), 1)
            self.assertEqual(len(list(tree.all("style"))), 1)
            self.assertEqual(list(tree.all("img")), [])
            self.assertEqual(listing(tree)[1][0].text(), " ".join(f"# {evil}".split()))
            for node in tree.all():
                self.assertFalse([key for key in node.attributes if key.startswith("on")])
                for key in ("href", "src", "action"):
                    link = node.attributes.get(key)
                    self.assertTrue(link is None or link.startswith(("#", "data:")), link)
            self.assertNotIn("@import", text)
            self.assertNotIn("url(", text)
            self.assertNotIn("http", text)

    def test_certificate(self):
        """What a page hands out is what the program takes, also where it is packed."""
        for count in (3, 700):
            settings = "".join(f"price = {at}/7\n" for at in range(1, count + 1))
            tree = of(PLAN, settings)
            files = {}
            for link in next(tree.all("ul", "downloads")).all("a"):
                data = base64.b64decode(link.attributes["href"].partition("base64,")[2])
                name = link.attributes["download"]
                files[name] = gzip.decompress(data) if name.endswith(".gz") else data
            names = next(tree.all("pre")).text().rpartition("certify ")[2].split()
            contents = [files.get(name, files.get(f"{name}.gz")) for name in names]
            self.assertEqual(contents[:2], [PLAN.encode(), settings.encode()])
            self.assertEqual(program.run("certify", *contents).report.decode(), f"certified {count}\n")
            self.assertIn(f"said certified {count}", tree.text())

    def test_thousand_settings(self):
        settings = "".join(f"price = {at}/9\n" for at in range(1000))
        text = page(found(PLAN.encode(), settings.encode(), ("model.py", "settings.txt")))
        self.assertLess(len(text), 1_000_000)
        tree = read(text)
        self.assertLess(sum(1 for _ in tree.all()), 18_500)  # a browser opens as many in well under a second
        rows = list(next(tree.all("table", "sortable")).all("tr"))
        self.assertEqual(len(rows), 1001)
        answers = read_report(program.run("resolve", PLAN, settings).report).answers
        values = [answer.value for answer in answers]
        column = [cell.text() for cell in rows[0].parts].index("greatest objective")
        self.assertEqual([row.parts[column].text() for row in rows[1:]], [shown(value) for value in values])
        order = sorted(set(values))
        ranks = [int(row.attributes["data-k"].split()[column]) for row in rows[1:]]
        self.assertEqual(ranks, [order.index(value) + 1 for value in values])
        for svg in list(tree.all("svg"))[:1]:
            self.assertEqual([Fraction(dot.attributes["data-y"]) for dot in svg.all("circle")], values)
        self.assertIn("The page would grow too large", tree.text())
        # Each link leads to a place, or the page says why not.
        places = {node.attributes["id"] for node in tree.all() if "id" in node.attributes}
        links = [node.attributes["href"][1:] for node in tree.all("a") if node.attributes["href"].startswith("#")]
        self.assertGreater(len(links), 40)
        self.assertEqual(set(links) - places, set())
        self.assertEqual(len(places), sum("id" in node.attributes for node in tree.all()))

    def test_contrast(self):
        """Text has the contrast of WCAG's AA on each ground, in both schemes and on paper."""
        schemes = re.findall(r":root \{(.*?)\}", STYLE, re.S)
        self.assertEqual(len(schemes), 3)
        for scheme in schemes:
            colours = {
                name: "#" + "".join(c * 2 for c in code) if len(code) == 3 else f"#{code}"
                for name, code in re.findall(r"--(\w+): #(\w+)", scheme)
            }
            for ink in ("ink", "quiet", "accent"):
                for ground in ("paper", "soft", "tint"):
                    self.assertGreaterEqual(contrast(colours[ink], colours[ground]), 4.5, (ink, ground))

    def test_structure(self):
        """Names for who listens: one first head, sections with heads, labels of plots and of regions that scroll."""
        files = [(TOP / f"examples/prices/{name}").read_text() for name in ("model.py", "settings.txt")]
        tree = of(*files, parameter="neighbour")
        self.assertEqual(len(list(tree.all("h1"))), 1)
        self.assertEqual(next(tree.all("html")).attributes["lang"], "en")
        for section in tree.all("section"):
            self.assertEqual(len(list(section.all("h2"))), 1)
        for node in [*tree.all("svg"), *tree.all("div", "wide"), *tree.all("div", "listing")]:
            self.assertTrue(node.attributes.get("aria-label"))
        self.assertEqual({node.attributes["tabindex"] for node in tree.all("div", "wide")}, {"0"})

    def test_command(self):
        with tempfile.TemporaryDirectory() as folder:
            model = Path(folder) / "model.py"
            model.write_text(PLAN)
            status, told, _ = command(model)
            self.assertEqual((status, told), (0, f"{folder}/model.html\n"))
            self.assertIn("greatest objective", (Path(folder) / "model.html").read_text())
            settings = Path(folder) / "settings.txt"
            settings.write_text("price = 1\nprice = -1\n")
            self.assertEqual(command(model, settings, "-o", Path(folder) / "other.html", "--warm")[0], 6)
            self.assertIn("1 stopped", (Path(folder) / "other.html").read_text())
            model.write_text("import cvxpy as cp\nx = y\n")
            self.assertEqual(command(model)[0], 1)
            self.assertEqual(command(Path(folder) / "nothing.py")[0], 3)
            self.assertEqual(command(model, "--warm")[0], 2)
            model.write_text(PLAN)
            self.assertEqual(command(model, "-o", Path(folder) / "no" / "page.html")[0], 4)

    def test_recorded(self):
        x, p = cp.Variable(2, nonneg=True, name="x<b>"), cp.Parameter(nonneg=True, value=4, name="p")
        prob = cp.Problem(cp.Maximize(3 * x[0] + 2 * x[1]), [x[0] + x[1] <= p, 3 * x[0] <= 10])
        self.assertIsNone(prob._repr_html_())
        prob.solve()
        p.value = 5  # the answer is that of 4
        tree = read(prob._repr_html_())
        self.assertEqual([node.tag for node in tree.all() if node.tag in ("script", "b") and "<" in node.text()], [])
        self.assertIn("34/3", tree.text())
        self.assertEqual(cells(next(tree.all("table")))[1], ["x<b>[0] + x<b>[1] <= p", "0", "2", "binds"])
        with tempfile.TemporaryDirectory() as folder:
            file = os.path.join(folder, "page.html")
            self.assertEqual(prob.view(file, p), file)
            text = Path(file).read_text()
            self.assertEqual(prob.view(file, "p"), file)
            self.assertEqual(Path(file).read_text(), text)
            self.assertIn("The value over <code>p</code>", text)
            self.assertIn("# " + os.path.basename(__file__), text)
            with self.assertRaises(KeyError):
                prob.view(file, cp.Parameter())

    def test_kept_pages(self):
        """The pages of docs/pages/ are those that `tools/pages` makes, but for the program's checksum. The one of a
        hundred settings, which takes longest, is left out."""
        before = os.getcwd()
        os.chdir(TOP)
        try:
            with tempfile.TemporaryDirectory() as folder:
                for name, words in PAGES.items():
                    made = Path(folder) / f"{name}.html"
                    command(*words, "-o", made)
                    kept = (TOP / "docs" / "pages" / f"{name}.html").read_text()
                    checksum = r"(the program</th><td><code>)\w+"
                    self.assertEqual(re.sub(checksum, r"\1", made.read_text()), re.sub(checksum, r"\1", kept), name)
        finally:
            os.chdir(before)


if __name__ == "__main__":
    unittest.main()
