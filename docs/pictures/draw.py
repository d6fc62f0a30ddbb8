#!/usr/bin/env python3
"""Draws the pictures of this folder: five answers, from the scripts and reports of examples/ and of the guide, the architecture, and the floors
of crates.txt.

With --check nothing is written: it tells which pictures aren't what it would draw, and ends with status 1 if there is one.
"""

import ast
import math
import re
import sys
from fractions import Fraction
from pathlib import Path
from xml.sax.saxutils import escape

HERE = Path(__file__).resolve().parent
EXAMPLES = HERE.parent.parent / "examples"

INK = "#24292f"
FAINT = "#d0d7de"
GREY = "#6e7781"
COLOURS = ["#0969da", "#bf3989", "#1a7f37"]


# ---- scripts and reports
def answers(example):
    """The settings of a report in order: a status each, and the values of its lines `var` by their names."""
    found = []
    for line in (EXAMPLES / example / "report.txt").read_text().splitlines():
        words = line.split()
        if words[0] in ("setting", "solve"):
            found.append((words[2], {}))
        elif words[0] == "var":
            found[-1][1][words[1]] = [Fraction(word) for word in line.split("=")[1].split()]
    return found


def arrays(example):
    """The arrays that a script writes down as `name = np.array([..])`."""
    found = {}
    for line in ast.parse((EXAMPLES / example / "model.py").read_text()).body:
        if isinstance(line, ast.Assign) and isinstance(line.value, ast.Call) and ast.unparse(line.value.func) == "np.array":
            found[line.targets[0].id] = ast.literal_eval(line.value.args[0])
    return found


def settings(example):
    """The lines of a settings file, without those that are comments."""
    lines = (EXAMPLES / example / "settings.txt").read_text().splitlines()
    return [line for line in lines if line and not line.startswith("#")]


# ---- drawing
def number(x):
    """A coordinate, to a tenth of a pixel."""
    return f"{float(x):.1f}".removesuffix(".0")


class Picture:
    """Lines, shapes and words, in the order in which they were put."""

    def __init__(self, title, width, height):
        self.width, self.height = width, height
        self.parts = [f"<title>{escape(title)}</title>", f'<rect width="{width}" height="{height}" fill="#ffffff"/>']

    def put(self, tag, **attributes):
        """A shape. An underscore in the name of an attribute stands for a hyphen."""
        told = "".join(f' {name.replace("_", "-")}="{number(v) if isinstance(v, (int, float, Fraction)) else v}"' for name, v in attributes.items())
        self.parts.append(f"<{tag}{told}/>")

    def line(self, a, b, stroke=INK, **more):
        self.put("line", x1=a[0], y1=a[1], x2=b[0], y2=b[1], stroke=stroke, **more)

    def path(self, points, stroke, **more):
        self.put("polyline", points=" ".join(f"{number(x)},{number(y)}" for x, y in points), fill="none", stroke=stroke, **more)

    def words(self, x, y, text, anchor="middle", size=13, fill=INK, **more):
        told = "".join(f' {name.replace("_", "-")}="{v}"' for name, v in more.items())
        self.parts.append(f'<text x="{number(x)}" y="{number(y)}" text-anchor="{anchor}" font-size="{size}" fill="{fill}"{told}>{escape(text)}</text>')

    def arrow(self, a, b, stroke=INK, width=1.2, dash=None):
        """A line from a to b, and a head at b."""
        angle = math.atan2(b[1] - a[1], b[0] - a[0])
        size = 6 + width
        back = (b[0] - size * math.cos(angle), b[1] - size * math.sin(angle))
        more = {"stroke_dasharray": dash} if dash else {}
        self.line(a, back, stroke, stroke_width=width, **more)
        sides = [(b[0] - size * math.cos(angle + t), b[1] - size * math.sin(angle + t)) for t in (-0.45, 0.45)]
        self.put("polygon", points=" ".join(f"{number(x)},{number(y)}" for x, y in [b] + sides), fill=stroke)

    def text(self):
        head = f'<svg xmlns="http://www.w3.org/2000/svg" viewBox="0 0 {self.width} {self.height}" width="{self.width}" height="{self.height}" font-family="sans-serif">'
        return "\n".join([head] + self.parts + ["</svg>", ""])


class Plot:
    """A frame with axes, whose lower left corner is at the least numbers of both."""

    def __init__(self, picture, left, top, width, height, x_to, y_from, y_to):
        self.picture, self.left, self.top, self.width, self.height = picture, left, top, width, height
        self.x_to, self.y_from, self.y_to = x_to, y_from, y_to

    def at(self, x, y):
        return (self.left + self.width * float(x) / self.x_to, self.top + self.height * float(self.y_to - y) / (self.y_to - self.y_from))

    def axes(self, x_step, y_step, x_name, y_name):
        bottom = self.top + self.height
        for y in range(self.y_from, self.y_to + 1, y_step):
            _, h = self.at(0, y)
            self.picture.line((self.left, h), (self.left + self.width, h), FAINT)
            self.picture.words(self.left - 8, h + 4, str(y), "end", 12, GREY)
        for x in range(0, self.x_to + 1, x_step):
            w, _ = self.at(x, self.y_from)
            self.picture.line((w, bottom), (w, bottom + 5), GREY)
            self.picture.words(w, bottom + 20, str(x), "middle", 12, GREY)
        self.picture.words(self.left + self.width / 2, bottom + 40, x_name)
        self.picture.words(self.left, self.top - 14, y_name, "start")


def quantiles():
    """The twelve trips, and the three lines of the answer."""
    given = arrays("quantiles")
    answer = answers("quantiles")[0][1]
    picture = Picture("Travel times and their quartiles as lines", 720, 430)
    plot = Plot(picture, 60, 50, 460, 320, 20, 0, 60)
    plot.axes(5, 10, "distance in kilometres", "minutes")
    names = ["a quarter lies below", "half", "three quarters"]
    below = plot.top + plot.height
    for name, colour, start, slope in zip(names, COLOURS, answer["start"], answer["slope"]):
        x, y = plot.at(20, start + 20 * slope)
        picture.line(plot.at(0, start), (x, y), colour, stroke_width=2)
        # Names of lines that end close to each other stand one above the other.
        y = min(y, below - 40)
        picture.words(x + 10, y - 3, name, "start", 13, colour)
        picture.words(x + 10, y + 13, f"{start} + {slope} a kilometre", "start", 13, colour)
        below = y
    for x, y in zip(given["distance"], given["minutes"]):
        point = plot.at(x, y)
        picture.put("circle", cx=point[0], cy=point[1], r=4, fill=INK)
    return picture


def trajectory():
    """Where the cart is after each step, and the force of each step."""
    answer = answers("trajectory")[0][1]
    picture = Picture("A cart that comes from rest to rest with little force", 760, 390)
    left = Plot(picture, 50, 50, 300, 280, 12, 0, 10)
    left.axes(3, 2, "step", "position")
    points = [left.at(step, place) for step, place in enumerate(answer["position"])]
    picture.path(points, COLOURS[0], stroke_width=2)
    for x, y in points:
        picture.put("circle", cx=x, cy=y, r=3, fill=COLOURS[0])
    right = Plot(picture, 430, 50, 300, 280, 12, -4, 4)
    right.axes(3, 2, "step", "force")
    for step, force in enumerate(answer["force"]):
        a, b = right.at(step + 0.2, max(force, 0)), right.at(step + 0.8, min(force, 0))
        if force != 0:
            picture.put("rect", x=a[0], y=a[1], width=b[0] - a[0], height=b[1] - a[1], fill=COLOURS[1])
            low = force < 0
            picture.words((a[0] + b[0]) / 2 + (-8 if low else 8), b[1] + 4 if low else a[1] + 4, str(force), "end" if low else "start", 13, COLOURS[1], dx=-8 if low else 8)
    picture.line(right.at(0, 0), right.at(12, 0), GREY)
    return picture


def flow():
    """The network at the first setting: what flows over each pipe, and how much may."""
    given = arrays("flow")
    answer = answers("flow")[0][1]["flow"]
    wanted = ast.literal_eval(settings("flow")[0].split("=")[1].strip())
    picture = Picture("The cheapest way through a network of pipes", 760, 400)
    places = [(80, 190), (260, 70), (260, 310), (480, 70), (480, 310), (670, 190)]
    for pipe, (amount, most, cost) in enumerate(zip(answer, given["most"], given["cost"])):
        column = [row[pipe] for row in given["network"]]
        a, b = places[column.index(-1)], places[column.index(1)]
        length = math.dist(a, b)
        along = ((b[0] - a[0]) / length, (b[1] - a[1]) / length)
        colour = FAINT if amount == 0 else COLOURS[1] if amount == most else COLOURS[0]
        start = (a[0] + 26 * along[0], a[1] + 26 * along[1])
        end = (b[0] - 26 * along[0], b[1] - 26 * along[1])
        picture.arrow(start, end, colour, 1.5 + 0.6 * float(amount))
        x, y = (a[0] + b[0]) / 2, (a[1] + b[1]) / 2
        picture.put("rect", x=x - 36, y=y - 18, width=72, height=36, rx=4, fill="#ffffff", stroke=FAINT)
        picture.words(x, y - 3, f"{amount} of {most}", "middle", 13, GREY if amount == 0 else colour)
        picture.words(x, y + 12, f"cost {cost}", "middle", 11, GREY)
    for place, (x, y) in enumerate(places):
        picture.put("circle", cx=x, cy=y, r=24, fill="#ffffff", stroke=INK, stroke_width=1.5)
        picture.words(x, y + 5, str(place), "middle", 15)
        if wanted[place] != 0:
            told = f"gives {-wanted[place]}" if wanted[place] < 0 else f"wants {wanted[place]}"
            picture.words(x, y - 34 if y < 100 else y + 44, told, "middle", 13)
    for x, colour, told in ((250, COLOURS[0], "flow"), (350, COLOURS[1], "full"), (450, FAINT, "no flow")):
        picture.line((x, 376), (x + 28, 376), colour, stroke_width=4)
        picture.words(x + 36, 380, told, "start", 13, GREY)
    return picture


class Sides:
    """The linear expressions of a script over two variables, and the constraints and the objective that are made of them."""

    def __init__(self, script, first, second):
        self.names, self.bounds, self.objective = {}, [], None
        self.first, self.second = first, second
        for line in ast.parse((EXAMPLES / script).read_text()).body:
            if isinstance(line, ast.Assign) and not isinstance(line.value, ast.Call):
                self.names[line.targets[0].id] = self.weights(line.value)
            for node in ast.walk(line):
                if isinstance(node, ast.Compare):
                    self.bounds.append((*self.weights(node.left), node.comparators[0].value))
                elif isinstance(node, ast.Call) and ast.unparse(node.func) == "cp.Maximize":
                    self.objective = self.weights(node.args[0])

    def weights(self, expression):
        """How often an expression counts each of the two variables."""
        text = compile(ast.Expression(expression), "script", "eval")
        units = ((1, 0), (0, 1))
        return tuple(eval(text, {self.first: a, self.second: b, **{n: a * w[0] + b * w[1] for n, w in self.names.items()}}) for a, b in units)


def shown(page, words):
    """The lines `var` and `value` of the report that a page of docs/ shows below a command line."""
    text = (HERE.parent / page).read_text()
    report = text.split(f"$ ./dcx {words}\n")[1].split("```")[0]
    return {line.split()[1 if line.startswith("var") else 0]: Fraction(line.split()[-1]) for line in report.splitlines() if line.startswith(("var", "value"))}


def region():
    """The plans of the guide's workshop, its best one, and the line of the plans that bring as much."""
    sides = Sides("guide/workshop.py", "tables", "chairs")
    best = shown("GUIDE.md", "solve examples/guide/workshop.py")
    picture = Picture("The plans of a workshop, and the best of them", 720, 430)
    plot = Plot(picture, 60, 50, 360, 320, 12, 0, 40)
    plot.axes(2, 10, "tables", "chairs")
    corners = [(0, 0)]
    boards, hours = sides.bounds
    corners.append((Fraction(boards[2], boards[0]), 0))
    det = boards[0] * hours[1] - boards[1] * hours[0]
    corners.append((Fraction(boards[2] * hours[1] - boards[1] * hours[2], det), Fraction(boards[0] * hours[2] - boards[2] * hours[0], det)))
    corners.append((0, Fraction(hours[2], hours[1])))
    picture.put("polygon", points=" ".join(f"{number(x)},{number(y)}" for x, y in (plot.at(*corner) for corner in corners)), fill="#ddf4ff", stroke="none")

    def line(weights, end, colour, **more):
        low = Fraction(end - weights[1] * 40, weights[0])
        a = (low, 40) if low > 0 else (0, Fraction(end, weights[1]))
        high = Fraction(end, weights[0])
        b = (high, 0) if high < 12 else (12, Fraction(end - weights[0] * 12, weights[1]))
        picture.line(plot.at(*a), plot.at(*b), colour, stroke_width=2, **more)

    line(boards[:2], boards[2], COLOURS[0])
    line(hours[:2], hours[2], COLOURS[2])
    line(sides.objective, best["value"], COLOURS[1], stroke_dasharray="6 4")
    x, y = plot.at(best["tables"], best["chairs"])
    picture.put("circle", cx=x, cy=y, r=5, fill=COLOURS[1])
    picture.words(x + 10, y - 8, f"{best['tables']} tables, {best['chairs']} chairs", "start", 13, COLOURS[1])
    for row, (colour, told) in enumerate((
        (COLOURS[0], f"boards: {boards[0]} tables + chairs = {boards[2]}"),
        (COLOURS[2], f"hours: {hours[0]} tables + {hours[1]} chairs = {hours[2]}"),
        (COLOURS[1], f"money: {sides.objective[0]} tables + {sides.objective[1]} chairs = {best['value']}"),
    )):
        picture.words(440, 90 + 22 * row, told, "start", 13, colour)
    picture.words(*plot.at(2.2, 10), "plans", "middle", 13, GREY)
    return picture


def spans():
    """What a day brings to the coffee stall, as the price next door moves: the spans of a report of `range`."""
    told, infeasible = [], []
    for line, setting in zip((EXAMPLES / "prices" / "range.txt").read_text().splitlines(), settings("prices")):
        words = line.split()
        price = Fraction(setting.split("=")[1].strip())
        if words[2] != "range":
            infeasible.append(price)
            continue
        low, high, value, slope = words[5], words[7], Fraction(words[9]), Fraction(words[11])
        told.append((Fraction(low), 5 if high == "none" else Fraction(high), value, slope, price))
    picture = Picture("What a day brings, along the price next door", 720, 430)
    plot = Plot(picture, 60, 50, 420, 320, 5, 0, 500)
    plot.axes(1, 100, "what the neighbour asks for a medium cup", "a day brings")
    for (low, high, value, slope, price), colour in zip(told, COLOURS):
        picture.line(plot.at(low, value + slope * low), plot.at(high, value + slope * high), colour, stroke_width=3)
        x, y = plot.at(price, value + slope * price)
        picture.put("circle", cx=x, cy=y, r=5, fill=colour)
    for row, ((low, high, value, slope, price), colour) in enumerate(zip(told, COLOURS)):
        end = "on" if high == 5 else f"to {float(high):.2f}"
        picture.words(500, 120 + 44 * row, f"{float(low):.2f} {end}:", "start", 13, colour)
        picture.words(500, 138 + 44 * row, f"{value} + {slope} times the price", "start", 13, colour)
    for price in infeasible:
        x, y = plot.at(price, 0)
        picture.words(x, y - 6, "×", "middle", 18, GREY)
        picture.words(x - 10, y - 10, "no prices at all", "end", 12, GREY)
    return picture


# ---- the architecture
class Box:
    """A crate and what it does, in a rectangle."""

    def __init__(self, picture, left, top, width, name, *does, height=0):
        self.left, self.top, self.width = left, top, width
        self.height = height or 28 + 16 * len(does)
        picture.put("rect", x=left, y=top, width=width, height=self.height, rx=5, fill="#f6f8fa", stroke=INK)
        picture.words(left + width / 2, top + 19, name, "middle", 13, INK, font_weight="bold")
        for row, text in enumerate(does):
            picture.words(left + width / 2, top + 36 + 16 * row, text, "middle", 12)

    def side(self, which, share=0.5):
        """A point of a side, at a share of its length."""
        if which in ("top", "bottom"):
            return (self.left + share * self.width, self.top + (self.height if which == "bottom" else 0))
        return (self.left + (self.width if which == "right" else 0), self.top + share * self.height)


def architecture():
    """The way of a script through the crates, what is asked at each setting, and the way of a certificate."""
    picture = Picture("From a script to answers, and from certificates to a verdict", 930, 846)
    top = Box(picture, 20, 46, 880, "dcx, dcx_top", "run: a command line (dcx_words), the files of a library and a sink for the report (dcx_host)")
    picture.words(170, 20, "command line, files", "middle", 13)
    picture.arrow((170, 26), (170, 46))
    picture.words(750, 20, "report, status", "middle", 13)
    picture.arrow((750, 46), (750, 26))

    picture.words(20, 122, "dcx_front", "start", 13, INK, font_weight="bold")
    read = Box(picture, 20, 132, 250, "dcx_read", "bytes to a syntax tree,", "over the tokens of dcx_tokens")
    elab = Box(picture, 335, 132, 250, "dcx_elab", "the script is carried out: its", "problem, the setting of each solve")
    rules = Box(picture, 650, 132, 250, "dcx_rules", "whether the rules accept", "the problem, by curvatures")
    picture.arrow(top.side("bottom", 0.142), read.side("top"))
    picture.arrow(read.side("right"), elab.side("left"))
    picture.arrow(elab.side("right"), rules.side("left"))

    rail = 230
    picture.put("rect", x=20, y=rail, width=880, height=30, rx=15, fill="#ddf4ff", stroke=COLOURS[0])
    picture.words(460, rail + 20, "an accepted problem (dcx_tree), or the refusal of what is at fault first", "middle", 13)
    picture.arrow(rules.side("bottom"), (775, rail))

    picture.words(145, 292, "a session, setting after setting (dcx_cache)", "middle", 13, GREY)
    chain = [
        ("dcx_settings, dcx_overlay", "a line of the settings file, laid", "over the script's last values"),
        ("dcx_fit", "the setting fits the parameters"),
        ("dcx_graph", "reduce once, fix at a setting:", "rows with fractions"),
        ("dcx_std", "rows of whole numbers"),
        ("dcx_simplex, dcx_warm", "Bland's rule, or from an earlier", "basis: the tableau of dcx_chained"),
        ("dcx_graph, dcx_postsolve", "map_back: from the last basis", "to an answer of the problem"),
    ]
    boxes, y = [], 304
    for name, *does in chain:
        boxes.append(Box(picture, 20, y, 250, name, *does))
        y += boxes[-1].height + 24
    picture.arrow((145, rail + 30), (145, 280))
    for above, below in zip(boxes, boxes[1:]):
        picture.arrow(above.side("bottom"), below.side("top"))
    graph, std, simplex, back = boxes[2:]
    report = Box(picture, 20, y + 6, 880, "dcx_report", "what is found of the problem, answers and stops, sections, faults: the lines of the report")

    # What is asked at each setting in place of an answer: over the same rows, each program solved by dcx_lp_solve.
    solved_top, solved_bottom = std.top - 10, simplex.top + simplex.height + 10
    picture.put("rect", x=10, y=solved_top, width=270, height=solved_bottom - solved_top, rx=8, fill="none", stroke=GREY, stroke_dasharray="5 4")
    picture.words(14, solved_top - 3, "dcx_lp_solve", "start", 12, GREY)
    asked = [
        ("dcx_branch", "whole numbers: one program", "for each node"),
        ("dcx_iis", "constraints in the way: one", "program for each of them"),
        ("dcx_range", "how far a parameter may move,", "read at the last basis"),
    ]
    picture.words(460, graph.top - 34, "asked at each setting (dcx_outcomes),", "middle", 13, GREY)
    picture.words(460, graph.top - 16, "each program solved by dcx_lp_solve", "middle", 13, GREY)
    fork, join, y = 312, 612, graph.top
    first = None
    for name, *does in asked:
        box = Box(picture, 335, y, 250, name, *does)
        middle = box.side("left")[1]
        picture.arrow((fork, middle), box.side("left"))
        picture.line(box.side("right"), (join, middle))
        first = first or box
        y += box.height + 26
    last = box.side("left")[1]
    picture.line(graph.side("right"), (fork, graph.side("right")[1]))
    picture.line((fork, graph.side("right")[1]), (fork, last))
    picture.arrow((join, first.side("right")[1]), (join, report.top))

    certify = Box(picture, 650, 330, 250, "dcx_cert_check", "the checks of a certificate, in", "order, on the problem's nodes:", "values, multipliers, weights, rays")
    picture.arrow((775, rail + 30), certify.side("top"))
    picture.put("rect", x=638, y=318, width=274, height=140, rx=8, fill="none", stroke=COLOURS[2], stroke_dasharray="5 4")
    picture.words(775, 432, "stands on no tableau, and of", "middle", 12, COLOURS[2])
    picture.words(775, 448, "the reduction on its layout alone", "middle", 12, COLOURS[2])
    text = Box(picture, 650, 530, 250, "dcx_cert_text", "certificates written and read,", "line by line")
    picture.words(690, 498, "certify, migrate:", "middle", 12, GREY)
    picture.words(690, 512, "a file", "middle", 12, GREY)
    picture.arrow((690, 516), (690, 530))
    picture.arrow(text.side("top", 0.6), (800, 458))
    build = Box(picture, 650, back.top, 250, "dcx_cert_build", "an answer's numbers, and", "the weights of its atoms")
    picture.arrow(back.side("right"), build.side("left"))
    picture.words(460, back.side("right")[1] - 8, "certificate", "middle", 13, GREY)
    picture.arrow(build.side("top"), text.side("bottom"))
    picture.arrow(back.side("bottom"), report.side("top", 0.142))
    picture.line(certify.side("right"), (920, certify.side("right")[1]))
    picture.line(text.side("right"), (920, text.side("right")[1]))
    picture.line((920, certify.side("right")[1]), (920, report.top + report.height / 2))
    picture.arrow((920, report.top + report.height / 2), (900, report.top + report.height / 2))
    return picture


# ---- the floors
def floors():
    """The floors of crates.txt as rows, with their crates, and which floors each one's crates name: arrows go down only."""
    rows, below = [], {}
    for line in (HERE.parent.parent / "crates.txt").read_text().splitlines():
        heading = re.match(r"# (\w+): (.*)", line)
        if heading:
            rows.append((heading.group(1), heading.group(2).rstrip("."), []))
        elif line.startswith("dcx"):
            crate, _, named = line.partition(":")
            crate = crate.removesuffix(" staticlib")
            rows[-1][2].append(crate)
            below[crate] = named.split()
    rows.reverse()
    row_of = {crate: i for i, (_, _, crates) in enumerate(rows) for crate in crates}
    # The crates of a floor, without their common front, in lines that fit.
    told = []
    for name, does, crates in rows:
        lines = [""]
        for crate in crates:
            short = crate.removeprefix("dcx_")
            lines = lines + [short] if len(lines[-1]) + len(short) > 96 else lines[:-1] + [f"{lines[-1]}   {short}".strip()]
        told.append((name, does, lines))
    tops, y = [], 40
    for _, _, lines in told:
        tops.append(y)
        y += 52 + 17 * len(lines)
    picture = Picture("The floors of the crates, and which floors each one stands on", 800, y + 2)
    picture.words(16, 24, "crates of each floor, without dcx_", "start", 12, GREY)
    picture.words(784, 24, "stands on", "end", 12, GREY)
    right, step = 606, 17
    lane_of = [right + step * (len(rows) - 1 - i) for i in range(len(rows))]
    for i, (name, does, lines) in enumerate(told):
        height = 38 + 17 * len(lines)
        picture.put("rect", x=16, y=tops[i], width=right - 16, height=height, rx=5, fill="#f6f8fa", stroke=INK)
        picture.words(28, tops[i] + 19, name, "start", 13, INK, font_weight="bold")
        picture.words(118, tops[i] + 19, does, "start", 11, GREY)
        for k, line in enumerate(lines):
            picture.words(28, tops[i] + 39 + 17 * k, line, "start", 12, COLOURS[0], style="white-space:pre")
    for i, (_, _, crates) in enumerate(rows):
        named = sorted({row_of[one] for crate in crates for one in below[crate] if one in row_of} - {i})
        if named:
            start = tops[i] + 38
            picture.path([(right, start), (lane_of[i], start), (lane_of[i], tops[named[-1]] + 15)], GREY, stroke_width=1.2)
        for j in named:
            picture.put("circle", cx=lane_of[i], cy=tops[j] + 15, r=2.6, fill=COLOURS[2])
    for j in range(len(rows)):
        from_lanes = [lane_of[i] for i, (_, _, crates) in enumerate(rows) if i != j and any(row_of.get(one) == j for crate in crates for one in below[crate])]
        if from_lanes:
            picture.arrow((max(from_lanes), tops[j] + 15), (right, tops[j] + 15), COLOURS[2])
    return picture


PICTURES = {"architecture": architecture, "floors": floors, "flow": flow, "quantiles": quantiles, "region": region, "spans": spans, "trajectory": trajectory}


def main():
    status = 0
    for name, draw in PICTURES.items():
        file = HERE / f"{name}.svg"
        text = draw().text()
        if "--check" not in sys.argv:
            file.write_text(text)
        elif not file.exists() or file.read_text() != text:
            print(f"docs/pictures/{name}.svg is not what docs/pictures/draw.py draws")
            status = 1
    return status


if __name__ == "__main__":
    sys.exit(main())
