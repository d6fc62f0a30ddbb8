"""The text of a certificate: read line by line for a problem and a number of settings, and written."""
import re
from fractions import Fraction
from math import gcd

from . import calls, shapes
from .numbers import OF_LANGUAGE, number

KINDS = {"1": ("optimal", "infeasible", "none"), "2": ("optimal", "infeasible", "unbounded", "none")}
# No number has more than 39 digits.
NUMBER = re.compile(rb"0|(-?[1-9][0-9]{0,38})(?:/([1-9][0-9]{0,38}))?")


class Section:
    """What a certificate has for a setting. Arrays are lists of entries, in the order of the problem's parameters,
    variables and constraints; weights are by node.
    """

    def __init__(self, kind):
        self.kind = kind
        self.params = self.number = self.slope = self.point = self.ray = self.duals = None
        self.weights = {}


class Misfit(Exception):
    """The first line up to which bytes begin no certificate."""

    def __init__(self, line):
        super().__init__(line)
        self.line = line


def fraction(text):
    """The number that is written so, or None."""
    match = NUMBER.fullmatch(text)
    if match is None:
        return None
    if match.group(1) is None:
        return Fraction(0)
    n, d = int(match.group(1)), int(match.group(2) or 1)
    is_lowest = match.group(2) is None or (d > 1 and gcd(n, d) == 1)
    return Fraction(n, d) if is_lowest and OF_LANGUAGE.has(Fraction(n, d)) else None


def row_count(problem, n):
    """How many rows the graph of an atom has."""
    node = problem.nodes[n]
    return len(calls.graph_of(node.call, problem.arg_shapes(node)).rows)


def atoms(problem):
    """The atoms with a variable below them."""
    kinds = calls.CONVEX | calls.CONCAVE
    return [n for n, node in enumerate(problem.nodes) if problem.has_variable[n] and node.call[0] in kinds]


def named(problem, word, listed):
    """How the lines of variables or parameters begin, and how many numbers they have."""
    return [
        (f"{word} {name} {shapes.text(problem.nodes[n].shape)} =", shapes.size(problem.nodes[n].shape))
        for name, n in listed
    ]


def numbered(problem):
    return [(f"dual {i} {shapes.text(c.shape)} =", shapes.size(c.shape)) for i, c in enumerate(problem.constraints, 1)]


class Reader:
    def __init__(self, problem, data):
        self.problem, self.data = problem, data
        self.at, self.line = 0, 1

    def take_if(self, front, count=0):
        """The numbers of the next line, if it begins so and has so many numbers, and no other."""
        end = self.data.find(b"\n", self.at)
        text = self.data[self.at : end] if end >= 0 else None
        if text is None or not text.startswith(front.encode()):
            return None
        rest = text[len(front.encode()) :]
        parts = rest.split(b" ")
        numbers = [fraction(part) for part in parts[1:]]
        if parts[0] != b"" or len(numbers) != count or None in numbers:
            return None
        self.at, self.line = end + 1, self.line + 1
        return numbers

    def take(self, front, count=0):
        numbers = self.take_if(front, count)
        if numbers is None:
            raise Misfit(self.line)
        return numbers

    def take_all(self, fronts):
        return [self.take(front, count) for front, count in fronts]

    def take_number(self, word):
        return self.take(word, 1)[0]

    def one_of(self, fronts):
        """The first of these lines that stands here."""
        for front in fronts:
            if self.take_if(front) is not None:
                return front
        raise Misfit(self.line)

    def certificate(self, count):
        form = self.one_of(["certificate 1", "certificate 2"])[-1]
        sections = [self.section(form, k) for k in range(1, count + 1)]
        if self.at < len(self.data):
            raise Misfit(self.line)
        return form, sections

    def section(self, form, k):
        problem = self.problem
        section = Section(self.one_of([f"section {k} {kind}" for kind in KINDS[form]]).split(" ")[2])
        if section.kind == "none":
            self.take("end")
            return section
        if form == "2":
            section.params = self.take_all(named(problem, "param", problem.parameters))
        section.number = self.take_number({"optimal": "value", "infeasible": "gap", "unbounded": "bound"}[section.kind])
        if section.kind == "unbounded":
            section.slope = self.take_number("slope")
        if section.kind != "infeasible":
            section.point = self.take_all(named(problem, "var", problem.variables))
        if section.kind == "unbounded":
            section.ray = self.take_all(named(problem, "ray", problem.variables))
        else:
            section.duals = self.take_all(numbered(problem))
            section.weights = {n: self.take(f"node {n} =", row_count(problem, n)) for n in atoms(problem)}
        self.take("end")
        return section


def read(problem, count, data):
    """The format and the sections, or Misfit."""
    return Reader(problem, data).certificate(count)


def lines_of(problem, form, k, section):
    yield f"section {k} {section.kind}"
    if section.kind != "none":
        if form == "2":
            yield from filled(named(problem, "param", problem.parameters), section.params)
        word = {"optimal": "value", "infeasible": "gap", "unbounded": "bound"}[section.kind]
        yield f"{word} {number(section.number)}"
        if section.kind == "unbounded":
            yield f"slope {number(section.slope)}"
        if section.kind != "infeasible":
            yield from filled(named(problem, "var", problem.variables), section.point)
        if section.kind == "unbounded":
            yield from filled(named(problem, "ray", problem.variables), section.ray)
        else:
            yield from filled(numbered(problem), section.duals)
            yield from filled([(f"node {n} =", None) for n in section.weights], section.weights.values())
    yield "end"


def filled(fronts, arrays):
    for (front, _), entries in zip(fronts, arrays):
        yield front + "".join(" " + number(entry) for entry in entries)


def written(problem, form, sections):
    lines = [f"certificate {form}"]
    for k, section in enumerate(sections, 1):
        lines.extend(lines_of(problem, form, k, section))
    return "".join(line + "\n" for line in lines)
