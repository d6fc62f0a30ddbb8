"""Writes worked cases of scripts drawn at random, with what `dcx.exact` answers: `random_cases.py SEED COUNT [LINES [iis|whole|range]]`.

A script that is refused is drawn anew, and so is one with no number but 0 to tell. About half of the cases have settings. LINES is how long a report may be.
With `iis` they are cases of that word, with more constraints, and at some setting of each no point keeps them all. With `whole` some variables are boolean or
integer, all of them have bounds, and some setting of each has more than one node. With `range` they are cases of that word, of a parameter that most often
stands beside the variables, and some setting of each has a span.
It shows of each answer that it is right; the program of `crates/dcx_cases`, given the file, tells where dcx differs.
"""
import os
import random
import re
import sys

sys.path.insert(0, os.path.join(os.path.dirname(os.path.abspath(__file__)), "..", "..", "python"))

from dcx.exact.cases import IMPORTS
from dcx.exact.commands import run

NUMBERS = ["0", "1", "1", "2", "3", "-1", "-2", "5", "1/2", "-3/4", "0.3", "10"]
SCALING = ["2", "-1", "1/2", "3", "-2/3", "0"]
SHAPES = ["", "2", "3", "(2, 2)", "(2, 3)", "(3, 3)"]


def pick(*of):
    return random.choice(of)


def number():
    return pick(*NUMBERS)


def array(shape):
    """A plain value of a shape, or of one that is spread to it."""
    if shape == "" or random.random() < 0.4:
        return number()
    sides = [int(n) for n in shape.strip("()").split(",")]
    row = "[" + ", ".join(number() for _ in range(sides[-1])) + "]"
    if len(sides) == 1 or random.random() < 0.3:
        return f"np.array({row})"
    return "np.array([" + ", ".join("[" + ", ".join(number() for _ in range(sides[1])) + "]" for _ in range(sides[0])) + "])"


class Model:
    """A script that is drawn: its variables and parameters with their shapes.

    If it is whole, each variable has bounds, and most are to be whole. A parameter that moves stands beside variables, and is a number.
    """

    def __init__(self, is_whole=False, moves=False):
        self.lines, self.variables, self.parameters, self.is_whole, self.moves = [], [], [], is_whole, moves
        for name in "xyz"[: random.randint(1, 3)]:
            self.variable(name)
        if moves:
            self.lines.append(f"m = cp.Parameter({pick('', '', 'nonneg=True', 'nonpos=True')})")
            self.parameters.append(("m", ""))
        for name in "pqr"[: random.randint(0, 2)]:
            self.parameter(name)

    def variable(self, name):
        shape = pick(*SHAPES)
        kinds = ["", "", "", "nonneg=True", "nonpos=True"]
        if self.is_whole:
            shape = pick("", "", "2", "3", "(2, 2)")
            kinds = ["", "nonneg=True", "boolean=True", "boolean=True", "integer=True", "integer=True", "integer=True, nonneg=True", "nonpos=True, integer=True"]
        if shape in ("(2, 2)", "(3, 3)"):
            kinds += ["symmetric=True", "diag=True"]
        self.lines.append(f"{name} = cp.Variable({', '.join(part for part in (shape, pick(*kinds)) if part)})")
        self.variables.append((name, shape))

    def parameter(self, name):
        shape, kind = pick("", "", "2", "3"), pick("", "nonneg=True", "nonpos=True")
        value = "" if random.random() < 0.7 else f"value={array(shape) if shape else number()}"
        self.lines.append(f"{name} = cp.Parameter({', '.join(part for part in (shape, kind, value) if part)})")
        self.parameters.append((name, shape))

    def leaf(self):
        """An expression with its shape."""
        name, shape = pick(*self.variables)
        if shape.startswith("(") and random.random() < 0.3:
            side = shape.strip("()").split(", ")
            return pick((f"{name}[0]", side[1]), (f"{name}.T", f"({side[1]}, {side[0]})"), (f"{name}[:, 1]", side[0]))
        if shape == "3" and random.random() < 0.3:
            return pick((f"{name}[::-1]", "3"), (f"{name}[1:]", "2"), (f"{name}[-1]", ""), (f"cp.diff({name})", "2"), (f"cp.cumsum({name})", "3"))
        return name, shape

    def affine(self):
        text, shape = self.leaf()
        if random.random() < 0.4:
            text = f"{pick(*SCALING)}*{text}"
        if self.moves and random.random() < 0.4:
            return f"({text} {pick('+ m', '- m', '+ 2*m', '- m/3', '+ (1 - m)')})", shape
        if random.random() < 0.3 and self.parameters:
            name, size = pick(*self.parameters)
            text = pick(f"{name}*{text}" if size == "" else f"cp.multiply({name}, {text})", f"({text} - {name})")
        if random.random() < 0.5:
            text = f"({text} {pick('+', '-')} {array(shape)})"
        return text, shape

    def curved(self, depth=2):
        """An expression that may be curved, with its shape where that is told by it."""
        text, shape = self.affine() if depth == 0 or random.random() < 0.4 else self.curved(depth - 1)
        way = random.random()
        if way < 0.35:
            return f"cp.{pick('abs', 'pos', 'neg')}({text})", shape
        if way < 0.5:
            return f"cp.{pick('maximum', 'minimum')}({text}, {self.affine()[0] if random.random() < 0.3 else number()})", shape
        if way < 0.7:
            return f"cp.{pick('max', 'min', 'norm1', 'norm_inf', 'sum', 'mean')}({text})", ""
        if way < 0.8:
            return f"cp.{pick('sum_largest', 'sum_smallest')}({text}, {pick(1, 2, 2, 3)})", ""
        if way < 0.85:
            return pick((f"cp.cummax({text})", shape), (f"cp.tv({text})", ""))
        if way < 0.93 and shape.startswith("("):
            axis = pick(0, 1)
            side = shape.strip("()").split(", ")[1 - axis]
            return f"cp.{pick('max', 'min', 'norm1', 'norm_inf', 'sum')}({text}, axis={axis})", side
        return text, shape

    def scalar(self):
        text, shape = self.curved()
        return text if shape == "" else f"cp.{pick('sum', 'sum', 'max', 'min', 'norm1')}({text})"

    def objective(self):
        parts = [self.scalar() for _ in range(random.randint(1, 3))]
        text = parts[0]
        for part in parts[1:]:
            text += f" {pick('+', '-')} {pick('', '2*', '1/3*', *(p + '*' for p, s in self.parameters if s == ''))}{part}"
        return text

    def constraint(self):
        if random.random() < 0.5:
            text, shape = self.affine()
            return f"{text} {pick('<=', '>=', '>=', '<=', '==')} {pick('m', array(shape)) if self.moves else array(shape)}"
        text, shape = self.curved()
        other = pick(*(name for name, size in self.parameters if size == ""), number(), self.affine()[0] if shape == "" else array(shape))
        return f"{text} {pick('<=', '>=')} {other}"

    def box(self):
        """Bounds of all variables, so that few problems are unbounded."""
        bounds = (("<", pick("5/2", "4")), (">", pick("-7/2", "-3"))) if self.is_whole else (("<", "10"), (">", "-10"))
        return [f"{name} {sign}= {bound}" for name, _ in self.variables for sign, bound in bounds if self.is_whole or random.random() < 0.7]

    def script(self, least=0, most=3):
        rules = self.box() + [self.constraint() for _ in range(random.randint(least, most))]
        random.shuffle(rules)
        self.lines.append(f"prob = cp.Problem(cp.{pick('Minimize', 'Maximize')}({self.objective()}), [{', '.join(rules)}])")
        return self.lines

    def reached(self):
        """The parameters that the problem names."""
        return [(name, shape) for name, shape in self.parameters if re.search(rf"(?<![\w.]){name}(?![\w(.])", self.lines[-1])]

    def setting(self):
        items = []
        for name, shape in self.reached():
            if random.random() < 0.95:
                count = int(shape or 1)
                numbers = [pick("0", "1", "2", "1/2", "-3/2", "4", "7") for _ in range(count)]
                items.append(f"{name} = [{', '.join(numbers)}]" if shape else f"{name} = {numbers[0]}")
        return "; ".join(items) or "{}"


def tells_something(report):
    return re.search(r"^(var|dual|ray) .* = .*[1-9]", report, re.MULTILINE) is not None


WORDS = {word: "resolve model.py settings.txt" for word in (None, "whole")}
WORDS |= {"iis": "iis model.py settings.txt", "range": "range model.py settings.txt m"}


def is_wanted(word, report):
    """Whether the report has what cases of the word are drawn for."""
    if word == "range":
        return re.search(r" from (\S+) to (?!none)| from (?!none)", report) is not None
    if word == "iis" and "infeasible" not in report:
        return False
    if word == "whole" and not re.search(r"^nodes ([2-9]|1[0-9])", report, re.MULTILINE):
        return False
    return tells_something(report)


def drawn(most, word):
    """A case: its words, files, status and report."""
    while True:
        model = Model(word == "whole", word == "range")
        script = model.script(2, 6) if word == "iis" else model.script()
        files = {"model.py": IMPORTS + "\n".join(script).encode() + b"\n"}
        words = "solve model.py"
        settings = [model.setting() for _ in range(random.randint(1, 4))] if model.reached() else ["{}"] * (word == "iis")
        if settings:
            words = WORDS[word]
            files["settings.txt"] = "\n".join(settings).encode() + b"\n"
        status, report = run(words.split(), files.__getitem__)
        if status in (0, 6) and report.count("\n") <= most and is_wanted(word, report):
            return words, script, settings, status, report


def main(seed, count, most=40, word=None):
    random.seed(int(seed))
    print(f"# Scripts drawn at random from the seed {seed}, answered by dcx.exact, which shows that each answer is right.")
    for _ in range(int(count)):
        words, script, settings, status, report = drawn(int(most), word)
        print(f"\ncase {words}\nfile model.py\nimports", *(f"| {line}" for line in script), sep="\n")
        if settings:
            print("file settings.txt", *(f"| {line}" for line in settings), sep="\n")
        print(f"gives {status}", *(f"| {line}" for line in report.splitlines()), sep="\n")


if __name__ == "__main__":
    if len(sys.argv) not in (3, 4, 5) or sys.argv[4:] not in ([], ["iis"], ["whole"], ["range"]):
        raise SystemExit(__doc__)
    main(*sys.argv[1:])
