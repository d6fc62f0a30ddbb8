"""Writes worked cases of certificates: `certificate_cases.py numbers`, `certificate_cases.py texts` and `certificate_cases.py drawn SEED COUNT`.

`numbers` and `texts` write certificates that differ a little from right ones, in one number or in one thing of the text, with what the checker
answers. `drawn` writes those of scripts drawn at random, each of which passes its own checks. The right ones are those of `dcx.exact`.
"""
import os
import random
import re
import sys

sys.path.insert(0, os.path.join(os.path.dirname(os.path.abspath(__file__)), "..", "..", "python"))

import random_cases
from dcx.exact.cases import IMPORTS
from dcx.exact.commands import run

MOST = 2**127 - 1

PROBLEMS = [
    (
        "# Weights of one row and of two, equalities, and parameters.",
        """
p = cp.Parameter(2, nonneg=True)
q = cp.Parameter(nonpos=True)
x = cp.Variable(2)
y = cp.Variable(nonneg=True)
prob = cp.Problem(cp.Minimize(p @ cp.abs(x) + cp.maximum(y, q) + y/2), [x[0] + y == 3, x[1] >= 1 - q])
""",
        "p = [1, 2]; q = -1",
    ),
    (
        "# Concave atoms of a problem that is maximized, a nonpos variable and sums along a side.",
        """
A = np.array([[1, 2], [0, -1]])
X = cp.Variable((2, 2))
z = cp.Variable(nonpos=True)
prob = cp.Problem(cp.Maximize(cp.sum(cp.min(X, axis=1)) + cp.sum_smallest(A @ X, 2) + z), [cp.norm_inf(X) <= 4, z <= -1])
""",
        "{}",
    ),
    (
        "# A running maximum, and the sum of the largest.",
        """
x = cp.Variable(3)
prob = cp.Problem(cp.Minimize(cp.sum(cp.cummax(x)) + cp.sum_largest(x, 2)), [x[0] >= 2, cp.sum(x) == 3])
""",
        "{}",
    ),
    (
        "# No point is feasible.",
        """
x = cp.Variable(2)
prob = cp.Problem(cp.Minimize(x[0]), [cp.norm1(x) <= 2, x[0] + x[1] >= 3, cp.pos(x[0]) <= 9])
""",
        "{}",
    ),
    (
        "# A ray, with a parameter, a symmetric variable and a diagonal one.",
        """
p = cp.Parameter()
X = cp.Variable((2, 2), symmetric=True)
Y = cp.Variable((2, 2), diag=True)
prob = cp.Problem(cp.Maximize(p*X[0, 1] - cp.trace(Y)), [cp.abs(X[0, 0]) <= 1, Y[0, 0] >= cp.max(Y), X[1, 1] == 2])
""",
        "p = 3",
    ),
]
SMALL = (
    """
p = cp.Parameter(2)
x = cp.Variable()
y = cp.Variable(2)
prob = cp.Problem(cp.Minimize(cp.abs(x) + cp.norm1(y)), [x >= p[0], y == p, x <= 2])
""",
    "p = [1, 1/2]\np = [3, 0]",
)
OTHER = (
    """
x = cp.Variable(nonneg=True)
prob = cp.Problem(cp.Minimize(2*x), [x >= 1])
""",
    "{}",
)
ENDLESS = (
    """
x = cp.Variable()
prob = cp.Problem(cp.Minimize(x), [x <= 5])
""",
    "{}",
)


def files_of(script, settings):
    return {"model.py": IMPORTS + script.lstrip("\n").encode(), "settings.txt": settings.encode() + b"\n"}


def right(script, settings):
    """The certificate of a problem."""
    status, text = run(["certificate", "model.py", "settings.txt"], files_of(script, settings).__getitem__)
    assert status == 0, text
    return text.encode()


def escaped(data):
    """Bytes as the text of a line of a case."""
    return "".join({10: "\\n", 13: "\\r", 9: "\\t", 92: "\\\\"}.get(b, chr(b) if 32 <= b < 127 else f"\\x{b:02x}") for b in data)


def is_plain(line):
    return all(32 <= b < 127 for b in line)


def body(data):
    """The lines of a case that give these bytes."""
    lines = data.split(b"\n")
    for line in lines[:-1]:
        yield f"| {line.decode()}" if is_plain(line) and line else "|" if not line else f"% {escaped(line)}\\n"
    if lines[-1]:
        yield f"% {escaped(lines[-1])}"


def write_case(script, settings, data):
    files = files_of(script, settings) | {"cert.txt": data}
    words = ["certify", "model.py", "settings.txt", "cert.txt"]
    status, report = run(words, files.__getitem__)
    print("case", *words)
    print("file model.py\nimports", *(f"| {line}" for line in script.strip("\n").split("\n")), sep="\n")
    print("file settings.txt", *(f"| {line}" for line in settings.split("\n")), sep="\n")
    print("file cert.txt", *body(data), sep="\n")
    print(f"gives {status}", *(f"| {line}" for line in report.splitlines()), sep="\n")
    print()


def other_number(k, text):
    """Another number in the place of the k-th."""
    near = ["1/2", "-1", "3", "0", "-7/3"]
    return next(n for n in near[k % 5 :] + near if n != text)


def numbers():
    print("# Certificates with one number changed, each with the fault that comes first.")
    print("# Written by tools/cases/certificate_cases.py.\n")
    for comment, script, settings in PROBLEMS:
        data = right(script, settings)
        print(comment)
        write_case(script, settings, data)
        lines = data.decode().split("\n")
        k = 0
        for i, line in enumerate(lines):
            front, mark, _ = line.partition(" = ") if " = " in line else re.match(r"((?:value|gap|bound|slope)( ))|()", line).group(0, 0, 0)
            for match in re.finditer(r"\S+", line[len(front + mark) if " = " in line else len(front) :]) if front else ():
                at = (len(front + mark) if " = " in line else len(front)) + match.start()
                changed = line[:at] + other_number(k, match.group()) + line[at + len(match.group()) :]
                write_case(script, settings, "\n".join([*lines[:i], changed, *lines[i + 1 :]]).encode())
                k += 1


def replaced(data, old, new):
    assert data.count(old) > 0, old
    return data.replace(old, new, 1)


def texts():
    print("# Bytes that are no certificate of the problem at its settings, each with the line up to which they begin none,")
    print("# and some that are one. Written by tools/cases/certificate_cases.py.\n")
    script, settings = SMALL
    data = right(script, settings)
    lines = data.split(b"\n")[:-1]

    def told(comment, *changed):
        print(f"# {comment}")
        for bytes_ in changed:
            write_case(script, settings, bytes_)

    def joined(parts):
        return b"".join(line + b"\n" for line in parts)

    print(f"# The certificate itself has {len(lines)} lines.")
    write_case(script, settings, data)
    told("No bytes, and one line feed.", b"", b"\n")
    told("Cut behind each line.", *(joined(lines[:k]) for k in range(1, len(lines))))
    told("Cut within a line, and without the last line feed.", data[:5], data[:40], data[: len(data) // 2], data[:-1])
    told("One line left out.", *(joined(lines[:k] + lines[k + 1 :]) for k in range(len(lines))))
    told("One line twice.", *(joined(lines[: k + 1] + lines[k:]) for k in range(len(lines))))
    told("Two lines exchanged.", *(joined([*lines[:k], lines[k + 1], lines[k], *lines[k + 2 :]]) for k in range(len(lines) - 1) if lines[k] != lines[k + 1]))
    told("Something behind the last line.", data + b"\n", data + b" ", data + b"end\n", data + b"section 3 none\nend\n", data + b"certificate 2\n", data + data)
    told("Too few sections, and sections with other numbers.", joined(lines[: lines.index(b"end") + 1]),
         replaced(data, b"section 1", b"section 0"), replaced(data, b"section 2", b"section 3"), replaced(data, b"section 1", b"section 01"),
         replaced(data, b"section 2", b"section 1"), replaced(data, b"section 1 ", b"section 4294967297 "))
    told("Other words.", replaced(data, b"certificate 2", b"certificate 3"), replaced(data, b"certificate 2", b"certificate"),
         replaced(data, b"certificate 2", b"certificate 02"), replaced(data, b"certificate 2", b"Certificate 2"),
         replaced(data, b"optimal", b"Optimal"), replaced(data, b"optimal", b"optimum"), replaced(data, b"optimal", b"unbounded"), replaced(data, b"optimal", b"infeasible"),
         replaced(data, b"optimal", b"none"), replaced(data, b"infeasible", b"optimal"), replaced(data, b"value", b"gap"), replaced(data, b"gap", b"value"),
         replaced(data, b"var", b"ray"), replaced(data, b"param", b"var"), replaced(data, b"end", b"End"))
    told("Without the setting's values, which the second format has; and with them in the first.",
         joined(line for line in lines if not line.startswith(b"param")), replaced(data, b"certificate 2", b"certificate 1"))
    told("The first format.", replaced(joined(line for line in lines if not line.startswith(b"param")), b"certificate 2", b"certificate 1"))
    told("Other names and shapes.", replaced(data, b"var x", b"var z"), replaced(data, b"var x", b"var xx"), replaced(data, b"var x", b"var y"),
         replaced(data, b"var x", b"var X"), replaced(data, b"var x ()", b"var x (1)"), replaced(data, b"var y (2)", b"var y (1,2)"),
         replaced(data, b"var y (2)", b"var y (3)"), replaced(data, b"var y (2)", b"var y ( 2)"), replaced(data, b"var y (2)", b"var y (02)"),
         replaced(data, b"param p", b"param q"), replaced(data, b"dual 1", b"dual 0"), replaced(data, b"dual 2", b"dual 3"),
         replaced(data, b"dual 2 (2)", b"dual 2 ()"), replaced(data, b"node 1 ", b"node 2 "), replaced(data, b"node 1 ", b"node 01 "))
    told("A number too many, one too few, and none.", replaced(data, b"var x () = 1", b"var x () = 1 1"), replaced(data, b"var x () = 1", b"var x () ="),
         replaced(data, b"var x () = 1", b"var x () = "), replaced(data, b"var x () = 1", b"var x () = 1 "), replaced(data, b"var x () = 1", b"var x () ="),
         replaced(data, b"var y (2) = 1 1/2", b"var y (2) = 1"), replaced(data, b"var y (2) = 1 1/2", b"var y (2) = 1 1/2 0"),
         replaced(data, b"node 1 = 1 0", b"node 1 = 1"), replaced(data, b"node 1 = 1 0", b"node 1 = 1 0 0"), replaced(data, b"value 5/2", b"value"), replaced(data, b"value 5/2", b"value 5/2 5/2"))
    told("Numbers that aren't in lowest terms, or are written in another way.",
         *(replaced(data, b"value 5/2", b"value " + n) for n in (
             b"10/4", b"5/1", b"0/1", b"-0", b"+5/2", b"05/2", b"5/02", b"5/-2", b"-5/-2", b"5/0", b"5/", b"/2", b"5/2/1", b"2.5", b"5e0", b"25e-1", b"5 /2", b"--5/2", b"-", b"x", b"5/2x", b"0x5", b"1_0", b"(5/2)", b"\xd9\xa5")))
    told("Numbers at the limit of 128 bits, and beyond.",
         *(replaced(data, b"value 5/2", b"value " + str(n).encode()) for n in (
             MOST, -MOST, MOST + 1, -MOST - 1, MOST * 2 + 2, 10**90, f"1/{MOST}", f"1/{MOST + 1}", f"{MOST}/{MOST - 1}", f"{MOST + 1}/{MOST}", f"1/{10**60}")),
         replaced(data, b"value 5/2", b"value " + b"9" * 5000), replaced(data, b"value 5/2", b"value 1/" + b"9" * 5000))
    told("Blanks, tabs, other line ends, comments, and lines without anything.", data.replace(b"\n", b"\r\n"), data.replace(b"\n", b"\r"),
         replaced(data, b"optimal\n", b"optimal\r\n"), replaced(data, b"optimal\n", b"optimal \n"), replaced(data, b"section 1", b"section  1"), replaced(data, b"section 1", b" section 1"),
         replaced(data, b"section 1", b"section\t1"), replaced(data, b"value", b"\nvalue"), replaced(data, b"value", b"# a comment\nvalue"), replaced(data, b"end\n", b"end # of the first\n"),
         replaced(data, b" = ", b"="), replaced(data, b" = ", b" =  "), b" " + data)
    told("Bytes that are no text: told as the line, and not as a place.", b"\xff" + data, b"\xef\xbb\xbf" + data, replaced(data, b"var x", b"var \xff"), replaced(data, b"end", b"e\0d"),
         replaced(data, b"value 5/2", b"value \xc3\xa9"), data + b"\x80")
    told("Certificates of other problems.", right(*OTHER), right(*ENDLESS))
    script, settings = ENDLESS
    data = right(script, settings)
    lines = data.split(b"\n")[:-1]
    print("# A ray in the first format; its lines in other orders; and a line of an optimal section among them.")
    for changed in (replaced(data, b"certificate 2", b"certificate 1"), joined([*lines[:2], lines[3], lines[2], *lines[4:]]), joined([*lines[:4], lines[5], lines[4], *lines[6:]]),
                    replaced(data, b"end", b"dual 1 () = 0\nend"), replaced(data, b"bound", b"value"), replaced(data, b"ray x () = -1\n", b"")):
        write_case(script, settings, changed)


def drawn_case():
    """A script with atoms, its settings and its certificate."""
    while True:
        model = random_cases.Model()
        script = "\n".join(model.script())
        settings = "\n".join(model.setting() for _ in range(random.randint(1, 2)))
        status, text = run(["certificate", "model.py", "settings.txt"], files_of(script, settings).__getitem__)
        if status == 0 and text.count("\n") <= 30 and (" unbounded" in text or re.search(r"^node .* = .*[1-9]", text, re.MULTILINE)):
            return script, settings, text


def drawn(seed, count):
    random.seed(int(seed))
    print(f"# Certificates of scripts drawn at random from the seed {seed}, by tools/cases/certificate_cases.py.")
    for _ in range(int(count)):
        script, settings, text = drawn_case()
        print("\ncase certificate model.py settings.txt")
        print("file model.py\nimports", *(f"| {line}" for line in script.split("\n")), sep="\n")
        print("file settings.txt", *(f"| {line}" for line in settings.split("\n")), sep="\n")
        print("gives 0", *(f"| {line}" for line in text.splitlines()), sep="\n")


if __name__ == "__main__":
    sys.setrecursionlimit(10_000)
    ways = {("numbers", 2): numbers, ("texts", 2): texts, ("drawn", 4): drawn}
    way = ways.get((sys.argv[1] if len(sys.argv) > 1 else "", len(sys.argv)))
    if way is None:
        raise SystemExit(__doc__)
    way(*sys.argv[2:])
