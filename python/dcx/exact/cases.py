"""Runs files of worked cases, as the page on worked cases describes them, and tells each one that differs."""
import os
import re

from . import listing, report
from .commands import ReadFault, run

IMPORTS = b"import cvxpy as cp\nimport numpy as np\n"
TAKES_LINES = ("start", "file", "gives", "begins")


def escaped(text):
    def byte(match):
        letter = match.group(1)
        if letter.startswith(b"x"):
            return bytes([int(letter[1:], 16)])
        return {b"n": b"\n", b"r": b"\r", b"t": b"\t", b"\\": b"\\"}[letter]

    return re.sub(rb"\\(x[0-9a-f]{2}|[nrt\\])", byte, text)


def body_line(line, folder):
    """The bytes that a line gives, or None where it is no such line."""
    if line == b"imports":
        return IMPORTS
    if line == b"|":
        return b"\n"
    if line.startswith(b"| "):
        return line[2:] + b"\n"
    if line.startswith(b"% "):
        return escaped(line[2:])
    if line.startswith(b"* "):
        times, part = line[2:].split(b" ", 1)
        return escaped(part) * int(times)
    if line.startswith(b"< "):
        with open(os.path.join(folder, line[2:].decode()), "rb") as file:
            return file.read()
    return None


def sections(path):
    """The heads of a file, each with its line and the bytes below it."""
    with open(path, "rb") as file:
        data = file.read()
    head, number, body = "", 0, b""
    for i, line in enumerate(data.split(b"\n"), 1):
        if line == b"" or line.startswith(b"#"):
            continue
        part = body_line(line, os.path.dirname(path))
        if part is not None:
            body += part
            continue
        yield number, head, body
        head, number, body = line.decode(), i, b""
    yield number, head, body


class Case:
    def __init__(self, line, words):
        self.line, self.words = line, words.split()
        self.files, self.reads, self.writes, self.most = {}, [], [], None
        self.wanted = self.fronts = None

    def take(self, word, text, body):
        if word == "file":
            self.files[text] = body
        elif word in ("gives", "begins"):
            self.wanted = (int(text), body, word == "begins")
        elif word == "fronts":
            self.fronts = text
        elif word == "read":
            self.reads.append(int(text))
        elif word == "write":
            self.writes.append(int(text))
        elif word == "most":
            self.most = int(text)
        else:
            return False
        return True

    def came(self):
        """The status and the bytes that are written."""
        listings = {
            "gather": listing.gathered,
            "rows": lambda d: listing.program_lines(d, False),
            "map": lambda d: listing.program_lines(d, True),
        }
        if len(self.words) == 2 and self.words[0] in listings and self.words[1] in self.files:
            status, text = listings[self.words[0]](self.files[self.words[1]])
            return status, text.encode()
        if len(self.words) == 3 and self.words[0] == "branch" and self.words[2] in self.files:
            status, text = listing.branched(self.files[self.words[2]], int(self.words[1]))
            return status, text.encode()
        if len(self.words) == 2 and self.words[0] == "short" and self.words[1] in ("run", "setting", "trial"):
            return 0, report.short(self.words[1]).encode()
        calls = iter(range(10**9))

        def fetch(name):
            if next(calls) in self.reads or name not in self.files:
                raise ReadFault
            return self.files[name]

        status, text = run(self.words, fetch)
        return self.written(status, text.encode())

    def written(self, status, text):
        """What the sink takes: pieces of so many bytes, up to the first call that fails."""
        if not self.writes:
            return status, text
        pieces = [text[i : i + self.most] for i in range(0, len(text), self.most)] if self.most else [text]
        front = b""
        for call, piece in enumerate(pieces):
            if call in self.writes:
                return 4, front
            front += piece
        return status, text


def judged(path, case):
    """Whether a case is met; tells it where it isn't."""
    if case.wanted is None:
        print(f"{path}:{case.line}: no report")
        return False
    status, report, goes_on = case.wanted
    came_status, came = case.came()
    is_met = came.startswith(report) if goes_on else came == report
    if is_met and status in (None, came_status):
        return True
    wanted, came = (text.decode(errors="replace") for text in (report, came))
    print(f"{path}:{case.line}: {' '.join(case.words)}\nwanted {status}\n{wanted}came {came_status}\n{came}")
    return False


def judged_fronts(path, case):
    """How many fronts of the script there are, and how many of them are as wanted."""
    if case.fronts is None:
        return 0, 0
    status, _, kinds = case.fronts.partition(" of ")
    data = case.files["model.py"]
    met = 0
    for length in range(len(data)):
        front = Case(case.line, " ".join(case.words))
        front.files["model.py"] = data[:length]
        came_status, came = front.came()
        fits = not kinds or any(came.startswith(f"refused script {kind} ".encode()) for kind in kinds.split())
        if came_status == int(status) and fits:
            met += 1
        else:
            print(f"{path}:{case.line}: front {length}: {came_status} {came.decode()}")
    return len(data), met


def short_case(line, head, start, words):
    """A case of one line: what a check gives, and the script with a mark at the place of the refusal."""
    told, _, text = head.partition("|")
    told, text = told.strip(), text[1:] if text.startswith(" ") else text
    before, mark, after = text.partition("^")
    front = start + escaped(before.encode())
    case = Case(line, words)
    case.files["model.py"] = front + escaped(after.encode()) if mark else front
    if told.startswith(("minimize ", "maximize ")):
        sense, sign, curvature, *dpp = told.split()
        report = f"accepted\nobjective {sense} sign {sign} curvature {curvature}\n" + (f"dpp {dpp[0]}\n" if dpp else "")
        case.wanted = (0, report.encode(), True)
        return case
    kind, name, *carried = told.split(" ", 2)
    at = (front.count(b"\n") + 1, len(front) - front.rfind(b"\n")) if mark else (1, 1)
    rest = f" {carried[0]}" if carried else ""
    case.wanted = (1, f"refused script {kind} {name} at {at[0]}:{at[1]}{rest}\n".encode(), False)
    return case


def page_cases(path):
    """The cases of a page: scripts with what a check answers, sessions with what is printed, rows with a refusal."""
    with open(path) as file:
        lines = file.read().split("\n")
    script, is_asked, block, language = "", False, None, ""
    for number, line in enumerate(lines, 1):
        if block is not None and line != "```":
            block.append(line + "\n")
        elif block is not None:
            text, block = "".join(block), None
            was_asked, is_asked = is_asked, language == "python"
            if language == "python":
                script = text
            elif text.startswith("$ ./dcx "):
                words, _, report = text.removeprefix("$ ./dcx ").partition("\n")
                yield page_case(path, number, words, None, report)
            elif was_asked:
                yield page_case(path, number, "check model.py", script, text)
        elif line.startswith("```"):
            block, language = [], line[3:]
        elif line.startswith("#"):
            script, is_asked = "", False
        elif (row := re.match(r"\| `(.*?)` \|.*?`refused (script|settings) (.*?)`", line)) is not None:
            code, source, refusal = row.groups()
            yield row_case(path, number, script, code, source, f"refused {source} {refusal}\n")


def page_case(path, line, words, script, report):
    """A case of a page, which states no status. Without a script it is over the files of the data that its words name.
    """
    case = Case(line, words)
    folder = os.path.dirname(path).removesuffix("docs")
    if script is not None:
        case.files["model.py"] = script.encode()
    for name in case.words if script is None else []:
        if os.path.isfile(os.path.join(folder, name)):
            case.files[name] = body_line(b"< " + name.encode(), folder)
    case.wanted = (None, report.encode(), False)
    return case


def row_case(path, line, script, code, source, report):
    """A case of a row of a page: its code stands behind the script, or is the settings file."""
    if source == "script":
        return page_case(path, line, "check model.py", script + code, report)
    case = page_case(path, line, "resolve model.py settings.txt", script, report)
    case.files["settings.txt"] = code.encode()
    return case


def run_page(path):
    """How many cases a page has, and how many of them are met."""
    met = [judged(path, case) for case in page_cases(path)]
    return len(met), sum(met)


def run_file(path):
    """How many cases a file has, and how many of them are met."""
    if path.endswith(".md"):
        return run_page(path)
    start, words, case = b"", "check model.py", None
    count = met = 0

    def close():
        nonlocal count, met
        if case is not None:
            fronts, met_fronts = judged_fronts(path, case)
            count += 1 + fronts
            met += judged(path, case) + met_fronts

    for line, head, body in sections(path):
        if not head and not body:
            continue
        word, _, text = head.partition(" ")
        if case is not None and case.take(word, text, body):
            continue
        close()
        case = None
        if word == "case":
            case = Case(line, text)
        elif word == "words":
            words = text
        elif word == "start":
            start = body
        else:
            count += 1
            met += judged(path, short_case(line, head, start, words))
    close()
    return count, met
