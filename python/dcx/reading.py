"""Reads the lines of a report one after the other, strictly: order, counts, shapes and names must be what the program
prints.
"""
from __future__ import annotations

from fractions import Fraction
from typing import Callable, Optional

from .lines import read_fault, read_line, read_refusal, read_stop
from .reports import DPP, OBJECTIVE, WORDS_ALONE, Answer, Range, Report, Section, Verdict, Without
from .values import Entries, Misread, Named, read_array, read_count, read_number

NUMBERS_BEHIND = {"optimal": ("value",), "infeasible": ("gap",), "unbounded": ("bound", "slope")}
# The answers of a report are of one kind: those of `solve` and `resolve`, the same in whole numbers, those of `iis` or
# those of `range`. Some stops are of one kind alone.
STOPS_OF = {30: "whole", 32: "whole", 33: "whole", 36: "range", 37: "iis"}
RANGE = "{name} from {low} to {high} value {value} slope {slope}"


class Reader:
    """Takes lines one after the other. `at` is the number of the line that was looked at last."""

    def __init__(self, lines: list[str]):
        self.lines = lines
        self.next = 0
        self.seen = 0
        self.layout = Layout()

    @property
    def at(self) -> int:
        return self.seen + 1

    def peek(self) -> str:
        """The next line, which isn't taken; an empty one at the end."""
        self.seen = self.next
        return self.lines[self.next] if self.next < len(self.lines) else ""

    def take(self) -> str:
        """The next line."""
        self.seen = self.next
        if self.next >= len(self.lines):
            raise Misread("the report breaks off")
        self.next += 1
        return self.lines[self.seen]

    def take_form(self, template: str) -> dict[str, object]:
        """The fields of the next line, which must have this form."""
        return read_line(template, self.take())

    def report(self) -> Report:
        """The whole report."""
        report = self.whole_report(self.peek())
        if self.peek() or self.next < len(self.lines):
            raise Misread("nothing more, since the report ends before")
        return report

    def whole_report(self, first: str) -> Report:
        for kind, line in WORDS_ALONE.items():
            if first == line:
                self.take()
                return Report(kind)
        head = first.partition(" ")[0]
        if head in HEADS:
            return HEADS[head](self)
        return self.answers("")

    def refused(self) -> Report:
        return Report("refused", refusal=read_refusal(self.take()))

    def checked(self) -> Report:
        self.take_form("accepted")
        objective = self.take_form(OBJECTIVE)
        if objective["curvature"] == {"minimize": "concave", "maximize": "convex"}[objective["sense"]]:
            raise Misread("a curvature that the rules accept")
        counts = {**objective, **self.take_form(DPP)}
        for word, one in (("variables", "variable"), ("parameters", "parameter"), ("constraints", "constraint")):
            fields = self.take_form(word + " {count} entries {entries}")
            if fields["entries"] < fields["count"]:
                raise Misread("as many entries as there are arrays at the least")
            counts[word], counts[f"{one}_entries"] = fields["count"], fields["entries"]
        return Report("check", verdict=Verdict(**counts))

    def certified(self) -> Report:
        return Report("certified", certified=self.take_form("certified {count}")["count"])

    def certificate(self) -> Report:
        if self.peek().startswith("certificate refused "):
            return Report("certificate refused", fault=read_fault(self.take()))
        form = self.take_form("certificate {count}")["count"]
        if form not in (1, 2):
            raise Misread("the format 1 or 2")
        sections = []
        while self.peek():
            sections.append(self.section(form, len(sections) + 1))
        return Report("certificate", form=form, sections=tuple(sections))

    def section(self, form: int, index: int) -> Section:
        status = self.take().partition(f"section {index} ")[2]
        if status == "none":
            self.take_form("end")
            return Section(index, status)
        if status not in NUMBERS_BEHIND or (status == "unbounded" and form == 1):
            raise Misread(f"section {index} with its kind")
        fields = {"params": self.named("param") if form == 2 else {}}
        fields.update(self.numbers(NUMBERS_BEHIND[status]))
        fields.update(self.points(status))
        if status != "unbounded":
            fields["weights"] = self.weights()
        self.take_form("end")
        return Section(index, status, **fields)

    def trial(self) -> Report:
        size = self.take_form("trial {size}")["size"]
        if not 1 <= size <= 1000:
            raise Misread("a size from 1 to 1000")
        report = self.answers("trial")
        if len(report.answers) != 2:
            raise Misread("two settings")
        return Report("trial", answers=report.answers, answered=report.answered, stopped=report.stopped, size=size)

    # Answers

    def answers(self, kind: str) -> Report:
        """The answers up to the last lines, which count them."""
        word = self.peek().partition(" ")[0]
        answers, kinds = [], {kind} - {""}
        while not self.peek().startswith("answered "):
            answer, kind_of = self.answer(word, len(answers) + 1, kind == "trial")
            answers.append(answer)
            kinds.update({kind_of} - {""})
            if len(kinds) > 1:
                raise Misread(f"an answer of {' and '.join(sorted(kinds))} in one report")
        counts = self.take_form("answered {answered} stopped {stopped}")
        stopped = sum(answer.stop is not None for answer in answers)
        if (counts["answered"], counts["stopped"]) != (len(answers) - stopped, stopped):
            raise Misread(f"answered {len(answers) - stopped} stopped {stopped}")
        warm = self.warm(counts["answered"]) if kinds <= {"solved"} and word != "solve" else None
        found = (kinds or {"solved"}).pop()
        return Report("solved" if found == "whole" else found, answers=tuple(answers), warm=warm, **counts)

    def warm(self, answered: int) -> Optional[int]:
        if not self.peek().startswith("warm "):
            return None
        warm = self.take_form("warm {count}")["count"]
        if warm > answered:
            raise Misread(f"at most {answered} answers")
        return warm

    def answer(self, word: str, index: int, brief: bool) -> tuple[Answer, str]:
        """The next answer, and the kind of report that it belongs to, empty where that isn't seen."""
        line = self.take()
        words = line.split(" ")
        if word not in ("solve", "setting") or words[:2] != [word, str(index)] or len(words) < 3:
            raise Misread(f"the first line of an answer with the number {index}, or the counts, and not {line!r}")
        status, rest = words[2], words[3:]
        if status == "stopped":
            stop = read_stop(rest)
            return Answer(word, index, status, stop=stop), "trial" if brief else STOPS_OF.get(stop.number, "")
        if brief:
            return self.brief(word, index, status, rest), "trial"
        if status == "whole" and rest in (["optimal"], ["infeasible"]):
            return self.whole(word, index, rest[0]), "whole"
        if word == "setting" and status == "range" and rest:
            fields = read_line(RANGE, " ".join(rest))
            return Answer(word, index, status, range=self.span(fields)), "range"
        if word == "setting" and status == "feasible" and not rest:
            return Answer(word, index, status, variables=self.named("var")), "iis"
        if word == "setting" and status == "infeasible" and rest[:1] == ["constraints"]:
            members = rising([read_count(member) for member in rest[1:]])
            without = tuple(self.without(member) for member in members)
            return Answer(word, index, status, members=members, without=without), "iis"
        if status not in NUMBERS_BEHIND or rest:
            raise Misread(f"how the setting ends, and not {' '.join(words[2:])!r}")
        if word == "setting" and status != "optimal" and self.peek().partition(" ")[0] not in ("gap", "bound"):
            return Answer(word, index, status), "range"
        return self.solved(word, index, status), "solved"

    def brief(self, word: str, index: int, status: str, rest: list[str]) -> Answer:
        """The answer of a line of `trial`."""
        if word == "setting" and status in ("infeasible", "unbounded") and not rest:
            return Answer(word, index, status)
        if word != "setting" or status != "optimal":
            raise Misread("how a setting of a trial ends")
        return Answer(word, index, status, value=read_line("value {value}", " ".join(rest))["value"])

    def whole(self, word: str, index: int, status: str) -> Answer:
        fields = {}
        if status == "optimal":
            fields = {**self.numbers(("value",)), "variables": self.named("var")}
        nodes = self.take_form("nodes {count}")["count"]
        if nodes < 1:
            raise Misread("one node at the least")
        return Answer(word, index, status, whole=True, nodes=nodes, **fields)

    def solved(self, word: str, index: int, status: str) -> Answer:
        fields = self.numbers(NUMBERS_BEHIND[status], above_zero=("gap", "slope"))
        return Answer(word, index, status, **fields, **self.points(status))

    def points(self, status: str) -> dict[str, object]:
        """The point, and the ray or the multipliers, that stand behind the numbers of an answer."""
        fields: dict[str, object] = {} if status == "infeasible" else {"variables": self.named("var")}
        fields.update({"ray": self.named("ray")} if status == "unbounded" else {"duals": self.numbered()})
        return fields

    def span(self, fields: dict[str, object]) -> Range:
        span = Range(**fields)
        self.layout.expect("range", span.name)
        if span.low is not None and span.high is not None and span.low > span.high:
            raise Misread("a span that ends behind its beginning")
        return span

    def without(self, member: int) -> Without:
        self.take_form(f"without {member}")
        return Without(member, self.named("var"))

    # Lines of numbers

    def numbers(self, words: tuple[str, ...], above_zero: tuple[str, ...] = ()) -> dict[str, Fraction]:
        """The lines of these numbers, of which some are above 0."""
        found = {}
        for word in words:
            found[word] = self.take_form(word + " {number}")["number"]
            if word in above_zero and found[word] <= 0:
                raise Misread(f"a {word} above 0")
        return found

    def arrays(self, word: str, test: Callable[[int, Named], None]) -> list[Named]:
        """The lines that begin with the word.

        All of a report's lists of it have the same names and shapes; the ray has those of the variables.
        """
        found = []
        while self.peek().startswith(f"{word} "):
            line = read_array(self.take())
            test(len(found), line)
            self.layout.fit("var" if word == "ray" else word, len(found), line)
            found.append(line)
        self.peek()
        self.layout.close("var" if word == "ray" else word, len(found))
        return found

    def named(self, word: str) -> dict[str, Entries]:
        """The arrays of variables or parameters, by name."""
        names = set()

        def test(place: int, line: Named) -> None:
            if line.name in names:
                raise Misread(f"another name than {line.name}")
            names.add(line.name)

        return {line.name: line.array for line in self.arrays(word, test)}

    def numbered(self) -> dict[int, Entries]:
        """The multipliers, by number of the constraint."""

        def test(place: int, line: Named) -> None:
            if line.name != str(place + 1):
                raise Misread(f"dual {place + 1}, and not dual {line.name}")

        return {int(line.name): line.array for line in self.arrays("dual", test)}

    def weights(self) -> dict[int, tuple[Fraction, ...]]:
        """The weights of atoms, by node."""
        found, last = {}, -1
        while self.peek().startswith("node "):
            words = self.take().split(" ")
            if len(words) < 4 or words[2] != "=" or read_count(words[1]) <= last:
                raise Misread("a node behind those before it, with its weights")
            last = int(words[1])
            weights = tuple(read_number(word) for word in words[3:])
            self.layout.expect(f"node {len(found)}", (last, len(weights)))
            found[last] = weights
        self.peek()
        self.layout.expect("nodes", len(found))
        return found


class Layout:
    """Names and shapes of a problem, as far as a report has shown them: all of its lists have the same ones."""

    def __init__(self):
        self.known: dict[str, object] = {}

    def expect(self, key: str, value: object) -> None:
        """Refuses what isn't as it was the first time."""
        if self.known.setdefault(key, value) != value:
            raise Misread(f"the same as before, and not {value}")

    def fit(self, word: str, place: int, line: Named) -> None:
        """Refuses an array that isn't the one of this place."""
        self.expect(f"{word} {place}", (line.name, line.array.shape))

    def close(self, word: str, count: int) -> None:
        """Refuses a list that is longer or shorter than the first one."""
        self.expect(word, count)


def rising(numbers: list[int]) -> tuple[int, ...]:
    """Numbers of constraints, each above the one before."""
    if not numbers or any(a >= b for a, b in zip([0, *numbers], numbers)):
        raise Misread("numbers of constraints, from 1 on and rising")
    return tuple(numbers)


HEADS = {
    "refused": Reader.refused,
    "accepted": Reader.checked,
    "certified": Reader.certified,
    "certificate": Reader.certificate,
    "trial": Reader.trial,
}
