"""Evidence with something changed shows nothing: the checker refuses it."""
from __future__ import annotations

import json
import re
import unittest

from dcx.whole.checking import EvidenceError
from dcx.whole.evidence import Evidence, evidence

from .whole_problems import knapsack, plant, searched


def replaced(name, old, new, count=1):
    """A change of a file's text."""
    def change(files):
        assert re.search(old, files[name], re.M), (name, old)
        files[name] = re.sub(old, new, files[name], count=count, flags=re.M)
    return change


def said(change_of):
    """A change of what tree.json says."""
    def change(files):
        content = json.loads(files["tree.json"])
        change_of(content)
        files["tree.json"] = json.dumps(content)
    return change


def split(number, place, value):
    """A change of a split of the tree."""
    def change_of(content):
        [node for node in content["tree"] if node][number][place] = value
    return said(change_of)


def put(**values):
    return said(lambda content: content.update(values))


def without_a_leaf(files):
    """The last leaf goes, with its setting and its section; the tree is as it was."""
    lines = files["leaves-1.txt"].splitlines(True)
    files["leaves-1.txt"] = "".join(lines[:-1])
    files["leaves-1.cert"] = files["leaves-1.cert"][: files["leaves-1.cert"].rindex("section ")]


def without_a_box(files):
    """The same, and from the tree."""
    without_a_leaf(files)
    said(lambda content: content["tree"].pop())(files)


def without_a_side(files):
    """The same, and the split is put by its other side."""
    without_a_leaf(files)

    def change_of(content):
        tree = content["tree"]
        at = max(i for i, node in enumerate(tree) if node)
        tree.pop(at)
        tree.pop()
    said(change_of)(files)


def swapped(name, first, second):
    def change(files):
        lines = files[name].splitlines(True)
        lines[first], lines[second] = lines[second], lines[first]
        files[name] = "".join(lines)
    return change


def both(*changes):
    def change(files):
        for one in changes:
            one(files)
    return change


OF_ALL = {
    "a split at another number": split(0, 2, 1),
    "the last split at another number": split(-1, 2, -1),
    "a split of another entry": split(0, 1, 40),
    "a split of what isn't marked": split(0, 0, "nothing"),
    "a split at a fraction": split(0, 2, 0.5),
    "a split that is a leaf": said(lambda c: c["tree"].__setitem__(0, 0)),
    "a leaf that is split": said(lambda c: c["tree"].__setitem__(-1, c["tree"][0])),
    "a tree that ends early": said(lambda c: c["tree"].pop()),
    "a tree that goes on": said(lambda c: c["tree"].append(0)),
    "no tree": put(tree=[]),
    "a tree of one box": put(tree=[0]),
    "a leaf without its section": without_a_leaf,
    "a box left out": without_a_box,
    "a side left out": without_a_side,
    "a greater value": put(value="100000"),
    "a smaller value": put(value="-100000"),
    "a value of nothing": put(value="many"),
    "a better goal": said(lambda c: c.update(goal="100000")),
    "a worse goal": said(lambda c: c.update(goal="-100000")),
    "infeasible": put(status="infeasible"),
    "another status": put(status="best"),
    "fewer files": put(files=0),
    "more files": put(files=2),
    "a lower bound": replaced("leaves-1.txt", r"_low = \[0", "_low = [1"),
    "an upper bound": replaced("leaves-1.txt", r"_high = \[1", "_high = [0"),
    "a goal in one line": replaced("leaves-1.txt", r"goal = ", "goal = 1"),
    "settings in another order": swapped("leaves-1.txt", 0, -1),
    "no sums": both(said(lambda c: c.setdefault("sums", [])), said(lambda c: c.update(sums=[[]]))),
    "another sum": said(lambda c: c.update(sums=[*c.get("sums", []), [c["tree"][0][:2]]])),
    "a sum of a sum": said(lambda c: c.update(sums=[[["sums", 0]]])),
    "no settings": replaced("leaves-1.txt", r"[\s\S]*", ""),
    "a gap that is too great": replaced("leaves-1.cert", r"^gap ", "gap 9"),
    "a gap of 0": replaced("leaves-1.cert", r"^gap .*$", "gap 0"),
    "a gap below 0": replaced("leaves-1.cert", r"^gap ", "gap -"),
    "a section that shows nothing": replaced("leaves-1.cert", r"^section 1 [\s\S]*?^end$", "section 1 none\nend"),
    "a section of another number": replaced("leaves-1.cert", r"^section 1 ", "section 2 "),
    "a multiplier that is missing": replaced("leaves-1.cert", r"^(dual 1 .*) \S+$", r"\1"),
    "a multiplier below 0": replaced("leaves-1.cert", r"^(dual \d+ \S+ = (?:0 )*)([1-9])", r"\1-\2"),
    "no multipliers": replaced("leaves-1.cert", r"^(dual 1 \S+ =) .*$", r"\1 -1"),
    "no certificate": replaced("leaves-1.cert", r"[\s\S]*", ""),
    "a relaxation with less": replaced("relaxed.py", r"^    .* <= .*_high,\n", ""),
    "a relaxation with more": replaced("relaxed.py", r"^\]\)", "    cp.Constant(1) <= 0,\n])"),
    "a relaxation with another number": replaced("relaxed.py", r"array\(\[", "array([1"),
    "a script with another number": replaced("model.py", r"array\(\[", "array([1"),
    "a script without a mark": replaced("model.py", r"boolean=True", "nonneg=True"),
    "a script of another objective": replaced("model.py", r"(cp\.M\w+)\(", r"\1(2*"),
    "a script that isn't there": replaced("model.py", r"prob = ", "other = "),
    "a parameter's value": replaced("setting.txt", r"\{\}", "p = 1"),
    "a point with another entry": replaced("point.json", r"\[\d", "[7"),
    "a point with a fraction": replaced("point.json", r"\[\d", "[0.5"),
    "a point of fewer entries": replaced("point.json", r"\[\d, ", "["),
    "a point in another box": replaced("point.txt", r"_high = \[\d", "_high = [3"),
    "a point with another value": replaced("point.cert", r"^value (-?)", r"value \g<1>9"),
    "a point with another number": replaced("point.cert", r"^(var \S+ \S+ =) \d+", r"\1 5"),
    "a point without a section": replaced("point.cert", r"^section 1 [\s\S]*", "section 1 none\nend\n"),
}


class Changes(unittest.TestCase):
    """Each change of the table is refused, of evidence with a goal below the value (all costs whole) and of evidence
    whose best leaf ties (a continuous variable has a cost)."""

    @classmethod
    def setUpClass(cls):
        cls.made = {}
        for name, problem in (("knapsack", knapsack(7, 1)), ("plant", plant(1))):
            cls.made[name] = evidence(searched(problem), problem.script(), problem.settings())

    def test_as_it_is(self):
        kinds = {name: found.check() for name, found in self.made.items()}
        self.assertEqual((kinds["knapsack"].step, kinds["plant"].step), (1, None))
        self.assertTrue(all(shown.leaves > 2 for shown in kinds.values()))
        self.assertIn(" optimal\n", self.made["plant"].files["leaves-1.cert"])
        self.assertNotIn(" optimal\n", self.made["knapsack"].files["leaves-1.cert"])

    def test_changed(self):
        self.assertGreaterEqual(len(OF_ALL), 30)
        for name, change in OF_ALL.items():
            for of, found in self.made.items():
                with self.subTest(change=name, of=of):
                    files = dict(found.files)
                    change(files)
                    self.assertNotEqual(files, found.files)
                    with self.assertRaises(EvidenceError):
                        Evidence(files).check()

    def test_a_value_that_is_better_by_less_than_a_step(self):
        files = dict(self.made["knapsack"].files)
        content = json.loads(files["tree.json"])
        goal = str(int(content["goal"]) + 1)  # the goal skips a value that a point could have
        files["leaves-1.txt"] = files["leaves-1.txt"].replace(f"goal = {content['goal']};", f"goal = {goal};")
        put(goal=goal)(files)
        with self.assertRaisesRegex(EvidenceError, "a value between"):
            Evidence(files).check()

    def test_open_sides_have_no_multipliers(self):
        """An upper end of a million that the declaration doesn't say can't be made use of."""
        files = dict(self.made["plant"].files)
        number = files["leaves-1.cert"]
        at = [line for line in number.split("\n") if line.startswith("dual 7 ")]
        self.assertTrue(at)
        for line in set(at):
            changed = re.sub(r"= \S+$", "= 1", line)
            cert = number.replace(line, changed)
            with self.assertRaises(EvidenceError):
                Evidence({**files, "leaves-1.cert": cert}).check()
