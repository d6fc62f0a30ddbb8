"""The reader of reports: each one of the examples and worked cases is read and written again, broken ones refused."""
from __future__ import annotations

import csv
import io
import json
import random
import re
import subprocess
import sys
import unittest
from fractions import Fraction
from pathlib import Path

from dcx.exact import cases
from dcx.lines import FAULT_FORMS, Detail, Refusal
from dcx.reports import Range, ReportError, Verdict, read_report
from dcx.values import Entries

TOP = Path(__file__).resolve().parents[2]
DATA = TOP / "crates" / "dcx_cases" / "data"
# Words of cases that are no commands of the program: what they give is no report.
LISTINGS = {"gather", "rows", "map", "branch"}
KINDS = {
    "usage", "refused", "fault", "memory", "check", "solved", "iis", "range", "trial", "certificate", "certified",
    "certificate refused",
}


def case_reports():
    """The place and the bytes of each whole report of the worked cases, which are written as docs/CASES.md says."""
    for name in (DATA / "index.txt").read_text().split():
        path = str(DATA / name)
        if name.endswith(".md"):
            for case in cases.page_cases(path):
                yield f"{name}:{case.line}", case.wanted[1]
            continue
        words, is_cut = ["check"], False
        for line, head, body in cases.sections(path):
            word, _, rest = head.partition(" ")
            if word == "case":
                words, is_cut = rest.split(), False
            elif word == "write":
                is_cut = True
            elif word == "gives" and not {*words[:1]} & LISTINGS and not is_cut:
                yield f"{name}:{line}", body
            elif "|" in head and word not in (*cases.TAKES_LINES, "minimize", "maximize"):
                yield f"{name}:{line}", cases.short_case(line, head, b"", "check model.py").wanted[1]


def example_reports():
    """The files of the examples that are reports or certificates, and not what a driver in Python prints."""
    for path in sorted((TOP / "examples").rglob("*.txt")):
        if "settings" not in path.name and not path.name.startswith(("once", "wide_range", "hours_weeks", "printed")):
            yield str(path.relative_to(TOP)), path.read_bytes()


def kind_of(data):
    """Whether the bytes are refused, by their line, or read."""
    try:
        return read_report(data)
    except ReportError as error:
        return error


class RoundTrip(unittest.TestCase):
    def test_each_report_of_the_cases(self):
        kinds, names, count = set(), set(), 0
        for place, data in case_reports():
            report = read_report(data)
            self.assertEqual(bytes(report), data, place)
            self.assertEqual(report.text, data.decode(), place)
            count += 1
            kinds.add(report.kind)
            names.update(answer.stop.name for answer in report.answers if answer.stop is not None)
            if report.refusal is not None:
                names.add(report.refusal.name)
            if report.fault is not None:
                names.add(report.fault.name)
        self.assertGreater(count, 2500)
        self.assertEqual(kinds, KINDS)
        # Each refusal, stop and fault is met, by the tables of the pages.
        formats = (TOP / "docs" / "FORMATS.md").read_text()
        self.assertLessEqual(set(re.findall(r"^\| `\d+ (\w+)", formats, re.M)), names)
        language = (TOP / "docs" / "LANGUAGE.md").read_text()
        self.assertLessEqual(set(re.findall(r"^\| \d+ `(\w+)`", language, re.M)), names)
        self.assertLessEqual(set(FAULT_FORMS), names)

    def test_each_report_of_the_examples(self):
        count = 0
        for place, data in example_reports():
            self.assertEqual(bytes(read_report(data)), data, place)
            count += 1
        self.assertGreater(count, 25)

    def test_text_is_taken_as_bytes_are(self):
        data = (TOP / "examples/production/report.txt").read_bytes()
        self.assertEqual(read_report(data), read_report(data.decode()))
        self.assertEqual(read_report(bytearray(data)), read_report(memoryview(data)))


class Objects(unittest.TestCase):
    """What is read, against the lines as docs/FORMATS.md explains them."""

    def test_optimal(self):
        report = read_report(
            b"solve 1 optimal\nvalue -11/2\nvar x () = 3\nvar Y (2,3) = 1 2 3 -4 5/6 0\ndual 1 (2) = 1/2 0\n"
            b"dual 2 () = -1\nanswered 1 stopped 0\n"
        )
        (answer,) = report.answers
        self.assertEqual((report.kind, report.answered, report.stopped, report.warm), ("solved", 1, 0, None))
        self.assertEqual((answer.word, answer.index, answer.status, answer.whole), ("solve", 1, "optimal", False))
        self.assertEqual(answer.value, Fraction(-11, 2))
        self.assertEqual(answer.variables["x"], Entries((), (Fraction(3),)))
        six = (Fraction(1), Fraction(2), Fraction(3), Fraction(-4), Fraction(5, 6), Fraction(0))
        self.assertEqual(answer.variables["Y"], Entries((2, 3), six))
        self.assertEqual(list(answer.duals), [1, 2])
        self.assertEqual(answer.duals[1], Entries((2,), (Fraction(1, 2), Fraction(0))))

    def test_the_other_answers(self):
        report = read_report(
            b"setting 1 infeasible\ngap 1/5\ndual 1 () = 2\nsetting 2 unbounded\nbound -2\nslope 1/3\nvar x () = 1\n"
            b"ray x () = 4\nsetting 3 stopped 27 PivotLimit 9\nanswered 2 stopped 1\nwarm 1\n"
        )
        first, second, third = report.answers
        self.assertEqual((first.status, first.gap, first.duals[1].entries), ("infeasible", Fraction(1, 5), (2,)))
        self.assertEqual((second.bound, second.slope), (-2, Fraction(1, 3)))
        self.assertEqual((second.variables["x"].entries, second.ray["x"].entries), ((1,), (4,)))
        self.assertEqual((third.status, third.stop.number, third.stop.name), ("stopped", 27, "PivotLimit"))
        self.assertEqual((third.stop.detail, report.warm), (Detail(count=9), 1))

    def test_whole_numbers(self):
        report = read_report(
            b"solve 1 whole optimal\nvalue 3\nvar x () = 3\nnodes 7\nsolve 2 whole infeasible\nnodes 1\n"
            b"solve 3 stopped 33 Branch node 4 26 Wide answer 2 add 1/2 1/3\nanswered 2 stopped 1\n"
        )
        first, second, third = report.answers
        self.assertEqual((first.status, first.whole, first.nodes, first.value), ("optimal", True, 7, 3))
        self.assertEqual((second.status, second.whole, second.nodes, second.variables), ("infeasible", True, 1, {}))
        self.assertEqual(third.stop.detail.node, 4)
        inner = third.stop.detail.stop
        self.assertEqual((inner.number, inner.name), (26, "Wide"))
        detail = Detail(where="answer", row=2, op="add", left=Fraction(1, 2), right=Fraction(1, 3))
        self.assertEqual(inner.detail, detail)

    def test_constraints_in_the_way_and_ranges(self):
        report = read_report(
            b"setting 1 feasible\nvar x () = 1\nsetting 2 infeasible constraints 1 3\nwithout 1\nvar x () = 2\n"
            b"without 3\nvar x () = 0\nanswered 2 stopped 0\n"
        )
        self.assertEqual((report.kind, report.answers[1].members), ("iis", (1, 3)))
        points = [(without.constraint, without.variables["x"].entries) for without in report.answers[1].without]
        self.assertEqual(points, [(1, (2,)), (3, (0,))])
        report = read_report(
            b"setting 1 range p from none to 5/2 value 1 slope -1/2\nsetting 2 infeasible\nsetting 3 unbounded\n"
            b"answered 3 stopped 0\n"
        )
        self.assertEqual(report.answers[0].range, Range("p", None, Fraction(5, 2), Fraction(1), Fraction(-1, 2)))
        self.assertEqual([answer.status for answer in report.answers], ["range", "infeasible", "unbounded"])

    def test_check_and_refusals(self):
        report = read_report(
            b"accepted\nobjective maximize sign nonneg curvature concave\ndpp no\nvariables 2 entries 5\n"
            b"parameters 0 entries 0\nconstraints 3 entries 7\n"
        )
        self.assertEqual(report.verdict, Verdict("maximize", "nonneg", "concave", False, 2, 5, 0, 0, 3, 7))
        refusal = read_report(b"refused script 20 PlainWide at 3:16 mul -1/2 7\n").refusal
        detail = Detail(op="mul", left=Fraction(-1, 2), right=Fraction(7))
        self.assertEqual((refusal, refusal.name), (Refusal("script", 20, 3, 16, detail), "PlainWide"))

    def test_certificates(self):
        report = read_report((TOP / "examples/certificates/certificate.txt").read_bytes())
        first, second, third = report.sections
        self.assertEqual((report.kind, report.form, first.params["p"].entries), ("certificate", 2, (Fraction(1, 2),)))
        self.assertEqual((first.value, first.weights), (Fraction(3, 2), {1: (1, 0)}))
        self.assertEqual((second.status, second.gap), ("infeasible", Fraction(1, 2)))
        self.assertEqual((third.bound, third.slope, third.ray["x"].entries), (-2, 2, (1,)))
        fault = read_report(b"certificate refused section 1 Setting 0 0 1 1/2\n").fault
        detail = Detail(parameter=0, entry=0, stated=Fraction(1), found=Fraction(1, 2))
        self.assertEqual((fault.section, fault.name, fault.detail), (1, "Setting", detail))
        self.assertEqual(read_report(b"certificate refused section 2 Fit 24 ParamSign\n").fault.detail.stop.number, 24)
        self.assertEqual(read_report(b"certified 3\n").certified, 3)


class Refused(unittest.TestCase):
    GOOD = (
        "setting 1 optimal\nvalue 3/2\nvar x () = 1\nvar y (2) = 0 1\ndual 1 () = 3/2\ndual 2 () = 0\n"
        "setting 2 infeasible\ngap 1/2\ndual 1 () = 1\ndual 2 () = 1/10\n"
        "setting 3 unbounded\nbound -2\nslope 2\nvar x () = 1\nvar y (2) = 0 0\nray x () = 1\nray y (2) = 0 1/3\n"
        "setting 4 stopped 24 ParamSign p entry 1 value -2\nanswered 3 stopped 1\nwarm 0\n"
    )

    def refused(self, text, line=None):
        with self.assertRaises(ReportError, msg=text) as caught:
            read_report(text)
        if line is not None:
            self.assertEqual(caught.exception.line, line, text)

    def test_a_line_dropped_doubled_or_swapped(self):
        lines = self.GOOD.splitlines(keepends=True)
        read_report(self.GOOD)
        for at in range(len(lines)):
            self.refused("".join(lines[:at] + [lines[at]] + lines[at:]))
            if at != len(lines) - 1:  # without the last line it is a report without `--warm`
                self.refused("".join(lines[:at] + lines[at + 1 :]))
                self.refused("".join(lines[:at] + [lines[at + 1], lines[at]] + lines[at + 2 :]))

    def test_other_reports_with_a_line_dropped_doubled_or_swapped(self):
        """Where such a change leaves a report, it is that of another problem or setting: it reads as another one."""
        read = refused = 0
        for place, data in [*example_reports(), *list(case_reports())[::40]]:
            lines = data.splitlines(keepends=True)
            if len(lines) > 60:
                continue
            for at in range(len(lines)):
                swapped = lines[:at] + lines[at : at + 2][::-1] + lines[at + 2 :]
                for other in (lines[:at] + lines[at + 1 :], lines[: at + 1] + lines[at:], swapped):
                    if other == lines:
                        continue
                    found = kind_of(b"".join(other))
                    if isinstance(found, ReportError):
                        refused += 1
                        self.assertLessEqual(found.line, len(other) + 1)
                    else:
                        # A variable, the last multiplier or the last section may be missing, variables may be swapped.
                        read += 1
                        self.assertEqual(bytes(found), b"".join(other), place)
                        self.assertRegex(lines[at], rb"^(var|dual|warm|node|param|section \d+ none|end)\b", place)
        self.assertGreater(refused, 10 * read)

    def test_numbers(self):
        wrongs = ["6/4", "3/1", "0/5", "-0", "+1", "01", "1/02", "1/0", "1/-2", "1.5", "1e3", "", "x", "٣", "9" * 5000]
        for wrong in [*wrongs, f"{2**127}", f"1/{2**127}"]:
            self.refused(self.GOOD.replace("value 3/2", f"value {wrong}"), 2)
        read_report(self.GOOD.replace("value 3/2", f"value -{2**127 - 1}/2"))
        for wrong in ("gap 0", "gap -1/2"):
            self.refused(self.GOOD.replace("gap 1/2", wrong), 8)
        self.refused(self.GOOD.replace("slope 2", "slope 0"), 13)

    def test_counts_shapes_and_order(self):
        for good, wrong, line in (
            ("answered 3 stopped 1", "answered 4 stopped 1", 19),
            ("answered 3 stopped 1", "answered 3 stopped 01", 19),
            ("warm 0", "warm 4", 20),
            ("setting 2", "setting 3", 7),
            ("setting 2", "solve 2", 7),
            ("var y (2) = 0 1", "var y (2) = 0", 4),
            ("var y (2) = 0 1", "var y (2) = 0 1 1", 4),
            ("var y (2) = 0 1", "var y (2) = 0  1", 4),
            ("var y (2) = 0 1", "var y (2,1) = 0 1", 15),
            ("var y (2) = 0 1", "var y (0) =", 4),
            ("var y (2) = 0 0", "var z (2) = 0 0", 15),
            ("ray y (2)", "ray z (2)", 17),
            ("dual 2 () = 0", "dual 3 () = 0", 6),
            ("dual 2 () = 1/10", "dual 2 (1) = 1/10", 10),
            ("24 ParamSign", "24 ParamShape", 18),
            ("24 ParamSign", "29 ParamSign", 18),
            ("entry 1 value", "value 1 entry", 18),
            ("stopped 24 ParamSign p entry 1 value -2", "stopped 33 Branch node 1 27 PivotLimit 3", 18),
            ("infeasible\ngap 1/2\n", "feasible\n", 8),
        ):
            self.refused(self.GOOD.replace(good, wrong, 1), line)

    def test_what_is_no_report(self):
        for text, line in (
            ("", 1),
            ("\n", 1),
            ("certified 3", 1),
            ("certified 3\n\n", 2),
            ("certified 3\ncertified 3\n", 2),
            ("certified 3\r\n", 1),
            ("solve 1 optimal\nvalue 3\n", 3),
            ("Traceback\n", 1),
            ("usage: dcx\n", 1),
            ("refused script 19 NotDcp at 1:1\n", 1),
            ("refused script 19 NotDcp at 1:1 rule at_least\n", 1),
            ("refused script 19 UnknownName at 1:1\n", 1),
            ("refused script 9 UnknownName at 0:1\n", 1),
            ("refused file 9 UnknownName at 1:1\n", 1),
            ("refused\n", 1),
            ("accepted\nobjective minimize sign nonneg curvature concave\n", 2),
            ("trial 3\nsetting 1 optimal value 3\nanswered 1 stopped 0\n", 3),
            ("certificate 3\n", 1),
            ("certificate 2\nsection 2 none\nend\n", 2),
            ("certificate 1\nsection 1 unbounded\n", 2),
            ("certificate 2\nsection 1 optimal\nvalue 1\nnode 4 = 1 0\nnode 3 = 1 0\nend\n", 5),
            ("certificate refused section 1 Form 3\n", 1),
            ("certificate refused section 1 Gap 1 2\n", 1),
            ("setting 1 infeasible constraints 3 1\n", 1),
            ("setting 1 infeasible constraints 1\nwithout 2\n", 2),
            ("setting 1 range p from 3 to 1 value 0 slope 1\n", 1),
            ("setting 1 range p from 0 to 1 value 0 slope 1\nsetting 2 range q from 0 to 1 value 0 slope 1\n", 2),
            ("solve 1 infeasible\nanswered 1 stopped 0\n", 2),
        ):
            self.refused(text, line)
        with self.assertRaises(ReportError) as caught:
            read_report(b"solve 1 optimal\nvalue \xff\n")
        self.assertEqual(caught.exception.line, 2)

    def test_bytes_that_are_changed(self):
        """A report with some bytes changed is refused, or is another report, which is written again as it stands."""
        draw = random.Random(53)
        reports = [data for _, data in [*example_reports(), *list(case_reports())[::25]] if len(data) < 2000]
        read = refused = 0
        for _ in range(3000):
            data = bytearray(draw.choice(reports))
            for _ in range(draw.randint(1, 2)):
                at = draw.randrange(len(data))
                way = draw.randrange(3)
                if way == 0:
                    data[at] = draw.choice(b"0123456789/-+(),=: \n\r\taxSP\xc3\xff")
                elif way == 1:
                    del data[at]
                else:
                    data.insert(at, draw.choice(b"0123456789/-(),=: \nsolve"))
                if not data:
                    data = bytearray(b" ")
            found = kind_of(bytes(data))
            if isinstance(found, ReportError):
                refused += 1
            else:
                read += 1
                self.assertEqual(bytes(found), bytes(data))
        self.assertGreater(read, 50)
        self.assertGreater(refused, 2000)

    def test_each_front_is_refused(self):
        data = (TOP / "examples/certificates/report.txt").read_bytes()
        for length in range(len(data)):
            self.assertIsInstance(kind_of(data[:length]), ReportError, length)


class Exports(unittest.TestCase):
    def test_json(self):
        found = json.loads(read_report(Refused.GOOD).to_json())
        answers = found["answers"]
        self.assertEqual(answers[0]["value"], {"exact": "3/2", "decimal": 1.5})
        self.assertEqual(answers[0]["variables"]["y"], {"shape": [2], "exact": ["0", "1"], "decimal": [0.0, 1.0]})
        self.assertEqual(answers[1]["duals"]["2"], {"shape": [], "exact": "1/10", "decimal": 0.1})
        stop = {"number": 24, "name": "ParamSign", "entry": 1, "value": {"exact": "-2", "decimal": -2.0}}
        # The parameter's name stands beside that of the stop.
        self.assertEqual(answers[3]["stop"], {**stop, "parameter": "p", "text": "24 ParamSign p entry 1 value -2"})
        self.assertEqual((found["answered"], found["stopped"], found["warm"]), (3, 1, 0))
        checked = json.loads(read_report((TOP / "examples/portfolio/check.txt").read_bytes()).to_json())
        self.assertIs(checked["verdict"]["dpp"], True)

    def test_matrices_are_lists_of_rows(self):
        report = read_report("solve 1 optimal\nvalue 0\nvar X (2,3) = 1 2 3 4 5 1/8\nanswered 1 stopped 0\n")
        array = json.loads(report.to_json())["answers"][0]["variables"]["X"]
        self.assertEqual(array["exact"], [["1", "2", "3"], ["4", "5", "1/8"]])
        self.assertEqual(array["decimal"][1], [4, 5, 0.125])
        rows = list(csv.DictReader(io.StringIO(report.to_csv())))
        last = [row for row in rows if row["what"] == "var"][-1]
        found = [last[column] for column in ("name", "row", "column", "exact", "decimal")]
        self.assertEqual(found, ["X", "1", "2", "1/8", "0.125"])

    def test_each_report_has_both_forms(self):
        """Each number of a report stands in its table, in its order but for what heads the lines."""
        for place, data in [*example_reports(), *list(case_reports())[::7]]:
            report = read_report(data)
            json.loads(report.to_json())
            rows = list(csv.reader(io.StringIO(report.to_csv())))
            self.assertEqual({len(row) for row in rows}, {10}, place)
            self.assertGreater(len(rows), 1, place)
            lines = data.decode().splitlines()
            numbers = [number for line in lines if " = " in line for number in line.partition(" = ")[2].split()]
            words = ("var", "ray", "dual", "param", "node", "without")
            of_arrays = [row[7] for row in rows[1:] if row[3].split(" ")[0] in words]
            self.assertEqual(of_arrays, numbers, place)
            for row in rows[1:]:
                if row[7]:
                    self.assertEqual(float(Fraction(row[7])), float(row[8]), place)


class Loading(unittest.TestCase):
    def test_importing_the_package_loads_none_of_its_modules(self):
        code = "import dcx, sys; print(sorted(name for name in sys.modules if name.startswith('dcx.')))"
        done = subprocess.run([sys.executable, "-c", code], capture_output=True, text=True, check=True)
        self.assertEqual(done.stdout, "[]\n")

    def test_public_names(self):
        import dcx

        for name in dcx.__all__:
            self.assertIsNotNone(getattr(dcx, name))
            self.assertIn(name, dir(dcx))
        with self.assertRaises(AttributeError):
            dcx.nothing


if __name__ == "__main__":
    unittest.main()
