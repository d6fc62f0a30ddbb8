"""Messages against docs/MESSAGES.md and docs/CERTIFICATES.md: the pages' names and numbers, and what is put in."""
from __future__ import annotations

import re
import unittest
from pathlib import Path

from dcx import messages
from dcx.exact.faults import REFUSALS, STOPS
from dcx.lines import FAULT_FORMS, REFUSAL_FORMS, STOP_FORMS
from dcx.reports import read_report

from .test_reports import case_reports

DOCS = Path(__file__).resolve().parents[2] / "docs"
PAGE = (DOCS / "MESSAGES.md").read_text()


def headings(part):
    """The numbers and names of the headings of a part of the page."""
    before, found = part.split("\n")[0], {}
    for line in part.split("\n"):
        match = re.fullmatch(r"### (\d+) `(\w+)`", line)
        if match is not None:
            found[int(match.group(1))] = match.group(2)
    return found


def split_page():
    """The page before its stops, and from there on."""
    return PAGE.split("\n## Stops\n")


class Names(unittest.TestCase):
    def test_refusals_are_those_of_the_page(self):
        self.assertEqual(headings(split_page()[0]), REFUSALS)
        self.assertEqual(set(messages.REFUSALS), set(REFUSALS))

    def test_stops_are_those_of_the_page(self):
        self.assertEqual(headings(split_page()[1]), STOPS)
        self.assertEqual(set(messages.STOPS), set(STOPS))
        self.assertEqual(set(STOP_FORMS), set(STOPS))

    def test_rules_are_those_of_the_page(self):
        self.assertEqual(set(re.findall(r"^`rule (\w+)`", PAGE, re.M)), set(messages.REFUSALS[19]))

    def test_counts_are_those_of_the_page(self):
        counted = dict(re.findall(r"^\| `(\w+) C` \|.*\| ([\d,]+) \|", PAGE, re.M))
        self.assertEqual(set(counted), set(messages.REFUSALS[18]) - {None})
        for what, most in counted.items():
            self.assertIn(most, messages.REFUSALS[18][what][0])

    def test_what_has_no_range_is_that_of_the_page(self):
        part = PAGE.split("### 35 `NotRanged`")[1].split("\n## ")[0]
        self.assertEqual(set(re.findall(r"^\| `(\w+)` \|", part, re.M)), set(messages.REFUSALS[35]))

    def test_places_of_wide_numbers_are_those_of_the_page(self):
        part = PAGE.split("### 26 `Wide`")[1].split("\n### ")[0]
        words = re.findall(r"^\| `(\w+) ", part, re.M)
        self.assertEqual({"entry" if word == "at" else word for word in words}, set(messages.STOPS[26]) - {None})

    def test_faults_are_those_of_the_page(self):
        part = (DOCS / "CERTIFICATES.md").read_text().split("## The faults")[1].split("\n## ")[0]
        names = {name for row in re.findall(r"^\| (`.*?) \|", part, re.M) for name in re.findall(r"`(\w+)`", row)}
        self.assertEqual(names, set(messages.FAULTS))
        self.assertEqual(names, set(FAULT_FORMS))
        told = re.findall(r"\| `\d (\w+)", PAGE.split("## Certificates")[1].split("## Other lines")[0])
        self.assertLessEqual(set(told), names)

    def test_statuses_are_those_of_the_page(self):
        numbers = re.findall(r"^\| (\d) \|", PAGE.split("## The status")[1], re.M)
        self.assertEqual([int(number) for number in numbers], sorted(messages.STATUSES))

    def test_limits_are_those_of_the_page(self):
        for number, limits in ((7, ["64"]), (8, ["1,048,576"]), (28, ["600", "2,400"]), (3, ["30", "2^127 - 1"])):
            table = messages.STOPS if number in messages.STOPS else messages.REFUSALS
            for limit in limits:
                self.assertIn(limit, " ".join(table[number]))
                self.assertIn(limit, PAGE)


class Sentences(unittest.TestCase):
    def message(self, line):
        report = read_report(line + "\n")
        if report.refusal is not None:
            return messages.refusal(report.refusal)
        return messages.fault(report.fault)

    def stop(self, text):
        report = read_report(f"setting 1 stopped {text}\nanswered 0 stopped 1\n")
        return messages.stop(report.answers[0].stop)

    def test_numbers_are_put_in(self):
        for text, parts in (
            ("21 UnknownParam price", ["price"]),
            ("22 MissingParam speed", ["speed"]),
            ("23 ParamShape prices (2) (3,4)", ["prices", "(2)", "(3,4)"]),
            ("24 ParamSign prices entry 1 value -1/3", ["Entry 1", "prices", "-1/3 (-0.333333)"]),
            ("25 ZeroDivisor at 8:60 entry 4", ["8:60", "Entry 4"]),
            ("26 Wide at 4:43 entry 7 mul 12 1/5", ["4:43", "entry 7", "product of 12 and 1/5"]),
            ("26 Wide row 3 add 2 5", ["row 3", "sum of 2 and 5"]),
            ("26 Wide map 3 sub 2 5", ["row 3", "difference of 2 and 5"]),
            ("26 Wide pivot 9 row 3 column 8", ["9 pivots", "row 3", "column 8"]),
            ("26 Wide answer 3 div 2 5", ["row 3", "quotient of 2 and 5", "multiplier"]),
            ("26 Wide row 3 lcm 4 6", ["least common multiple of 4 and 6"]),
            ("27 PivotLimit 1200", ["1,200"]),
            ("28 TooLarge rows 650 columns 1250", ["650", "1,250"]),
            ("32 NodeLimit 10000", ["10,000"]),
            ("33 Branch node 7 27 PivotLimit 3", ["node 7", "3 pivots"]),
            ("36 RangeWide mul 2 5", ["product of 2 and 5"]),
            ("37 Filter step 2 26 Wide row 1 add 3 4", ["Step 2", "row 1", "sum of 3 and 4"]),
        ):
            message = self.stop(text)
            for part in parts:
                self.assertIn(part, message.sentence, text)
        self.assertIn("speed.value", self.stop("22 MissingParam speed").advice)
        self.assertIn("--max-pivots", self.stop("33 Branch node 7 27 PivotLimit 3").advice)
        for line, parts in (
            ("refused script 18 TooMany at 2:9 entries 22500", ["22,500", "20,000"]),
            ("refused script 18 TooMany at 2:9 steps 100001", ["100,001", "100,000"]),
            ("refused script 20 PlainWide at 3:16 mul 10 2", ["product of 10 and 2"]),
            ("refused settings 8 TooLong at 1:1", ["1,048,576 bytes"]),
            ("refused settings 8 TooLong at 1001:1", ["1,000 settings"]),
            ("refused certificate 8 TooLong at 1:1", ["67,108,864 bytes"]),
            ("certificate refused section 0 Form 10", ["Line 10"]),
            ("certificate refused section 1 Fit 24 ParamSign", ["24 ParamSign"]),
            ("certificate refused section 1 Setting 2 0 1 1/2", ["parameter 2", "states 1", "1/2 (0.5)"]),
            ("certificate refused section 1 Constraint 4 0 5 4", ["constraint 4", "side is 5", "side 4"]),
            ("certificate refused section 1 Slope 4 0 2 1", ["node 4", "side is 2", "side 1"]),
            ("certificate refused section 1 Wide add 3 4", ["sum of 3 and 4"]),
        ):
            message = self.message(line)
            for part in parts:
                self.assertIn(part, message.sentence, line)
        of_settings = self.message("refused settings 6 Unexpected at 1:1")
        self.assertNotEqual(of_settings, self.message("refused script 6 Unexpected at 1:1"))

    def test_each_one_that_is_met_is_a_sentence(self):
        """Each refusal, stop and fault of the worked cases has a sentence and advice, with nothing left to put in."""
        seen = set()
        for place, data in case_reports():
            report = read_report(data)
            stops = [answer.stop for answer in report.answers if answer.stop is not None]
            told = [("stop", stop.number, messages.stop(stop)) for stop in stops]
            if report.refusal is not None:
                told.append((report.refusal.of, report.refusal.number, messages.refusal(report.refusal)))
            if report.fault is not None:
                told.append(("fault", report.fault.name, messages.fault(report.fault)))
            for of, number, message in told:
                seen.add((of, number))
                for text in message:
                    self.assertRegex(text, r"^[A-Z0-9`\"].*[.\])]$", place)
                    self.assertNotRegex(text, r"\{\w+\}|None|Fraction", place)
                    self.assertNotIn("\n", text)
        self.assertLessEqual({("stop", number) for number in STOPS}, seen)
        self.assertLessEqual({("script", number) for number in REFUSALS if number != 8}, seen)
        self.assertLessEqual({("fault", name) for name in messages.FAULTS}, seen)
        self.assertLessEqual({("settings", number) for number in range(1, 9)}, seen)

    def test_statuses_and_rules(self):
        for status in messages.STATUSES:
            self.assertTrue(messages.status(status).sentence.endswith("."))
        self.assertIn("affine", messages.rule("equal").sentence)
        self.assertEqual(messages.rule("at_most"), self.message("refused script 19 NotDcp at 10:29 rule at_most"))

    def test_advice_shares_its_words_with_the_page(self):
        """What is named as code in a message is named on the pages of the language too."""
        pages = "".join((DOCS / name).read_text() for name in ("MESSAGES.md", "LANGUAGE.md", "CVXPY.md", "FORMATS.md"))
        tables = (messages.REFUSALS, messages.REFUSALS_OF, messages.STOPS, messages.FAULTS)
        texts = [text for table in tables for entry in table.values() for text in texts_of(entry)]
        self.assertGreater(len(texts), 80)
        for code in {code for text in texts for code in re.findall(r"`([^`]+)`", text)}:
            words = re.findall(r"[\w.]{3,}", code.replace("{name}", ""))
            for word in words:
                if word not in ("max_iters",):
                    self.assertIn(word.strip("."), pages, code)


def texts_of(entry):
    """The texts of an entry of a table."""
    if isinstance(entry, str):
        return [entry]
    if isinstance(entry, dict):
        return [text for one in entry.values() for text in texts_of(one)]
    return [text for one in entry if one is not None for text in texts_of(one)]


class Forms(unittest.TestCase):
    def test_what_refusals_carry(self):
        self.assertEqual(set(REFUSAL_FORMS), {18, 19, 20, 35})


if __name__ == "__main__":
    unittest.main()
