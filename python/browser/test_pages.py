"""The pages in a browser without a window: what is read, where the points of plots are drawn, what keys do, how a page
stands on a telephone, how long it takes to open. `tools/test-pages` is the command.

A copy of each page gets a script at its end that does what a reader does and writes down what is seen.
"""
from __future__ import annotations

import html
import json
import os
import re
import subprocess
import tempfile
import unittest
from fractions import Fraction
from pathlib import Path

from dcx import program
from dcx.reports import read_report
from dcx.view import found, page

TOP = Path(__file__).resolve().parents[2]
PAGES = TOP / "docs" / "pages"
REPORTS = {
    "plan": ("resolve", "examples/project/model.py", "examples/project/settings.txt"),
    "fit": ("solve", "examples/deviations/model.py"),
    "control": ("resolve", "examples/control/model.py", "docs/pages/control_settings.txt"),
    "schedule": ("resolve", "examples/schedule/model.py", "examples/schedule/settings.txt"),
    "range": ("resolve", "examples/prices/model.py", "examples/prices/settings.txt"),
    "refusal": ("solve", "examples/portfolio/too_little_turnover.py"),
}
PROBE = """
<script>
addEventListener('load', () => setTimeout(async () => {
  if (window.top !== window) return;
  const seen = {alerts: 0, errors: window.probeErrors || []};
  const timing = performance.getEntriesByType('navigation')[0];
  document.body.getBoundingClientRect();  // so that it is laid out
  seen.opened = performance.now() - timing.responseStart;
  seen.elements = document.getElementsByTagName('*').length;
  seen.text = document.body.innerText;
  seen.resources = performance.getEntriesByType('resource').map((one) => one.name);
  seen.plots = [...document.querySelectorAll('svg')].map((svg) => {
    const middle = (one) => {
      const box = one.getBoundingClientRect();
      return [(box.left + box.right) / 2, (box.top + box.bottom) / 2];
    };
    const text = (one) => [one.textContent, one.getAttribute('text-anchor'), ...middle(one)];
    const point = (one) => [one.dataset.x, one.dataset.y, ...middle(one)];
    const texts = [...svg.querySelectorAll('text:not(.label)')].map(text);
    return {texts, points: [...svg.querySelectorAll('circle')].map(point)};
  });
  const dot = [...document.querySelectorAll('circle')].at(-1);
  if (dot) {
    dot.dispatchEvent(new PointerEvent('pointerover', {bubbles: true}));
    seen.told = dot.textContent;
  }
  const table = document.querySelector('table.sortable');
  seen.orders = [];
  if (table) {
    const column = () => [...table.tBodies[0].rows].map((row) => row.cells[seen.at].innerText);
    const heads = [...table.tHead.rows[0].cells];
    seen.at = heads.findIndex((head) => head.innerText.includes('objective') || head.innerText.includes('multiplier'));
    const button = heads[seen.at].querySelector('button');
    button.focus();
    seen.focused = document.activeElement === button;
    for (let time = 0; time < 2; time++) {
      button.click();
      seen.orders.push([heads[seen.at].getAttribute('aria-sort'), column()]);
    }
  }
  const link = [...document.querySelectorAll('td a[href^="#answer-"]')].at(-1);
  if (link) {
    link.click();
    await new Promise((done) => setTimeout(done, 50));
    const target = document.getElementById(link.hash.slice(1));
    seen.followed = target.checkVisibility() && target.getClientRects().length > 0;
  }
  const tall = document.querySelector('#fractions');
  if (tall) {
    const listed = [...document.querySelectorAll('.listing small')];
    const small = () => listed.filter((one) => getComputedStyle(one).display !== 'none').length;
    const before = small();
    tall.click();
    seen.fractions = [before, small()];
  }
  const frame = document.createElement('iframe');
  frame.style.cssText = 'width: 390px; height: 800px; border: 0';
  frame.srcdoc = document.documentElement.outerHTML;
  document.body.append(frame);
  await new Promise((done) => { frame.onload = done; });
  const root = frame.contentDocument.documentElement;
  seen.phone = [root.scrollWidth, root.clientWidth];
  document.documentElement.innerHTML = '<pre id="seen"></pre>';
  document.getElementById('seen').textContent = JSON.stringify(seen);
}, 0));
</script>
"""
FIRST = (
    "<script>window.probeErrors = []; addEventListener('error', (e) => probeErrors.push(e.message)); "
    "window.alert = () => probeErrors.push('alert');</script>"
)


def chromium(*words):
    """What Chromium prints."""
    command = [os.environ.get("CHROMIUM", "chromium"), "--headless", "--no-sandbox", "--disable-gpu"]
    command += ["--window-size=1200,1000", *words]
    try:
        done = subprocess.run(command, stdout=subprocess.PIPE, stderr=subprocess.DEVNULL, timeout=240)
    except FileNotFoundError:
        raise AssertionError("Chromium isn't there: apt-get install -y chromium, or set CHROMIUM to its path") from None
    return done.stdout.decode()


def seen(text):
    """What is seen on a page."""
    with tempfile.TemporaryDirectory() as folder:
        file = Path(folder) / "page.html"
        file.write_text(text.replace("<head>", f"<head>{FIRST}", 1).replace("</body>", f"{PROBE}</body>"))
        dom = chromium("--virtual-time-budget=20000", "--dump-dom", file.as_uri())
    match = re.search(r'<pre id="seen">(.*?)</pre>', dom, re.S)
    if match is None:
        raise AssertionError(f"the page's script didn't end: {dom[-500:]}")
    return json.loads(html.unescape(match.group(1)))


def number(text):
    """The number of a cell, which may have its fraction behind it."""
    exact = re.split(r" ?[=≈] ?", text.strip())[-1]
    return Fraction(exact)


def told(value):
    """A number as the page tells it."""
    if value.denominator == 1:
        return str(value)
    rounded = f"{float(value):.6g}"
    return f"{rounded} {'=' if Fraction(rounded) == value else '≈'} {value}"


def last_told(one):
    """What the last point says when it is pointed at, in a plot over the settings."""
    x, y, *_ = one["plots"][-1]["points"][-1]
    return f"setting {x}: {y}"


class Kept(unittest.TestCase):
    """The pages of docs/pages/."""

    @classmethod
    def setUpClass(cls):
        cls.seen = {name: seen((PAGES / f"{name}.html").read_text()) for name in REPORTS}
        cls.reports = {}
        for name, (word, *files) in REPORTS.items():
            cls.reports[name] = read_report(program.run(word, *((TOP / file).read_bytes() for file in files)).report)

    def test_quiet(self):
        """No page has an error, or asks for anything."""
        for name, one in self.seen.items():
            with self.subTest(name):
                self.assertEqual(one["errors"], [])
                self.assertEqual(one["resources"], [])

    def test_telephone(self):
        """No page is wider than a telephone."""
        for name, one in self.seen.items():
            with self.subTest(name):
                self.assertLessEqual(*one["phone"])

    def test_numbers(self):
        """Each value of the report is read on the page, and those of the answer in the script with its entries."""
        for name, report in self.reports.items():
            text = " ".join(self.seen[name]["text"].split())
            with self.subTest(name):
                for answer in report.answers:
                    if answer.value is not None:
                        self.assertIn(told(answer.value), text)
                chosen = report.answers[1 if name == "schedule" else 0] if report.answers else None
                for array in chosen.variables.values() if chosen else ():
                    for entry in array.entries:
                        self.assertIn(told(entry), text)
        self.assertIn("Refused at line 10", self.seen["refusal"]["text"])
        self.assertIn("No point keeps the 5 marked constraints together", self.seen["schedule"]["text"])

    def test_points(self):
        """The points of each plot stand where the ticks of its axes say, and have the report's values."""
        count = 0
        for name, one in self.seen.items():
            values = {answer.value for answer in self.reports[name].answers}
            for at, plot in enumerate(one["plots"]):
                count += 1
                across = [(Fraction(text), x) for text, anchor, x, _ in plot["texts"] if anchor == "middle"]
                down = [(Fraction(text), y) for text, anchor, _, y in plot["texts"] if anchor == "end"]
                for axis, place in ((across, 2), (down, 3)):
                    (first, low), (last, high) = axis[0], axis[-1]
                    for point in plot["points"]:
                        wanted = low + float((Fraction(point[place - 2]) - first) / (last - first)) * (high - low)
                        self.assertAlmostEqual(point[place], wanted, delta=1.5, msg=(name, at, point))
                dots = {Fraction(y) for _, y, _, _ in plot["points"]}
                self.assertLessEqual(values - {None}, dots, (name, at))
        self.assertEqual(count, 2 + 0 + 1 + 0 + 3 + 0)
        self.assertEqual(self.seen["control"]["told"], last_told(self.seen["control"]))

    def test_order(self):
        """A head that is pressed puts the rows in order, once up and once down."""
        for name, one in self.seen.items():
            if not one["orders"]:
                continue
            with self.subTest(name):
                self.assertTrue(one["focused"])
                words = [word for word, _ in one["orders"]]
                self.assertEqual(set(words), {"ascending", "descending"})
                for word, column in one["orders"]:
                    numbers = [number(cell) for cell in column if cell.strip()]
                    self.assertEqual(numbers, sorted(numbers, reverse=word == "descending"))

    def test_folded(self):
        """A link of the table opens the answer; the fractions can be hidden."""
        for name in ("plan", "control", "schedule", "range"):
            self.assertTrue(self.seen[name]["followed"], name)
        before, after = self.seen["fit"]["fractions"]
        self.assertEqual(after, 0)
        self.assertGreater(self.seen["control"]["fractions"][0], 5)


class Made(unittest.TestCase):
    """Pages that are made for the test."""

    def test_hostile(self):
        evil = "</script><script>alert(1)</script><img src=x onerror=alert(1)>"
        script = (
            f"# {evil}\nimport cvxpy as cp\nx = cp.Variable()  # {evil}\np = cp.Parameter()\n"
            "prob = cp.Problem(cp.Minimize(x), [x >= p])\n"
        )
        settings, names = f"p = 1 # {evil}\np = 2\n", (f"{evil}/{evil}.py", evil)
        one = seen(page(found(script.encode(), settings.encode(), names, parameter="p"), "p"))
        self.assertEqual((one["errors"], one["resources"]), ([], []))
        self.assertIn(evil, one["text"])

    def test_thousand_settings(self):
        script = (TOP / "examples/guide/hours.py").read_text()
        settings = "".join(f"hours = {at}/7\n" for at in range(1000))
        text = page(found(script.encode(), settings.encode(), ("model.py", "settings.txt")))
        one = seen(text)
        self.assertEqual(one["errors"], [])
        opened = one["opened"]
        for _ in range(2):  # the machine may be busy
            opened = opened if opened < 1000 else min(opened, seen(text)["opened"])
        self.assertLess(opened, 1000)
        self.assertLess(one["elements"], 18_000)
        self.assertEqual([len(plot["points"]) for plot in one["plots"]], [1000, 1000])
        self.assertEqual(one["told"], last_told(one))
        self.assertEqual(len(one["orders"][0][1]), 1000)
        numbers = [number(cell) for cell in one["orders"][1][1]]
        self.assertEqual(numbers, sorted(numbers, reverse=True))
        print(f"1,000 settings: {len(text.encode()):,} bytes, {one['elements']:,} elements, opened in {opened:.0f} ms")


if __name__ == "__main__":
    unittest.main()
