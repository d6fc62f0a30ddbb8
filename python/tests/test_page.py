"""Every run that docs/PYTHON.md shows is run, and each of Python that README.md shows, and says what stands there.

The blocks of a section are one script. Behind a block stands what it prints; where that begins with `$`, it is what the
command prints of the block as `model.py`, or of a file of the checkout. `python3 -m tests.test_page --write` writes
what they print into the pages.
"""
from __future__ import annotations

import os
import re
import subprocess
import sys
import tempfile
import unittest
from pathlib import Path

from dcx import DCXError

TOP = Path(__file__).resolve().parents[2]
PAGE = TOP / "docs" / "PYTHON.md"
README = TOP / "README.md"
BLOCK = re.compile(r"^```(\w*)\n(.*?)^```$", re.M | re.S)
MARK = "\x1f"


def start(words, folder):
    """What a command of Python says on both of its streams."""
    environment = dict(os.environ, PYTHONPATH=str(TOP / "python"), PYTHONDONTWRITEBYTECODE="1")
    done = subprocess.run([sys.executable, *words], cwd=folder, env=environment, stdin=subprocess.DEVNULL,
                          stdout=subprocess.PIPE, stderr=subprocess.STDOUT, text=True)
    return done.stdout


def shown(text):
    """Each block that shows what is printed: where it stands in the page, what stands in it, and what is printed."""
    found = []
    for section in re.finditer(r"^## .*?(?=^## |\Z)", text, re.M | re.S):
        blocks = [(match.group(1), match.group(2), match.start(2) + section.start(), match.end(2) + section.start())
                  for match in BLOCK.finditer(section.group(0))]
        code, waiting = [], []
        with tempfile.TemporaryDirectory() as folder:
            model = Path(folder) / "model.py"
            for language, inside, first, last in blocks:
                command = re.match(r"\$ python3 (.*)\n", inside)
                if language in ("python", "py"):
                    code.append(inside)
                elif command:
                    words = command.group(1).split()
                    model.write_text("\n".join(code))
                    printed = start(words, folder if "model.py" in words else TOP)
                    found.append((first, last, inside, command.group(0) + printed))
                    code = []
                elif language == "" and code:
                    waiting.append((first, last, inside))
                    code.append(f"print({MARK!r}, end='')\n")
            if waiting:
                model.write_text("\n".join(code))
                parts = start(["model.py"], folder).split(MARK)
                if len(parts) != len(waiting) + 1 or parts[-1]:
                    raise AssertionError(parts[-1])
                found += [(*place, printed) for place, printed in zip(waiting, parts)]
    return found


class Page(unittest.TestCase):
    maxDiff = None

    def test_shown_runs(self):
        text = PAGE.read_text()
        found = shown(text)
        for _, _, inside, printed in found:
            with self.subTest(inside[:40]):
                self.assertEqual(inside, printed)
        # No block is left out: each of Python has what it prints behind it.
        blocks = BLOCK.findall(text)
        self.assertEqual(len(found), sum(language == "" for language, _ in blocks))
        self.assertEqual([language for language, _ in blocks if language not in ("", "python")], [])

    def test_readme(self):
        text = README.read_text()
        found = shown(text)
        for _, _, inside, printed in found:
            with self.subTest(inside[:40]):
                self.assertEqual(inside, printed)
        # What stands behind `py`, which the worked cases don't read, and each command of Python.
        self.assertEqual(len(found), len(re.findall(r"^(?:```py|\$ python3 .*)$", text, re.M)))
        self.assertGreater(len(found), 1)

    def test_instead(self):
        """Of the table of what isn't offered the left column is refused, and the right one runs."""
        head = ("import dcx.cvxpy as cp\nimport numpy as np\n"
                "x = cp.Variable(3)\nX = cp.Variable((3, 3))\nA = np.eye(3)\n"
                "prob = cp.Problem(cp.Minimize(cp.sum(x)), [x >= 0])\n")
        rows = re.findall(r"^\| `([^|`]*)` \| (.*) \|$", PAGE.read_text(), re.M)
        self.assertGreater(len(rows), 15)
        for left, right in rows:
            with self.subTest(left):
                with self.assertRaises((DCXError, ValueError, AttributeError)) as caught:
                    exec(compile(head + left, "row", "exec"), {})
                self.assertGreater(len(str(caught.exception)), 20)
                for instead in re.findall(r"`([^`]*)`", right):
                    exec(compile(head + instead, "row", "exec"), {})


def write():
    """Writes what the blocks print into the pages."""
    for page in (PAGE, README):
        text = page.read_text()
        for first, last, _, printed in sorted(shown(text), reverse=True):
            text = text[:first] + printed + text[last:]
        page.write_text(text)


if __name__ == "__main__":
    if "--write" in sys.argv:
        write()
    else:
        unittest.main()
