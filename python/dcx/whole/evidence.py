"""Evidence of an answer in whole numbers: the texts of the folder that `checking` checks, and writing them."""
from __future__ import annotations

import json
import shutil
import tempfile
from fractions import Fraction
from pathlib import Path
from typing import Iterator, NamedTuple, Optional, Union

from .boxes import Box, Relaxation
from .checking import Checked, EvidenceError, checked
from .rows import Rows, Shown
from .search import Node, Search

MOST = 1000  # settings in a file, which has so many bytes at the most
MOST_BYTES = 1_000_000


class Leaf(NamedTuple):
    """A box, and what is shown of it."""

    box: Box
    shown: Shown


class Evidence:
    """The files of the evidence, by name, and what they are to show. `check()` has them checked, `write(folder)`
    writes them."""

    def __init__(self, files: dict[str, str]):
        self.files = files

    @property
    def size(self) -> int:
        """How many bytes the files have."""
        return sum(len(text.encode()) for text in self.files.values())

    def write(self, folder: Union[str, Path]) -> Path:
        """Writes the files into a folder, which is made where there is none. Raises `FileExistsError` where it has
        other files."""
        folder = Path(folder)
        folder.mkdir(parents=True, exist_ok=True)
        others = sorted(path.name for path in folder.iterdir() if path.name not in self.files)
        if others:
            raise FileExistsError(f"{folder} has other files: {', '.join(others[:3])}")
        for name, text in self.files.items():
            (folder / name).write_bytes(text.encode())
        return folder

    def check(self) -> Checked:
        """What the files show, by the checker of `python3 -m dcx whole-check`. Raises `EvidenceError` where they show
        nothing."""
        folder = tempfile.mkdtemp(prefix="dcx-whole-")
        try:
            return checked(self.write(folder))
        finally:
            shutil.rmtree(folder, ignore_errors=True)

    def __repr__(self) -> str:
        return f"Evidence({len(self.files)} files, {self.size:,} bytes)"


def evidence(search: Search, script: str, settings: str) -> Evidence:
    """The evidence of a search that has ended. Raises `EvidenceError` where a number of it passes 128 bits."""
    rows, relaxation = search.rows, search.rows.relaxation
    is_optimal = search.best is not None
    if not is_optimal:
        # without a goal: what is shown to be empty is so without it
        relaxation = Relaxation(script, settings, has_goal=False, sums=relaxation.sums)
        rows = Rows(relaxation)
    side = -1 if relaxation.is_maximized else 1
    files = {"model.py": script, "setting.txt": settings, "relaxed.py": relaxation.text}
    names = [(item.name, entry) for item in relaxation.marked for entry in range(item.size)]
    tree, leaves = [], []
    for node in _listed(search.root):
        if node.split is None:
            tree.append(0)
            leaves.append(node)
        else:
            place, k, _, _ = node.split
            tree.append([*names[place], k])
    goal = side * search.goal if is_optimal else None
    parts = list(_parts([(relaxation.setting(node.box, goal) + "\n", node) for node in leaves]))
    said = {"status": "optimal" if is_optimal else "infeasible"}
    if is_optimal:
        said.update(value=str(side * search.best), goal=str(goal))
    if relaxation.sums:
        said["sums"] = relaxation.sums
    said.update(files=len(parts), tree=tree)
    files["tree.json"] = _json(said)
    for number, part in enumerate(parts, 1):
        files[f"leaves-{number}.txt"] = "".join(line for line, _ in part)
        files[f"leaves-{number}.cert"] = _certificate(rows, [node for _, node in part], search.goal)
    if is_optimal:
        files["point.json"] = json.dumps([int(search.point[u]) for u in rows.whole]) + "\n"
        files["point.txt"], files["point.cert"] = point_of(search)
    return Evidence(files)


def point_of(search: Search) -> tuple[str, str]:
    """The line of settings whose box is the best point of a search alone, and the certificate that it is feasible and
    has its value. Raises `EvidenceError` where there are no multipliers."""
    rows = search.rows
    box = tuple((int(search.point[u]), int(search.point[u])) for u in rows.whole)
    solution, shown = rows.exact(box)
    if shown is None or solution.number != search.best:
        raise EvidenceError("the best point has no multipliers")
    side = -1 if rows.relaxation.is_maximized else 1
    line = rows.relaxation.setting(box, side * search.best) + "\n"
    return line, _certificate(rows, [Leaf(box, shown)], search.best)


def _listed(root: Node) -> Iterator[Node]:
    """The nodes of a tree, each before those below it, the side at most k first."""
    waiting = [root]
    while waiting:
        node = waiting.pop()
        yield node
        if node.split is not None:
            waiting += [node.split[3], node.split[2]]


def _parts(listed: list) -> Iterator[list]:
    """Lines of settings with their leaves, by files of the size that the program reads."""
    part, size = [], 0
    for line, node in listed:
        if part and (len(part) == MOST or size + len(line.encode()) > MOST_BYTES):
            yield part
            part, size = [], 0
        part.append((line, node))
        size += len(line.encode())
    yield part


def _certificate(rows: Rows, leaves: list, goal: Optional[Fraction]) -> str:
    """A certificate of format 1, which leaves the settings' values to the settings."""
    lines = ["certificate 1"]
    for number, leaf in enumerate(leaves, 1):
        lines += rows.section(number, leaf.box, leaf.shown, goal)
    return "".join(line + "\n" for line in lines)


def _json(said: dict) -> str:
    """tree.json, with a node of the tree on a line."""
    head = "".join(f' "{key}": {json.dumps(value)},\n' for key, value in said.items() if key != "tree")
    return "{\n" + head + ' "tree": [\n' + ",\n".join(f"  {json.dumps(node)}" for node in said["tree"]) + "\n ]\n}\n"

