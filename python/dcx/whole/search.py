"""Branch and bound: the box with the best bound first, split at the entry whose split raised bounds the most so far."""
from __future__ import annotations

import heapq
import time
from fractions import Fraction
from math import ceil, floor, inf
from typing import Callable, NamedTuple, Optional

from .boxes import Box
from .engines import Found, engine
from .rows import Rows, Shown

NEAR = 1e-6  # of a whole number, in floating point
KNOWN = 1  # so often both sides of an entry are tried until what they raise bounds is known well enough
TRIED = 6  # entries of which both sides are tried before one of them is chosen, where little is known of them


class Progress(NamedTuple):
    """How far a search is: the best value so far and the bound that no point is better than, both of the user's
    objective and None where there is none; boxes that were solved; seconds since it began."""

    best: Optional[Fraction]
    bound: Optional[float]
    nodes: int
    seconds: float

    @property
    def gap(self) -> Optional[float]:
        """How far best and bound are apart, relative to the best; None where one of them isn't there."""
        if self.best is None or self.bound is None:
            return None
        return abs(float(self.best) - self.bound) / max(abs(float(self.best)), 1e-9)

    def __str__(self) -> str:
        best = "no point" if self.best is None else f"best {float(self.best):.10g}"
        bound = "" if self.bound is None else f", bound {self.bound:.10g}"
        gap = "" if self.gap is None else f", gap {100 * self.gap:.2f} %"
        return f"{best}{bound}{gap}, {self.nodes:,} boxes, {self.seconds:.0f} s"


class Over(Exception):
    """The search ends without an answer: `reason` is `time`, `nodes`, `interrupted` or `numbers`."""

    def __init__(self, reason: str):
        super().__init__(reason)
        self.reason = reason


class Unbounded(Exception):
    """The relaxation is unbounded."""


class Node:
    """A box: `split` with the place, k and its two sides, or `shown`, or neither while it waits."""

    def __init__(self, box: Box, found: Found):
        self.box, self.found = box, found
        self.split = self.shown = None


class Search:
    """A search over the boxes of a relaxation. Behind `run()`, `best` has the value of what is minimized and `point`
    a point that has it, both None where no whole point is feasible, and `root` the tree."""

    def __init__(
        self,
        rows: Rows,
        step: Optional[Fraction] = None,
        seconds: Optional[float] = None,
        most: Optional[int] = None,
        told: Optional[Callable[[Progress], object]] = None,
        use_floats: bool = True,
    ):
        self.rows, self.step, self.told, self.most = rows, step, told, most
        self.engine = engine(rows, use_floats)
        self.begun = time.monotonic()
        self.seconds = inf if seconds is None else seconds
        self.best: Optional[Fraction] = None
        self.point: Optional[list] = None
        self.nodes, self.leaves, self.waiting = 0, 0, []
        self.root: Optional[Node] = None
        self.bound: float = -inf
        self.next_told = 1.0
        self.gains: dict = {}  # by place and side: how often split, and by how much the bound rose for each unit

    # What is known

    @property
    def goal(self) -> Optional[Fraction]:
        """What a box has to be shown to have nothing as good as."""
        return None if self.best is None else self.best - (self.step or 0)

    def progress(self) -> Progress:
        """How far it is."""
        side = -1 if self.rows.relaxation.is_maximized else 1
        best = None if self.best is None else side * self.best
        bound = None if self.bound in (inf, -inf) else side * self.bound
        return Progress(best, bound, self.nodes, time.monotonic() - self.begun)

    def _tell(self) -> None:
        spent = time.monotonic() - self.begun
        if self.told is not None and spent >= self.next_told:
            self.told(self.progress())
            self.next_told = spent + 1.0
        if spent > self.seconds:
            raise Over("time")
        if self.most is not None and self.nodes >= self.most:
            raise Over("nodes")

    # The search

    def run(self) -> None:
        """Searches. Raises `Unbounded` where the relaxation is, and `Over` where a limit is passed or Python is
        interrupted: what was found until then stays."""
        try:
            self._run()
        except KeyboardInterrupt:
            raise Over("interrupted") from None

    def _run(self) -> None:
        box = self.rows.relaxation.root
        found = self._solved(box)
        if found.kind == "unbounded":
            raise Unbounded
        if found.kind == "optimal":
            self.bound = found.value
            if any(abs(v - round(v)) > NEAR for v in found.whole):
                guess = self.engine.guess(min(30.0, self.seconds))
                near = ([way(v) for v in found.whole] for way in (round, floor, ceil))
                for whole in near if guess is None else [guess]:
                    self._offer(whole)
        self.root = Node(box, found)
        self._put(self.root)
        while self.waiting:
            value, _, node = heapq.heappop(self.waiting)
            self.bound = value
            if not self._close(node):
                self._split(node)
        if self.best is not None:
            self.bound = float(self.best)

    def _solved(self, box: Box) -> Found:
        self._tell()
        self.nodes += 1
        found = self.engine.solve(box)
        if found.kind == "lost" or (found.kind == "unbounded" and self.nodes > 1):
            solution, shown = self.rows.exact(box)
            if solution.kind == "unbounded":
                return Found("unbounded")
            rows = {} if shown is None else shown.rows
            listed = tuple(float(rows.get(i, 0)) for i in range(len(self.rows.rows)))
            if solution.kind == "infeasible":
                return Found("infeasible", multipliers=listed)
            whole = tuple(solution.point[u] for u in self.rows.whole)
            return Found("optimal", float(solution.number), whole, listed)
        return found

    def _put(self, node: Node) -> None:
        """A box is shown to have nothing better, or it waits."""
        found = node.found
        is_better = self.best is None or found.value < float(self.best) - NEAR * max(1.0, abs(float(self.best)))
        if found.kind == "optimal" and is_better and all(abs(v - round(v)) <= NEAR for v in found.whole):
            self._offer([round(v) for v in node.found.whole])
        if not self._close(node):
            value = node.found.value if node.found.kind == "optimal" else -inf
            heapq.heappush(self.waiting, (value, self.nodes + len(self.waiting) * 1e-9, node))

    def _close(self, node: Node) -> bool:
        """Whether it is shown that a box has nothing better than the best point."""
        found, goal = node.found, self.goal
        if found.kind == "infeasible":
            shown = self.rows.shown(node.box, 0, found.multipliers, None) or self._exact(node)
        else:
            if goal is None or found.value < float(goal) - NEAR * max(1.0, abs(float(goal))):
                return False
            shown = self.rows.shown(node.box, 1, found.multipliers, goal) or self._exact(node)
        if shown is None:
            return False
        node.shown, node.found = shown, None
        self.leaves += 1
        return True

    def _exact(self, node: Node) -> Optional[Shown]:
        """What the exact solver shows of a box, None where it finds something better in it, which is noted."""
        solution, shown = self.rows.exact(node.box)
        if solution.kind == "infeasible":
            return shown
        if solution.kind == "unbounded":
            raise Over("numbers")
        whole = [solution.point[u] for u in self.rows.whole]
        node.found = Found("optimal", float(solution.number), tuple(map(float, whole)), node.found.multipliers)
        if self.rows.is_whole(solution.point) and (self.best is None or solution.number < self.best):
            self._better(solution.number, solution.point)
        if self.best is None or shown is None:
            return None
        if solution.number > self.goal or (self.step is None and solution.number == self.best):
            return shown
        node.found = node.found._replace(whole=tuple(whole))
        return None

    # Points

    def _offer(self, whole: list) -> None:
        """Takes the best point with these marked entries, where it is better than the best one so far."""
        whole = self.rows.with_sums(whole)
        inside = zip(whole, self.rows.relaxation.root)
        if not all((low is None or n >= low) and (high is None or n <= high) for n, (low, high) in inside):
            return
        solution, _ = self.rows.exact(tuple((n, n) for n in whole))
        if solution.kind == "optimal" and (self.best is None or solution.number < self.best):
            self._better(solution.number, solution.point)

    def _better(self, value: Fraction, point: list) -> None:
        self.best, self.point = Fraction(value), point
        if self.told is not None:
            self.told(self.progress())

    # Splits

    def _split(self, node: Node) -> None:
        """Puts both sides of a box at the entry that is worth most."""
        found = node.found
        listed = [
            (place, v - floor(v)) for place, v in enumerate(found.whole)
            if (v != round(v) if self.engine.is_exact else abs(v - round(v)) > NEAR)
        ]
        if not listed:
            listed = [(place, v - floor(v)) for place, v in enumerate(found.whole) if v != floor(v)]
        if not listed:
            place = next((p for p, (low, high) in enumerate(node.box) if low is None or low != high), None)
            if place is None:
                raise Over("numbers")
            listed = [(place, 0.5)]
        place, sides = self._chosen(node, listed)
        k = self._at(node, place)
        boxes = self._sides(node.box, place, k)
        if sides is None:
            sides = [self._solved(box) for box in boxes]
            self._note(node, place, dict(listed)[place], sides)
        value = found.value
        node.found = None
        nodes = [Node(box, side) for box, side in zip(boxes, sides)]
        node.split = (place, k, *nodes)
        for child in nodes:
            if child.found.kind == "optimal" and child.found.value < value:
                child.found = child.found._replace(value=value)
            self._put(child)

    @staticmethod
    def _at(node: Node, place: int) -> int:
        """Where a box is split at an entry."""
        low, high = node.box[place]
        k = floor(node.found.whole[place])
        if high is not None:
            k = min(k, high - 1)
        return k if low is None else max(k, low)

    @staticmethod
    def _sides(box: Box, place: int, k: int) -> list:
        low, high = box[place]
        return [box[:place] + (ends,) + box[place + 1 :] for ends in ((low, k), (k + 1, high))]

    def _chosen(self, node: Node, listed: list) -> tuple:
        """The place to split at, and what its sides are where they were solved."""
        if len(listed) == 1:
            return listed[0][0], None
        means = [
            sum(rise for n, rise in known) / max(1, sum(n for n, _ in known))
            for known in ([v for (_, s), v in self.gains.items() if s == side] for side in (0, 1))
        ]

        def estimate(place, f):
            product = 1.0
            for side, part in ((0, f), (1, 1 - f)):
                n, rise = self.gains.get((place, side), (0, 0.0))
                product *= max(float(part) * (rise / n if n else means[side]), 1e-7)
            return product, min(f, 1 - f)

        ranked = sorted(listed, key=lambda item: estimate(*item), reverse=True)
        best = None
        tried = 0
        for place, f in ranked:
            is_known = all(self.gains.get((place, side), (0, 0))[0] >= KNOWN for side in (0, 1))
            if is_known:
                score, sides = estimate(place, f)[0], None
            elif tried < TRIED:
                tried += 1
                sides = self._tried(node, place, f)
                rises = [inf if s.kind != "optimal" else max(s.value - node.found.value, 0.0) for s in sides]
                most = self._most(node)
                score = 1.0
                for rise in rises:
                    score *= max(min(rise, most), 1e-7)
            else:
                continue
            if best is None or score > best[0]:
                best = (score, place, sides)
            if tried >= TRIED and best is not None:
                break
        return best[1:]

    def _most(self, node: Node) -> float:
        """More than this no rise counts: the box is shown then."""
        if self.best is None:
            return 1e30
        return max(float(self.best) - node.found.value, 1e-6)

    def _tried(self, node: Node, place: int, f: float) -> list:
        """Both sides of a split, solved."""
        sides = [self._solved(box) for box in self._sides(node.box, place, self._at(node, place))]
        self._note(node, place, f, sides)
        return sides

    def _note(self, node: Node, place: int, f: float, sides: list) -> None:
        """Notes how much the bound rises for each unit at the sides of a split."""
        for side, (found, part) in enumerate(zip(sides, (f, 1 - f))):
            most = self._most(node)
            rise = most if found.kind != "optimal" else min(max(found.value - node.found.value, 0.0), most)
            n, total = self.gains.get((place, side), (0, 0.0))
            if rise < 1e29:
                self.gains[place, side] = (n + 1, total + rise / max(float(part), 1e-6))
