"""Intervals that hold the best value of a problem, with what shows each end."""
from __future__ import annotations

from fractions import Fraction
from math import floor, log10
from typing import NamedTuple, Optional

__all__ = ["LEAST", "End", "Interval", "relative"]

NARROW = 1e-6  # the relative width of an answer at the most
LEAST = Fraction(1, 10**12)  # next to 0 a relative width says nothing: what is no wider than this is narrow too


def relative(low: Fraction, high: Fraction) -> float:
    """How far apart two numbers are, relative to the greater of them in magnitude."""
    most = max(abs(low), abs(high))
    return float(abs(high - low) / most) if most else 0.0


class End(NamedTuple):
    """What the program accepted for one end: a script, a line of settings, and the certificate of the two. `check()`
    asks the program again."""

    script: str
    settings: str
    certificate: str

    def check(self) -> None:
        """Has the program check the certificate; `CertificateError`, with the fault's line, where it refuses it."""
        from ..certificates import certified

        certified(self.script, self.settings, self.certificate)


class Interval(NamedTuple):
    """Where the best value of a problem lies: from `low` to `high`, fractions. None is an end that isn't shown.

    The end of the point is the value of a point of few digits that keeps all constraints; the other one is a bound:
    no feasible point is better. Where `boxed` names variables, the bound holds for points at which none of these has
    an entry of a magnitude above `box`. `point` and `bound` have what the program accepted for either.
    """

    low: Optional[Fraction]
    high: Optional[Fraction]
    point: Optional[End]
    bound: Optional[End]
    box: Optional[Fraction] = None
    boxed: tuple[str, ...] = ()

    @property
    def width(self) -> Optional[float]:
        """How far apart the ends are, relative to the greater of them in magnitude; None where one isn't shown."""
        if self.low is None or self.high is None:
            return None
        return relative(self.low, self.high)

    @property
    def is_narrow(self) -> bool:
        """Whether both ends are shown and a millionth of the value apart at the most, or 1e-12 where that is more: what
        is wider is no answer."""
        if self.low is None or self.high is None:
            return False
        return self.width <= NARROW or self.high - self.low <= LEAST

    def told(self) -> dict:
        """What there is to tell of it, but for the texts."""
        return {"low": self.low, "high": self.high, "width": self.width, "box": self.box, "boxed": self.boxed}

    def __str__(self) -> str:
        digits = 3 - floor(log10(self.width)) if self.width else 12
        ends = [
            without if end is None else f"{float(end):.{min(max(digits, 6), 16)}g}"
            for end, without in ((self.low, "-inf"), (self.high, "inf"))
        ]
        width = "" if self.width is None else f", relative width {self.width:.1e}"
        if self.width is not None and self.width > NARROW and self.is_narrow:  # the value is next to 0
            width = f", {float(self.high - self.low):.1e} wide"
        box = "" if not self.boxed else f", where |{'|, |'.join(self.boxed)}| <= {self.box}"
        return f"from {ends[0]} to {ends[1]}{width}{box}"
