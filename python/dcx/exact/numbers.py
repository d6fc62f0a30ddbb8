"""Exact fractions whose parts may have a limit, with the operation that passes it."""
from __future__ import annotations

import operator
from fractions import Fraction
from math import gcd, lcm as least_multiple


class Passes(Exception):
    """An operation that forms a number above the limit, with both operands."""

    def __init__(self, op, left, right):
        super().__init__(op, left, right)
        self.op, self.left, self.right = op, left, right

    def text(self):
        return f"{self.op} {number(self.left)} {number(self.right)}"


def number(value):
    """`n`, or `n/d` in lowest terms."""
    value = Fraction(value)
    return str(value.numerator) if value.denominator == 1 else f"{value.numerator}/{value.denominator}"


class Limited:
    """Operations on fractions where no whole number that one forms has a greater magnitude than `greatest`."""

    def __init__(self, greatest: int):
        self.greatest = greatest

    def fits(self, *formed):
        return all(-self.greatest <= n <= self.greatest for n in formed)

    def has(self, value):
        """Whether both parts of the number are within the limit."""
        return self.fits(value.numerator, value.denominator)

    def _added(self, a, b):
        """The sum, or None where a number that it forms passes: the two cross products, their sum, the parts of the
        result.
        """
        if a == 0 or b == 0:
            return a + b
        shared = gcd(a.denominator, b.denominator)
        left = a.numerator * (b.denominator // shared)
        right = b.numerator * (a.denominator // shared)
        total = a + b
        return total if self.fits(left, right, left + right) and self.has(total) else None

    def _multiplied(self, a, b):
        """The product, or None where a part of it passes."""
        product = a * b
        if a in (0, 1, -1) or b in (0, 1, -1):
            return product
        return product if self.has(product) else None

    def add(self, a, b):
        return _told(self._added(a, b), "add", a, b)

    def sub(self, a, b):
        return _told(self._added(a, -b), "sub", a, b)

    def mul(self, a, b):
        return _told(self._multiplied(a, b), "mul", a, b)

    def div(self, a, b):
        return _told(self._multiplied(a, 1 / Fraction(b)), "div", a, b)

    def lcm(self, a, b):
        result = least_multiple(int(a), int(b))
        return _told(result if self.fits(result) else None, "lcm", a, b)

    def total(self, numbers):
        """The sum from 0 on, in this order."""
        result = Fraction(0)
        for n in numbers:
            result = self.add(result, n)
        return result


class Unlimited:
    """The same operations on numbers of any size."""

    greatest = None
    add, sub, mul = staticmethod(operator.add), staticmethod(operator.sub), staticmethod(operator.mul)

    @staticmethod
    def fits(*formed):
        return True

    @staticmethod
    def has(value):
        return True

    @staticmethod
    def div(a, b):
        return a / Fraction(b)

    @staticmethod
    def lcm(a, b):
        return least_multiple(int(a), int(b))

    @staticmethod
    def total(numbers):
        return sum(numbers, Fraction(0))


def _told(result, op, a, b):
    if result is None:
        raise Passes(op, a, b)
    return result


# Both parts of a number of the language, of a report or of a certificate have at most 127 bits.
OF_LANGUAGE = Limited(2**127 - 1)
EXACT = Unlimited()
