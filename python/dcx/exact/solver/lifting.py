"""Exact solutions of systems in whole numbers: from digits modulo a prime (Dixon 1982), read as fractions, and put into
the system.
"""
from __future__ import annotations

from math import isqrt
from typing import Callable, Optional


def lifted(solved: Callable, product: Callable, right: list, p: int) -> tuple[list, int]:
    """The solution x of a system as whole numbers over one denominator above 0.

    `solved` solves the system modulo the prime p, `product` multiplies its matrix by whole numbers. What is given back
    is put into the system, so that nothing rests on the reading of fractions; there is such a solution, since the
    system can be solved modulo p.
    """
    x, power, rest, wanted, count = [0] * len(right), 1, list(right), 1, 0
    while True:
        digits = [d if 2 * d < p else d - p for d in solved([v % p for v in rest])]
        x = [a + power * d for a, d in zip(x, digits)]
        power *= p
        rest = [(r - v) // p for r, v in zip(rest, product(digits))]
        count += 1
        if not any(rest):
            return x, 1
        if count < wanted:
            continue
        wanted = count + 1 + count // 2
        read = fractions(x, power)
        if read is not None and product(read[0]) == [read[1] * v for v in right]:
            return read


def fractions(values: list, modulus: int) -> Optional[tuple[list, int]]:
    """Whole numbers over one denominator that are these modulo the modulus, and small; None where there are none."""
    denominator, half, bound = 1, modulus // 2, isqrt(modulus // 2)
    result = []
    for value in values:
        n = balanced(value * denominator, modulus, half)
        if abs(n) > bound:
            n, d = fraction(n % modulus, modulus, bound)
            denominator *= d
            if denominator > bound:
                return None
            result = [v * d for v in result]
        result.append(n)
    return result, denominator


def balanced(value: int, modulus: int, half: int) -> int:
    value %= modulus
    return value if value <= half else value - modulus


def fraction(value: int, modulus: int, bound: int) -> tuple[int, int]:
    """A fraction that is the value modulo the modulus, whose numerator is at most the bound."""
    a, b, s, t = modulus, value, 0, 1
    while b > bound:
        q = a // b
        a, b, s, t = b, a - q * b, t, s - q * t
    return (b, t) if t > 0 else (-b, -t)
