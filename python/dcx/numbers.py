"""Exact numbers: what a number of Python, NumPy or another library means, how it is written, and rounding."""
from __future__ import annotations

import functools
import math
import numbers
from decimal import Decimal
from fractions import Fraction
from typing import Any

from .errors import LimitError

# the greatest numerator or denominator of the program's numbers, the most digits of one of its tokens, and the greatest
# exponent
GREATEST = 2**127 - 1
DIGITS = 30
EXPONENT = 30

_kept = (None, None)  # how many digits of a float are read, where that was set: significant ones, and decimals


def float_digits(significant: int | None = None, decimals: int | None = None) -> None:
    """Has each float that is read from now on rounded to so many `significant` digits, 1 to 17, or to so many
    `decimals` behind the point, 0 to 30, or to both. Without either a float means the decimal that Python prints, as it
    does by itself.

    Sums and products of floats have errors in their last digits: `1 - 0.9` is 0.09999999999999998, which twelve digits
    of either kind make a tenth, and `0.1 + 0.2 - 0.3` is 5.551115123125783e-17, which twelve decimals make 0. A Python
    `int`, a `Fraction` and a `Decimal` stay what they are.

    ValueError of digits that are no such count.
    """
    for count, least, most in ((significant, 1, 17), (decimals, 0, 30)):
        is_count = isinstance(count, int) and not isinstance(count, bool)
        if count is not None and not (is_count and least <= count <= most):
            raise ValueError(f"digits are {least} to {most}, and not {count!r}")
    global _kept
    _kept = (significant, decimals)
    _of_float.cache_clear()


def _digits_of(value: float) -> Fraction:
    """What a float means."""
    significant, decimals = _kept
    number = Fraction(repr(value) if significant is None else format(value, f".{significant}g"))
    return number if decimals is None else Fraction(round(number, decimals))


def exact(value: Any) -> Fraction:
    """The fraction that `value` means: a whole number, a `Fraction` and a `Decimal` mean themselves, a float the
    shortest decimal that is read as that float, which is the one that Python prints, so `0.1` is a tenth.

    ValueError of NaN and the infinities; TypeError of what is no real number.
    """
    kind = type(value)
    if kind is float:
        return _of_float(value)
    if kind is int:
        return _of_int(value)
    if kind is Fraction:
        return value
    if isinstance(value, (bool, int)):
        return Fraction(int(value))
    if isinstance(value, Decimal):
        if not value.is_finite():
            raise ValueError(f"{_name_of(value)} is no number that a model may hold")
        return Fraction(value)
    if hasattr(value, "dtype") and hasattr(value, "item"):
        return _of_numpy(value)
    if isinstance(value, float):
        return _of_float(float(value))
    if isinstance(value, numbers.Rational):
        return Fraction(int(value.numerator), int(value.denominator))
    if isinstance(value, numbers.Complex):
        raise TypeError(f"{value!r} is a complex number: write its real and its imaginary part as two numbers")
    raise TypeError(f"{value!r} is no number")


def _name_of(value) -> str:
    return "NaN" if value != value else "infinity" if value > 0 else "-infinity"


@functools.lru_cache(maxsize=65536)
def _of_int(value: int) -> Fraction:
    return Fraction(value)


@functools.lru_cache(maxsize=65536)
def _of_float(value: float) -> Fraction:
    if not math.isfinite(value):
        raise ValueError(f"{_name_of(value)} is no number that a model may hold")
    return _digits_of(value)


def _of_numpy(value) -> Fraction:
    if getattr(value, "ndim", 0):
        raise TypeError(f"an array of shape {value.shape} is no number")
    kind = value.dtype.kind
    if kind in "biu":
        return Fraction(int(value))
    if kind == "f":
        if not math.isfinite(value):
            raise ValueError(f"{_name_of(value)} is no number that a model may hold")
        # `str` writes the shortest decimal at the width of the number, so a float32 of 0.1 is a tenth too
        shown = str(value.item() if value.dtype.itemsize == 8 else value[()])
        return Fraction(shown) if _kept == (None, None) else _of_float(float(shown))
    if kind == "O":
        return exact(value.item())
    if kind == "c":
        raise TypeError(f"{value!r} is a complex number: write its real and its imaginary part as two numbers")
    raise TypeError(f"{value!r} is no number")


@functools.lru_cache(maxsize=65536)
def text(number: Fraction) -> str:
    """The number as the program's language writes it: a decimal where it has few digits, else a quotient of two whole
    numbers. A minus stands in front.

    LimitError where its numerator or denominator passes 2**127 - 1, or where no token of 30 digits writes it.
    """
    top, bottom = number.numerator, number.denominator
    check(number)
    sign = "-" if top < 0 else ""
    top = abs(top)
    if bottom == 1:
        body = _whole(top)
    else:
        body = _decimal(top, bottom) or _quotient(top, bottom)
    if body is None:
        raise LimitError(f"{number} has more than {DIGITS} digits, which is more than a number of the language may "
                         "have; dcx.rounded(data, digits) rounds data, and another unit makes numbers shorter")
    return sign + body


def check(number: Fraction) -> Fraction:
    """The number itself. LimitError where its numerator or denominator passes 2**127 - 1."""
    if -GREATEST <= number.numerator <= GREATEST and number.denominator <= GREATEST:
        return number
    shown = str(number)
    shown = shown if len(shown) <= 90 else f"{float(number):.6g}, as a fraction of {len(shown)} digits,"
    raise LimitError(f"{shown} passes 128 bits: numerator and denominator may be 2**127 - 1 at most; "
                     "dcx.rounded(data, digits) rounds data, and another unit brings numbers nearer to 1")


def _whole(number: int) -> str | None:
    body = str(number)
    if len(body) <= DIGITS:
        return body
    front = body.rstrip("0")
    zeros = len(body) - len(front)
    more = max(0, zeros - EXPONENT)
    return f"{front}{'0' * more}e{zeros - more}" if len(front) + more <= DIGITS else None


def _decimal(top: int, bottom: int) -> str | None:
    """The decimal of a fraction above 0, where it has one that is short."""
    places, rest = 0, bottom
    for prime in (2, 5):
        count = 0
        while rest % prime == 0:
            rest //= prime
            count += 1
        places = max(places, count)
    if rest != 1:
        return None
    body = str(top * 10**places // bottom)
    if places <= 12 and max(len(body), places + 1) <= DIGITS:
        return f"{body[:-places].rjust(1, '0')}.{body[-places:].rjust(places, '0')}"
    if len(body) > 20:
        return None
    if places <= EXPONENT:
        return f"{body}e-{places}"
    more = places - EXPONENT
    if max(len(body), more + 1) > DIGITS:
        return None
    return f"{body[:-more].rjust(1, '0')}.{body[-more:].rjust(more, '0')}e-{EXPONENT}"


def _quotient(top: int, bottom: int) -> str | None:
    return f"{top}/{bottom}" if len(str(top)) <= DIGITS and len(str(bottom)) <= DIGITS else None


def _round_one(value, digits: int | None, significant: int | None) -> Fraction:
    number = exact(value)
    if significant is not None:
        if not number:
            return number
        # the decimal place of the first digit: the greatest power of ten that isn't above the number
        magnitude = abs(number)
        power = len(str(magnitude.numerator)) - len(str(magnitude.denominator))
        if magnitude < Fraction(10)**power:
            power -= 1
        digits = significant - 1 - power
    return Fraction(round(number, digits))


def rounded(data: Any, digits: int | None = None, *, significant: int | None = None) -> Any:
    """The data with each number rounded to `digits` decimal digits, or to as many `significant` ones, halves to even.

    A number gives a `Fraction`, a list or a tuple one of the same nesting, a NumPy array an array of fractions, and a
    sparse matrix of SciPy a sparse matrix of floats, each of which is read as the rounded decimal.

    TypeError where neither or both of the two are given, or of what is no number; ValueError of NaN and infinities, of
    no significant digit, and where digits don't fit into a float of a sparse matrix.
    """
    if (digits is None) == (significant is None):
        raise TypeError("rounded(data, digits) or rounded(data, significant=count): one of the two, and not both")
    if significant is not None and significant < 1:
        raise ValueError("a number has at least one significant digit")

    def each(value):
        if isinstance(value, (list, tuple)):
            return type(value)(each(item) for item in value)
        if hasattr(value, "tocsr"):
            return _rounded_sparse(value, digits, significant)
        if getattr(value, "shape", ()) and hasattr(value, "ravel"):
            result = value.astype(object)
            flat = result.reshape(-1)
            flat[:] = [_round_one(item, digits, significant) for item in value.reshape(-1)]
            return flat.reshape(value.shape)
        return _round_one(value, digits, significant)

    return each(data)


def _rounded_sparse(matrix, digits, significant):
    result = matrix.tocsr(copy=True).astype(float)
    items = [_round_one(item, digits, significant) for item in matrix.tocsr().data]
    result.data = _floats(result.data, items)
    return result


def _floats(like, items):
    data = like.copy()
    for place, item in enumerate(items):
        data[place] = float(item)
        if exact(data[place]) != item:
            raise ValueError(f"{item} has more digits than a float of a sparse matrix keeps")
    return data
