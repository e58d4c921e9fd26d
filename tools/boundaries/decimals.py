"""Numbers: read exactly, made simple, and printed.

A decimal is the fraction that it says. A binary float is the shortest decimal that gives the same float again, since that is
what somebody meant: 0.1, and not 0.100000001490116.
"""

from __future__ import annotations

import math
import re
import struct
from decimal import ROUND_UP, Context, Decimal
from fractions import Fraction

DECIMAL = re.compile(r"[+-]?(\d+\.?\d*|\.\d+)([eE][+-]?\d{1,4})?")
NOT_FINITE = re.compile(r"[+-]?(nan|inf|infinity)(\(.*\))?|-?1\.#(ind|qnan|snan|inf).*", re.IGNORECASE)
# no coordinate of a part is longer or greater; without a bound 1e999999999 would fill the memory
LONGEST_NUMBER = 400
GREATEST_EXPONENT = 99

FLOAT32 = struct.Struct("<f")


def number(text: str) -> Fraction | None:
    """The fraction that a decimal says, or None where the text is no finite number of a sensible length."""
    found = DECIMAL.fullmatch(text)
    if found is None or len(text) > LONGEST_NUMBER:
        return None
    exponent = int(found[2][1:]) if found[2] else 0
    if exponent < -GREATEST_EXPONENT:
        return Fraction(0)
    return Fraction(text) if exponent <= GREATEST_EXPONENT and len(found[1]) <= GREATEST_EXPONENT else None


def why_no_number(text: str) -> str:
    """What a word is that is no number."""
    shown = text if len(text) <= 40 else text[:40] + ".."
    if NOT_FINITE.fullmatch(text):
        return f"{shown!r} is not a finite number"
    if DECIMAL.fullmatch(text):
        return f"{shown!r} is a number of more than {GREATEST_EXPONENT} digits"
    return f"{shown!r} is not a number"


def from_double(value: float) -> Fraction:
    """The shortest decimal that gives this finite double."""
    return Fraction(repr(value))


def from_single(value: float) -> Fraction:
    """The shortest decimal that gives this finite float of 32 bits."""
    for digits in (6, 7, 8):
        text = f"{value:.{digits}g}"
        # (a decimal near the greatest float may round to infinity)
        if abs(float(text)) < 3.4e38 and FLOAT32.unpack(FLOAT32.pack(float(text)))[0] == value:
            return Fraction(text)
    return Fraction(f"{value:.9g}")


def simplest_between(low: Fraction, high: Fraction) -> Fraction:
    """The fraction with the least denominator, and then the least numerator, from low to high."""
    if low <= 0 <= high:
        return Fraction(0)
    if high < 0:
        return -simplest_between(-high, -low)
    whole = math.ceil(low)
    if whole <= high:
        return Fraction(whole)
    part = whole - 1
    return part + 1 / simplest_between(1 / (high - part), 1 / (low - part))


def greatest_common(values: list[Fraction]) -> Fraction:
    """The greatest fraction of which each value is a whole multiple; 0 where all are 0."""
    numerator, denominator = 0, 1
    for value in values:
        numerator = math.gcd(numerator * value.denominator, value.numerator * denominator)
        denominator *= value.denominator
        shared = math.gcd(numerator, denominator) or 1
        numerator, denominator = numerator // shared, denominator // shared
    return Fraction(numerator, denominator)


def least_common(values: list[Fraction]) -> Fraction:
    """The least fraction above 0 that is a whole multiple of each value, all above 0."""
    result = values[0]
    for value in values[1:]:
        result = Fraction(
            math.lcm(result.numerator, value.numerator), math.gcd(result.denominator, value.denominator)
        )
    return result


def decimal(digits: int, places: int) -> str:
    """The decimal of these digits, of which so many stand after the point."""
    if places == 0:
        return str(digits)
    text = str(abs(digits)).rjust(places + 1, "0")
    return ("-" if digits < 0 else "") + text[:-places] + "." + text[-places:]


def shown(value: Fraction) -> str:
    """A fraction as a decimal where it ends within 12 places, else as p/q."""
    rest = value.denominator
    for prime in (2, 5):
        while rest % prime == 0:
            rest //= prime
    if rest == 1 and value.denominator.bit_length() <= 40:
        places = next((k for k in range(13) if 10**k % value.denominator == 0), None)
        if places is not None:
            return decimal(value.numerator * 10**places // value.denominator, places)
    return f"{value.numerator}/{value.denominator}"


def shown_above(value: float) -> str:
    """A distance as a decimal of three digits that is not below it, without an exponent."""
    if value <= 0:
        return "0"
    context = Context(prec=3, rounding=ROUND_UP)
    return f"{context.create_decimal(Decimal(value)).normalize():f}"


def near(value: Fraction) -> str:
    """A coordinate for a message: as it is where it is short, else to six digits."""
    text = shown(value)
    return text if len(text) <= 12 else f"{float(value):.6g}"
