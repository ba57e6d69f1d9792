"""Numbers as text, both ways, bit for bit, as `dive` writes them."""
from __future__ import annotations

import math
import re
import struct
from decimal import Decimal

DECIMAL = re.compile(r"[+-]?([0-9]+\.?[0-9]*|\.[0-9]+)([eE][+-]?[0-9]+)?")
BITS = re.compile(r"bits:([0-9a-fA-F]{16})")


def text(number: float) -> str:
    """A number as text that `parse` reads back to the same bits.

    >>> text(60.0), text(-0.5), text(1e300), text(2.718281828459045), text(-0.0)
    ('60', '-0.5', '1e300', 'E', '-0')
    """
    if math.isnan(number):
        return "bits:%016x" % struct.unpack("<Q", struct.pack("<d", number))[0]
    if math.isinf(number):
        return "inf" if number > 0 else "-inf"
    return "E" if number == math.e else decimal(number)


def decimal(number: float) -> str:
    """A number in decimal, in as few digits as tell it apart."""
    exact = Decimal(repr(number))
    if number == 0 or 1e-5 <= abs(number) < 1e15:
        plain = format(exact, "f")
        return plain[:-2] if plain.endswith(".0") else plain
    sign, digits, exponent = exact.normalize().as_tuple()
    rest = "".join(map(str, digits[1:]))
    return "%s%d%se%d" % ("-" if sign else "", digits[0], "." + rest if rest else "", exponent + len(digits) - 1)


def parse(word: str) -> float:
    """The number that a word stands for; ValueError says what is wrong with it."""
    if word in ("E", "inf", "-inf"):
        return {"E": math.e, "inf": math.inf, "-inf": -math.inf}[word]
    if word.startswith("bits:"):
        found = BITS.fullmatch(word)
        if not found:
            raise ValueError("after `bits:` come 16 hexadecimal digits")
        return struct.unpack("<d", struct.pack("<Q", int(found.group(1), 16)))[0]
    if not DECIMAL.fullmatch(word):
        raise ValueError("`%s` is no number; numbers look like 3, -0.5, 2.5e-3, E, inf or bits:7ff8000000000000" % shortened(word))
    number = float(word)
    if math.isinf(number):
        raise ValueError("%s is too large for a binary64 number; write inf if that is meant" % shortened(word))
    return number


def shortened(word: str) -> str:
    return word if len(word) <= 40 else word[:37] + ".."
