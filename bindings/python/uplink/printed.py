"""Sums printed as formulas, as `dive` prints them (notation/README.md, Printed)."""
from __future__ import annotations

import math
import struct
from typing import Iterator, NamedTuple

from .errors import Refused
from .numbers import decimal

ENTRY = struct.Struct("<B3xIddd")
MOST_ENTRIES = 64

X, DIV, LOG = 1, 2, 3
NAMES = {DIV: "1/", 4: "exp", 5: "sin", 6: "cos", 7: "sinh", 8: "cosh"}


class Term(NamedTuple):
    """An entry of a sum: its kind, the power of an X or the base of a logarithm, its coefficient, and the sum inside."""

    kind: int
    number: float
    re: float
    im: float
    inside: bytes


def level(data: bytes) -> Iterator[Term]:
    """The outermost entries of a sum; Refused where the bytes are none."""
    at = 0
    if len(data) % ENTRY.size or len(data) > MOST_ENTRIES * ENTRY.size:
        raise Refused(11)
    while at < len(data):
        kind, inside, number, re, im = ENTRY.unpack_from(data, at)
        start, at = at + ENTRY.size, at + ENTRY.size * (1 + inside)
        if not 1 <= kind <= 8 or at > len(data):
            raise Refused(11)
        yield Term(kind, number, re, im, data[start:at])


def formula(data: bytes) -> str:
    """A sum as a formula in x; read again it is the same sum, where it has a formula."""
    text = ""
    for term in level(data):
        size = term._replace(re=abs(term.re))
        if term.im == 0 and term.re < 0:
            text += " - " + with_coefficient(size) if text else first(term)
        else:
            text += " + " + with_coefficient(term) if text else with_coefficient(term)
    return text


def with_coefficient(term: Term) -> str:
    number = coefficient(term)
    if term.kind == X and term.number == 0:
        return number
    if term.kind == DIV:
        return "%s/(%s)" % (number, formula(term.inside))
    return bare(term) if number == "1" and not is_written_out(term) else "%s %s" % (number, bare(term))


def has_plus(number: float) -> bool:
    return math.copysign(1, number) > 0


def is_written_out(term: Term) -> bool:
    """Whether a coefficient of 1 is written: a broken power below 0 by itself is read with the imaginary part -0, and times 1 with 0."""
    return term.kind == X and term.number < 0 and math.isfinite(term.number) and term.number != int(term.number) and has_plus(term.im)


def first(term: Term) -> str:
    """A first term below 0. A minus before a power of x is read as Neg, which makes the imaginary part -0; a coefficient of -1 as a number."""
    size = term._replace(re=-term.re)
    if term.kind == DIV and term.re == -1:
        return "-(%s)" % with_coefficient(size)
    if term.kind == X and term.re == -1 and term.number != 0 and has_plus(term.im):
        return "-1 " + bare(term)
    return "-" + with_coefficient(size)


def number_text(number: float) -> str:
    """A number in decimal; one that isn't finite by its name."""
    if math.isfinite(number):
        return decimal(number)
    return "NaN" if math.isnan(number) else "inf" if number > 0 else "-inf"


def coefficient(term: Term) -> str:
    if term.im == 0:
        return number_text(term.re)
    return "(%s %s %si)" % (number_text(term.re), "-" if term.im < 0 else "+", number_text(abs(term.im)))


def bare(term: Term) -> str:
    """A term without its coefficient."""
    if term.kind == X:
        return power_of_x(term.number)
    if term.kind == LOG:
        named = {math.e: "ln", 2.0: "log2", 10.0: "log10"}
        name = named.get(term.number, "log[%s]" % number_text(term.number))
    else:
        name = NAMES[term.kind]
    return "%s(%s)" % (name, formula(term.inside))


def power_of_x(power: float) -> str:
    if power in (0, 1):
        return "x" if power else "1"
    return "x^(%s)" % number_text(power) if power < 0 else "x^%s" % number_text(power)
