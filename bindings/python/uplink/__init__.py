"""Formulas of dives: read, derived, integrated, undone and run by the proved library.

>>> from uplink import Formula
>>> depth = Formula('60 x - 6 x^2')          # metres, x being minutes
>>> speed = depth.derivative()
>>> for minute in (0, 2.5, 5):
...     print(minute, depth.run(minute), speed.run(minute))
0 0.0 60.0
2.5 112.5 30.0
5 150.0 0.0

A formula that can't be derived or run is refused, with a number, a name, a place and a sentence:

>>> Formula('exp(exp(x))').derivative()
Traceback (most recent call last):
    ...
uplink.errors.Refused: TooComplex (7) at record 1: the formula is none that the algebra has a rule for. Write the formula as a sum of powers of x; \
functions of x can be added, but not multiplied or divided.
"""
from .errors import Mistake, NoLibrary, Refused, TooLong
from .formula import Entry, Formula, Sum

__all__ = ["Entry", "Formula", "Mistake", "NoLibrary", "Refused", "Sum", "TooLong"]
__version__ = "0.1.0"
