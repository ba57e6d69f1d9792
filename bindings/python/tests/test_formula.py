"""Formulas from Python: what is taken, what is given, and what bad input gets."""
import array
import decimal
import doctest
import fractions
import itertools
import os
import pickle
import sys
import types
import unittest
from unittest import mock

import uplink
import uplink.errors
import uplink.formula
import uplink.numbers
from uplink import Formula, Mistake, Refused, TooLong

from . import ROOT

DEPTH = Formula("60 x - 6 x^2")


class Strange:
    """Something that can't be a number, and can't even be shown."""

    def __float__(self):
        raise ValueError("no")

    def __repr__(self):
        raise RuntimeError("no")


class Taken(unittest.TestCase):
    def test_numbers_and_sequences(self):
        for x in (2.5, fractions.Fraction(5, 2), decimal.Decimal("2.5")):
            self.assertEqual(DEPTH.run(x), 112.5)
        self.assertEqual(DEPTH.run(True), 54.0)
        for xs in ([0, 5], (0, 5), range(0, 6, 5), array.array("d", [0, 5]), iter([0, 5]), (x for x in (0, 5))):
            self.assertEqual(DEPTH.run(xs), [0.0, 150.0])
        self.assertEqual(DEPTH.value((0, 5)), [0.0, 150.0])
        self.assertEqual(DEPTH.run([]), [])

    def test_texts_steps_and_bytes(self):
        same = [Formula(steps="Dup push 60 Mul # depth\nFlip, push 2, Pow, push 6, Mul, Sub"), Formula(bytes=bytearray(bytes(DEPTH))),
                Formula(steps=["Dup, push 60, Mul", "Flip", 2, "Pow", 6.0, "Mul", "Sub"]), Formula(bytes=memoryview(bytes(DEPTH))), Formula(steps=DEPTH.steps()),
                eval(repr(DEPTH)), pickle.loads(pickle.dumps(DEPTH))]
        for formula in same:
            self.assertEqual((formula, hash(formula)), (DEPTH, hash(DEPTH)))
        self.assertNotEqual(DEPTH, Formula("60 x"))
        self.assertEqual((len(DEPTH), DEPTH.cost(), len(Formula("x"))), (9, 9, 0))
        self.assertTrue(Formula("x"))
        self.assertEqual(Formula(steps=[2 + 3j, "Mul"]).sum().entries[0].coefficient, 2 + 3j)

    def test_sums(self):
        found = Formula("3 + sin(2 x) + ln(x)").sum()
        self.assertEqual([(entry.kind, entry.coefficient, len(entry.inside)) for entry in found.entries], [("X", 3.0, 0), ("Log", 1.0, 1), ("Sin", 1.0, 1)])
        self.assertEqual(found.entries[2].inside[0], uplink.Entry("X", 2.0, 1.0))
        self.assertFalse(found.complex)
        self.assertTrue(Formula(steps="push 0 + 1i, Mul").sum().complex)
        self.assertEqual([Formula(text).sum().pairs for text in ("x x", "x^3", "(x + 1)^3", "(x + 1)^63")], [1, 2, 10, 4030])

    def test_the_two_writers(self):
        swell = Formula("x^2 + sin(x)")
        self.assertEqual(swell.derivative(), swell.sum().derivative().formula())
        self.assertEqual(swell.derivative(as_rust=True), swell.sum().derivative().formula(as_rust=True))
        self.assertNotEqual(swell.derivative(), swell.derivative(as_rust=True))
        self.assertNotEqual(swell.integral(), swell.integral(as_rust=True))
        self.assertEqual(DEPTH.derivative(), DEPTH.derivative(as_rust=True))


class Bad(unittest.TestCase):
    def test_what_is_no_formula(self):
        for arguments in ({}, {"text": "x", "steps": "Dup"}, {"text": 3}, {"text": b"x"}, {"steps": 3}, {"steps": b"Dup"}, {"steps": [None]}, {"steps": ["Dup", [2]]},
                          {"steps": {"Dup": 1}}, {"steps": [Strange()]}, {"bytes": "x"}, {"bytes": 24}, {"bytes": [1, 2]}):
            with self.assertRaises(TypeError, msg=str(list(arguments))) as raised:
                Formula(**arguments)
            self.assertTrue(str(raised.exception))
        for arguments in ({"text": ""}, {"text": "60 y"}, {"text": "\0"}, {"text": "\ud800"}, {"steps": "Poww"}, {"steps": ["Dup", "On {"]}):
            with self.assertRaises(Mistake):
                Formula(**arguments)
        with self.assertRaises(ValueError):
            Formula(steps=[10**400])
        with self.assertRaisesRegex(Mistake, "in step 1, counted from 0: what starts here is never closed"):
            Formula(steps=["Dup", "On {"])

    def test_what_is_no_sum(self):
        for data in ("x", None, 3, [1]):
            with self.assertRaises(TypeError):
                uplink.Sum(data, False)
        for data in (b"x", bytes(32), b"\1" + bytes(3) + b"\1" + bytes(27), b"\4" + bytes(31), bytes(DEPTH.sum()) * 100, bytes(DEPTH.sum()) * 2):
            found = uplink.Sum(data, False)
            for ask in (found.derivative, found.integral, found.formula, lambda: found.value(1)):
                with self.assertRaises(Refused):
                    ask()
        for data in (b"x", bytes(32), b"\1" + bytes(3) + b"\1" + bytes(27), bytes(DEPTH.sum()) * 100):
            with self.assertRaises(Refused):
                repr(uplink.Sum(data, False))

    def test_what_is_no_list(self):
        for data, sentence in ((b"x", "1 bytes are no whole number of 24"), (b"\x63" + bytes(23), "Record 0 has kind 99"), (bytes(DEPTH)[:-1] + b"\1", "Byte 23 of record 8"),
                               (b"\x07" + bytes(23), "Record 0 is a body"), (bytes(DEPTH) * 300, "at most 2048")):
            with self.assertRaises(Refused) as raised:
                Formula(bytes=data)
            self.assertEqual(raised.exception.number, 11)
            self.assertIn(sentence, str(raised.exception))
        for steps in (["Dup"] * 2049, itertools.count()):
            with self.assertRaises(Refused):
                Formula(steps=steps)

    def test_of_a_long_line_what_matters_is_shown(self):
        for text in ("x + " * 500 + "y", "y" + " + x" * 500, "x +" + " " * 500 + "y" * 500, "1" * 100000 + ".." + "1" * 100000):
            with self.assertRaises(Mistake) as raised:
                Formula(text)
            _, shown, mark = str(raised.exception).split("\n")
            self.assertLess(len(shown), 140)
            self.assertEqual(shown[mark.index("^")], text[raised.exception.column - 1])
            self.assertLessEqual(len(mark), len(shown))

    def test_what_is_no_x(self):
        for x in (None, "3", b"3", 1j, object(), Strange(), {1: 2}, {1}, ["3"], [1, None], [[1]], len):
            for ask in (DEPTH.run, DEPTH.value):
                with self.assertRaises(TypeError, msg=repr(type(x))) as raised:
                    ask(x)
                self.assertIn("x is to be", str(raised.exception))
        with self.assertRaisesRegex(TypeError, "item 1 of x is to be a number, not NoneType None"):
            DEPTH.run([1, None])
        with self.assertRaisesRegex(ValueError, "too large for a binary64 number"):
            DEPTH.run(10**400)
        for x in (float("nan"), float("inf"), float("-inf")):
            with self.assertRaises(Refused) as raised:
                DEPTH.run(x)
            self.assertEqual(raised.exception.number, 15)

    def test_refusals_say_where(self):
        with self.assertRaises(Refused) as raised:
            Formula("sqrt(x)").run([1, 4, -1, 9])
        self.assertEqual((raised.exception.number, raised.exception.name, raised.exception.place, raised.exception.x), (14, "NeedsMath", 0, -1.0))
        with self.assertRaises(Refused) as raised:
            Formula(steps="Neg, Add").derivative()
        self.assertEqual((raised.exception.number, raised.exception.place), (1, 1))

    def test_a_list_that_never_ends_isn_t_read(self):
        with open(os.path.join(ROOT, "samples", "hostile.txt"), encoding="utf-8") as file:
            hostile = Formula(steps=file.read())
        self.assertEqual(hostile.cost(), 2**64 - 3)
        for ask in (hostile.sum, hostile.derivative, hostile.integral, hostile.inverse, lambda: hostile.value(1)):
            with self.assertRaises(TooLong):
                ask()
        with self.assertRaises(Refused):
            hostile.run(1)
        self.assertEqual(Formula("x^2", long=True).derivative().run(3), 6.0)


class FakeArray:
    """What of numpy's arrays is asked, where there is no numpy."""

    def __init__(self, found, shape=None):
        self.found, self.shape = found, shape or (len(found),)

    def ravel(self):
        return self

    def tolist(self):
        return list(self.found)

    def reshape(self, shape):
        return FakeArray(self.found, shape)


class Arrays(unittest.TestCase):
    def test_as_numpy_has_them(self):
        fake = types.SimpleNamespace(ndarray=FakeArray, float64="float64", array=lambda found, dtype: FakeArray(found))
        with mock.patch.dict(sys.modules, {"numpy": fake}):
            found = DEPTH.run(FakeArray([0.0, 5.0, 2.5, 10.0], (2, 2)))
            self.assertEqual((type(found), found.shape, found.found), (FakeArray, (2, 2), [0.0, 150.0, 112.5, 0.0]))
            with self.assertRaises(TypeError):
                DEPTH.run(FakeArray(["a"]))

    def test_of_numpy_itself(self):
        try:
            import numpy
        except ImportError:
            self.skipTest("numpy isn't there")
        found = DEPTH.run(numpy.array([[0, 5], [2.5, 10]]))
        self.assertTrue((found == numpy.array([[0, 150], [112.5, 0]])).all())
        self.assertEqual((found.dtype, found.shape), (numpy.float64, (2, 2)))
        self.assertEqual(DEPTH.run(numpy.float32(2.5)), 112.5)
        for bad in (numpy.array(["a"]), numpy.array([1j]), numpy.array([None])):
            with self.assertRaises(TypeError):
                DEPTH.run(bad)


def load_tests(loader, tests, pattern):
    for module in (uplink, uplink.errors, uplink.formula, uplink.numbers):
        tests.addTests(doctest.DocTestSuite(module))
    tests.addTests(doctest.DocFileSuite(os.path.join(ROOT, "bindings", "python", "README.md"), module_relative=False, optionflags=doctest.ELLIPSIS))
    return tests
