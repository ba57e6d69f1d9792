"""What Python says of what is wrong, against the Rust crate's own words and against the library."""
import copy
import os
import pickle
import random
import re
import struct
import unittest

from uplink import Formula, Mistake, Refused, TooLong, errors, library, records, steps

from . import ROOT


def source(name):
    with open(os.path.join(ROOT, "bindings", "rust", "src", name), encoding="utf-8") as file:
        return file.read()


def sentences(text, function):
    body = text.split("const fn %s(self)" % function)[1].split("\n    }\n")[0]
    return dict(re.findall(r'(\w+) => (?:\{\s*)?"((?:[^"\\]|\\.)*)"', body))


class Sentences(unittest.TestCase):
    def test_they_are_those_of_the_rust_crate(self):
        text = source("refusal.rs")
        numbers = {name: int(number) for name, number in re.findall(r"^    (\w+) = (\d+),$", text, re.M)}
        self.assertEqual(numbers, {refusal.name: number for number, refusal in enumerate(errors.REFUSALS, 1)})
        for part in ("name", "meaning", "advice"):
            self.assertEqual(sentences(text, part), {refusal.name: getattr(refusal, part) for refusal in errors.REFUSALS})
        whole = text.split("fn is_of_the_whole")[1].split(")\n")[0]
        self.assertEqual({name for name in numbers if re.search(r"\b%s\b" % name, whole)},
                         {refusal.name for refusal in errors.REFUSALS if refusal.of_the_whole})

    def test_a_place_is_said_where_there_is_one(self):
        self.assertTrue(str(Refused(15, 3)).startswith("NotFinite (15) at record 3: a coefficient or"))
        self.assertTrue(str(Refused(15, 0)).startswith("NotFinite (15) at record 0 or after the last: "))
        self.assertTrue(str(Refused(3)).startswith("NoOutput (3): no value is left"))
        self.assertTrue(str(Refused(14, 2, -1.0)).startswith("NeedsMath (14) at record 2 (x = -1.0): a power"))

    def test_codes_are_those_of_the_rust_crate(self):
        text = source("record.rs")
        for name, codes in (("Primitive", records.PRIMITIVES), ("Modifier", records.MODIFIERS)):
            body = text.split("    %s {\n" % name)[1].split("\n    }\n")[0]
            self.assertEqual({word: int(code) for word, code in re.findall(r"^        (\w+) = (\d+),$", body, re.M)}, codes)

    def test_errors_can_be_copied_and_sent(self):
        for error in (Refused(14, 2, -1.0), Refused(11, fault="Record 0 is bad."), TooLong(2**64 - 1, 10)):
            self.assertEqual(str(pickle.loads(pickle.dumps(error))), str(error))
        try:
            Formula("2 y")
        except Mistake as mistake:
            self.assertEqual(str(copy.copy(mistake)), str(mistake))


class Faults(unittest.TestCase):
    def test_a_fault_is_found_where_the_library_refuses(self):
        chosen = random.Random(2)
        good = bad = 0
        for _ in range(20000):
            count = chosen.randrange(5)
            data = bytearray(struct.pack("<BBBBIdd", chosen.choice([1, 5, 6, 7, 8, 14]), 0, 0, 0, 0, 0, 0) * count)
            for _ in range(chosen.randrange(4) if data else 0):
                data[chosen.randrange(len(data))] = chosen.choice([0, 1, 2, 5, 7, 255])
            fault = records.fault_of(bytes(data))
            try:
                library.cost(bytes(data))
                self.assertIsNone(fault)
                good += 1
            except Refused as refused:
                self.assertEqual(fault.number, refused.number)
                bad += 1
        self.assertTrue(good > 500 and bad > 500, (good, bad))

    def test_depth_and_length(self):
        def deep(levels):
            parts = b"".join(struct.pack("<BBBBIdd", 8, 0, 0, 0, levels - level, 0, 0) for level in range(levels))
            return parts + struct.pack("<BBBBIdd", 5, 3, 0, 0, 0, 0, 0)
        self.assertIsNone(records.fault_of(deep(128)))
        self.assertEqual(records.fault_of(deep(129)), (13, "Record 129 lies inside more than 128 others."))
        self.assertIsNone(records.fault_of(deep(0) * 2048))
        self.assertEqual(records.fault_of(deep(0) * 2049).number, 11)


class Steps(unittest.TestCase):
    def test_mistakes_are_placed_and_say_what_to_do(self):
        cases = [
            ("Dup\n Poww", 2, 2, "there is no step `Poww`"), ("pow", 1, 1, "is `Pow` meant?"), ("Dup, 3, Pow", 1, 6, "a number is pushed by `push 3`"),
            ("push", 1, 1, "after push comes a number, and there is none"), ("push x", 1, 6, "`x` is no number"),
            ("push 2+3i", 1, 6, "with spaces, as in push 2 + 3i"), ("push 2 + 3", 1, 10, "followed by i"), ("push 2 - -3i", 1, 10, "without a sign"),
            ("push 1e999", 1, 6, "too large"), ("On { Dup", 1, 4, "never closed"), ("Dup }", 1, 5, "closes nothing"),
            ("Dup { Mul }", 1, 5, "only after a modifier"), ("Run Dup", 1, 1, "Run needs its inside in braces"), ("On {256: Dup }", 1, 5, "from 0 to 255"),
            ("On {x: Dup }", 1, 5, "from 0 to 255"), ("Primitive 300", 1, 11, "from 0 to 255"), ("Run {2: Dup }", 1, 6, "there is no step `2:`"),
            ("On { } } Dup", 1, 8, "closes nothing"), ("Run { On { Dup }", 1, 1, "never closed"), ("push 1_0", 1, 6, "is no number"),
        ]
        for text, line, column, message in cases:
            with self.assertRaises(Mistake) as raised:
                steps.parse(text)
            self.assertEqual((raised.exception.line, raised.exception.column), (line, column), text)
            self.assertIn(message, raised.exception.message)

    def test_what_is_written_is_what_dive_writes(self):
        for text in ("On { push 3, Pow }", "Fork {2: Add } {0: } { }", "Run { }", "On", "push 2 + 3i", "push -2 - 0i", "Primitive 99", "push bits:7ff8000000000001",
                     "Modifier 255 {3: Run { Neg, Dup }, On { Dup } }", "CustomInverse { Neg }", "push E", "push -inf", "push 1e-7", "push 123456789012345"):
            self.assertEqual(steps.written(records.encode(steps.parse(text))), [text])
        self.assertEqual(len(steps.parse("Dup " * 2048)), 2048)
        for text, message in (("Dup " * 2049, "at most 2048"), ("On { " * 65 + "Dup" + " }" * 65, "more than 128"), ("On { " * 9999, "more than 128")):
            with self.assertRaises(Mistake) as raised:
                steps.parse(text)
            self.assertIn(message, raised.exception.message)
