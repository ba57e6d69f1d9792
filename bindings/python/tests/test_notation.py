"""The reader of formulas against notation/cases.txt, which dive's reader is held to as well."""
import os
import random
import re
import unittest

from uplink import errors, notation, steps
from uplink.records import encode

from . import ROOT


def unescaped(text):
    """What a text of cases.txt stands for."""
    named = {"n": "\n", "t": "\t", "\\": "\\"}

    def one(found):
        sign, character, count, times = found.groups()
        return named[sign] if sign else chr(int(character, 16)) if character else times * int(count)

    return re.sub(r"\\(?:([nt\\])|u\{([0-9a-fA-F]+)\}|\{([0-9]+):([^}]*)\})", one, text)


def cases():
    formula = None
    with open(os.path.join(ROOT, "notation", "cases.txt"), encoding="utf-8") as file:
        for line in file.read().split("\n"):
            word, _, rest = line.partition(" ")
            if word == "formula":
                formula = unescaped(rest)
            elif word in ("steps", "error"):
                yield formula, word, unescaped(rest)
            elif line and not line.startswith("#"):
                raise ValueError("cases.txt has a line of another sort: " + line)


class Cases(unittest.TestCase):
    def test_every_case(self):
        count = 0
        for formula, word, expected in cases():
            count += 1
            with self.subTest(formula=formula[:100]):
                try:
                    found = ("steps", encode(notation.parse(formula)))
                except errors.Mistake as mistake:
                    found = ("error", "%d %d %d %s" % (mistake.line, mistake.column, mistake.width, mistake.kind))
                self.assertEqual(found, (word, encode(steps.parse(expected)) if word == "steps" else expected))
        self.assertGreater(count, 300)

    def test_random_texts_are_formulas_or_mistakes_in_them(self):
        words = ["x", "2", "1.5", "+", "-", "*", "/", "^", "(", ")", "sin", "ln", "²", "³", " ", "\n", "#", ".", "e", "é", "\u2212", "y"]
        chosen = random.Random(1)
        good = bad = 0
        for _ in range(20000):
            text = "".join(chosen.choice(words) for _ in range(chosen.randrange(10)))
            try:
                notation.parse(text)
                good += 1
            except errors.Mistake as mistake:
                self.assertIn("^", str(mistake).split("\n")[2])
                bad += 1
        self.assertTrue(good > 500 and bad > 500, (good, bad))

    def test_long_and_deep_texts(self):
        self.assertEqual(len(notation.parse("x" + "+x" * 600)), 2 * 600 + 1)
        for text, kind in (("(" * 5000 + "x", "deep"), ("-" * 5000 + "x", "deep"), ("x^" * 5000 + "x", "deep"), ("x" + "+1" * 5000, "long")):
            with self.assertRaises(errors.Mistake) as raised:
                notation.parse(text)
            self.assertEqual(raised.exception.kind, kind)
