"""Every stored answer about lists, sums, runs and values (vectors/), asked of the library through Python."""
import os
import struct
import unittest

from uplink import Formula, Refused, Sum, steps
from uplink.records import encode, fault_of

from . import ROOT


def lines(*names):
    for name in names:
        with open(os.path.join(ROOT, "vectors", name), encoding="ascii") as file:
            for line in file:
                words = line.split()
                yield words[0], words[1:]


def data_of(words, each):
    return b"".join(bytes.fromhex(word).ljust(each, b"\0") for word in words)


def number_of(digits):
    return struct.unpack(">d", bytes.fromhex(digits))[0]


def told(ask):
    """What comes back: 0 and the result, or the number and place of a refusal."""
    try:
        return 0, ask()
    except Refused as refused:
        return refused.number, refused.place


def bits(number):
    return struct.pack("<d", number)


ASKED = {
    "derivative": lambda formula: formula.derivative(as_rust=True),
    "integral": lambda formula: formula.integral(as_rust=True),
    "inverse": Formula.inverse,
    "derivative_faithful": Formula.derivative,
    "integral_faithful": Formula.integral,
    "derive": Sum.derivative,
    "integrate": Sum.integral,
}


class Stored(unittest.TestCase):
    def answered(self, names, wanted):
        """Holds the lines of these keywords against what Python says of the list or sum before them."""
        counts = dict.fromkeys(wanted, 0)
        for keyword, words in lines(*names):
            if keyword in ("list", "sum"):
                given = data_of(words, 24 if keyword == "list" else 32)
            elif keyword in wanted:
                counts[keyword] += 1
                with self.subTest(keyword=keyword, given=given.hex()):
                    wanted[keyword](given, words)
        for keyword, count in counts.items():
            self.assertGreater(count, 50, keyword)

    def made(self, keyword, subject, each):
        def check(given, words):
            number, found = told(lambda: bytes(ASKED[keyword](subject(given))))
            expected = data_of(words[2:], each) if words[0] == "0" else int(words[1])
            self.assertEqual((number, found), (int(words[0]), expected))
        return check

    def read(self, given, words):
        number, found = told(lambda: Formula(bytes=given).sum())
        self.assertEqual(number, int(words[0]))
        if number:
            self.assertEqual(found, int(words[1]))
        else:
            self.assertEqual((found.complex, found.pairs, bytes(found)), (words[2] == "1", int(words[3]), data_of(words[4:], 32)))

    def test_lists(self):
        wanted = {keyword: self.made(keyword, lambda given: Formula(bytes=given), 24)
                  for keyword in ("derivative", "integral", "inverse")}
        self.answered(["lists.txt", "limits.txt"], {"read": self.read, **wanted})

    def test_faithful(self):
        wanted = {keyword: self.made(keyword, lambda given: Formula(bytes=given), 24)
                  for keyword in ("derivative_faithful", "integral_faithful")}
        self.answered(["faithful.txt"], wanted)

    def test_sums(self):
        wanted = {keyword: self.made(keyword, lambda given: Sum(given, False), 32) for keyword in ("derive", "integrate")}

        def write(as_rust):
            def check(given, words):
                number, found = told(lambda: bytes(Sum(given, words[0] == "1").formula(as_rust)))
                self.assertEqual((number, found), (int(words[1]), data_of(words[3:], 24) if words[1] == "0" else int(words[2])))
            return check

        self.answered(["sums.txt", "limits.txt"], {**wanted, "write": write(True)})
        self.answered(["faithful.txt"], {"write_faithful": write(False)})

    def test_runs_and_values(self):
        def run(given, words):
            number, found = told(lambda: bits(Formula(bytes=given).run(number_of(words[0]))))
            self.assertEqual((number, found), (int(words[1]), bits(number_of(words[3])) if words[1] == "0" else int(words[2])))

        def value(given, words):
            number, found = told(lambda: bits(Sum(given, False).value(number_of(words[0]))))
            self.assertEqual((number, found), (int(words[1]), bits(number_of(words[2])) if words[1] == "0" else 0))

        self.answered(["runs.txt"], {"run": run})
        self.answered(["values.txt"], {"value": value})

    def test_sums_print_as_formulas_that_read_back(self):
        sums = set()
        for keyword, words in lines("lists.txt"):
            if keyword == "list":
                given = data_of(words, 24)
            elif keyword == "read" and words[0] == "0":
                sums.add(Formula(bytes=given).sum())
        same = 0
        for found in sums:
            try:
                same += bytes(Formula(str(found)).sum()) == bytes(found)
            except ValueError:
                pass  # not every sum has a formula, and not every formula is read
        self.assertGreater(same, 300)
        self.assertEqual(str(Formula("1 - x^0.5 - 1/(1 + x) + ln(x)").sum()), "1 - x^0.5 - 1/(1 + x) + ln(x)")

    def test_every_list_reads_back_from_its_steps(self):
        count = 0
        for keyword, words in lines("lists.txt", "limits.txt"):
            given = data_of(words, 24) if keyword == "list" else b"\x63"
            if fault_of(given) is None:
                text = ", ".join(steps.written(given))
                self.assertEqual(encode(steps.parse(text)), given, text)
                count += 1
        self.assertGreater(count, 4600)
