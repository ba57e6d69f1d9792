"""The notation of formulas, as notation/README.md has it: `60 x - 6 x^2`. Its table of cases, notation/cases.txt, is run on this reader too."""
from __future__ import annotations

import math
import re
from typing import Dict, List, NamedTuple, NoReturn, Optional, Tuple

from .errors import Mistake, Span
from .numbers import shortened
from .records import MOST_RECORDS, PRIMITIVE, PRIMITIVES, REAL, Record

MOST_OPEN = 100

FUNCTIONS: Dict[str, str] = {name.lower(): name for name in ("Sqrt", "Sin", "Cos", "Exp", "Ln", "Log2", "Log10")}

BLANK = re.compile("(?:[ \t\n\r\u00a0\u2009\u202f]|#[^\n]*)*")
NUMBER = re.compile("([0-9.]+)(?:([eE][-+\u2212]?[0-9]+)([0-9.]*))?")
WORD = re.compile("[A-Za-z][A-Za-z0-9_]*")
SIGNS: Dict[str, str] = {
    "+": "+", "-": "-", "\u2212": "-", "*": "*", "\u00d7": "*", "\u00b7": "*", "/": "/", "^": "^", "\u00b2": "raised", "\u00b3": "raised", "(": "(", ")": ")",
}
STEPS: Dict[str, str] = {"+": "Add", "-": "Sub", "*": "Mul", "/": "Div", "^": "Pow"}

# How tightly each sign binds that waits for what stands behind it; `neg` is the minus before something.
TIGHT: Dict[str, int] = {"(": 0, "+": 1, "-": 1, "*": 2, "/": 2, "neg": 3, "^": 4}


class Token(NamedTuple):
    """`sort` is number, x, function, raised, end or the sign itself."""

    sort: str
    span: Span
    number: float = 0.0
    name: str = ""


class Part(NamedTuple):
    """A number, x, or a step on one or two parts, each by its place among the parts."""

    step: str
    has_x: bool
    number: float = 0.0
    left: int = -1
    right: int = -1


class Waiting(NamedTuple):
    """A sign that waits for what stands behind it, or an open parenthesis with the function before it."""

    sort: str
    token: Token
    function: str = ""
    before_number: bool = False


class Tokens:
    """Goes through a formula token by token."""

    def __init__(self, text: str) -> None:
        self.whole = text
        self.text = text[1:] if text.startswith("\ufeff") else text
        self.at, self.line, self.start = 0, 1, 0
        self.end = Span(1, 1, 1)

    def wrong(self, span: Span, kind: str, message: str) -> NoReturn:
        raise Mistake(self.whole, span, kind, message)

    def skip_blank(self) -> None:
        found = BLANK.match(self.text, self.at)
        behind = found.end() if found else self.at
        lines = self.text.count("\n", self.at, behind)
        if lines:
            self.line, self.start = self.line + lines, self.text.rindex("\n", self.at, behind) + 1
        self.at = behind

    def span(self, width: int) -> Span:
        return Span(self.line, self.at - self.start + 1, width)

    def next(self) -> Token:
        self.skip_blank()
        if self.at == len(self.text):
            return Token("end", self.end)
        first = self.text[self.at]
        found = (NUMBER if first in "0123456789." else WORD).match(self.text, self.at)
        span = self.span(len(found.group()) if found else 1)
        token = self.number(found, span) if first in "0123456789." else self.word(found.group(), span) if found else self.sign(first, span)
        self.at += span.width
        self.end = self.span(1)
        return token

    def number(self, found: Optional["re.Match[str]"], span: Span) -> Token:
        assert found
        digits, exponent, behind = found.groups()
        if behind or digits.count(".") > 1 or digits == ".":
            self.wrong(span, "number", "`%s` is no number; numbers look like 3, 0.5 or 2.5e-3" % shortened(found.group()))
        number = float(digits + (exponent or "").replace("\u2212", "-"))
        if math.isinf(number):
            self.wrong(span, "number", "%s is too large for a binary64 number" % shortened(found.group()))
        if number == 0 and digits.strip("0."):
            self.wrong(span, "number", "%s is too small for a binary64 number; write 0 if that is meant" % shortened(found.group()))
        return Token("number", span, number)

    def word(self, word: str, span: Span) -> Token:
        if word == "x":
            return Token("x", span)
        if word not in FUNCTIONS:
            self.wrong(span, "name", "there is no `%s`; a formula has x, and the functions %s" % (shortened(word), " ".join(FUNCTIONS)))
        return Token("function", span, name=word)

    def sign(self, sign: str, span: Span) -> Token:
        if sign not in SIGNS:
            hint = "; a decimal point is written 0.5" if sign == "," else "; a formula has one x, and no =" if sign == "=" else ""
            self.wrong(span, "sign", "%s has no meaning in a formula%s" % (ascii(sign) if not sign.isprintable() else "`%s`" % sign, hint))
        return Token(SIGNS[sign], span, {"\u00b2": 2.0, "\u00b3": 3.0}.get(sign, 0.0))


class Reader:
    """Goes through the tokens once, with the signs that wait for what stands behind them. `parts` are a formula's parts, each behind those
    that it is made of; `operands` the places of those that belong to no other yet."""

    def __init__(self, text: str) -> None:
        self.tokens = Tokens(text)
        self.parts: List[Part] = []
        self.operands: List[int] = []
        self.waiting: List[Waiting] = []
        self.open = self.steps = 0
        self.token = self.tokens.next()
        self.first = self.token.span

    def take(self) -> Token:
        taken, self.token = self.token, self.tokens.next()
        return taken

    def read(self) -> List[Part]:
        if self.token.sort == "end":
            self.tokens.wrong(self.first, "empty", "there is no formula here; one looks like 60 x - 6 x^2")
        while True:
            self.operand()
            while self.token.sort in ("raised", ")"):
                self.raise_by_sign() if self.token.sort == "raised" else self.close()
            if self.token.sort == "end":
                return self.whole()
            self.operator()

    def operand(self) -> None:
        """A number, x or a function of one of these, with the minus signs, functions and parentheses before it."""
        while True:
            token = self.token
            if token.sort == "-":
                self.wait("neg", before_number=True)
            elif token.sort == "(":
                self.wait("(")
            elif token.sort == "function":
                if self.function():
                    return
            elif token.sort in ("number", "x"):
                self.leaf()
                return
            else:
                self.tokens.wrong(token.span, "operand", missing(token.sort))

    def function(self) -> bool:
        """A function: of what is in parentheses behind it, which is read next, or of a number or x; whether that is done."""
        name = self.take().name
        if self.token.sort == "(":
            self.wait("(", function=FUNCTIONS[name])
            return False
        if self.token.sort not in ("number", "x"):
            self.tokens.wrong(self.token.span, "operand", "behind %s comes x, a number or parentheses" % name)
        self.leaf()
        self.put_of(FUNCTIONS[name])
        if self.token.sort in ("x", "(", "^", "raised"):
            self.tokens.wrong(self.token.span, "either", "the function could be of this as well or not: sin 2 x is sin(2) x or sin(2 x), "
                              "sin x^2 is sin(x)^2 or sin(x^2); write parentheses")
        return True

    def wait(self, sort: str, function: str = "", before_number: bool = False) -> None:
        if sort in ("(", "neg", "^"):
            if self.open == MOST_OPEN:
                self.tokens.wrong(self.token.span, "deep", "more than %d parentheses, minus signs and powers are open here" % MOST_OPEN)
            self.open += 1
        token = self.take()
        self.waiting.append(Waiting(sort, token, function, before_number and self.token.sort == "number"))

    def operator(self) -> None:
        """What stands between two operands."""
        sort = self.token.sort
        if sort == "number":
            self.tokens.wrong(self.token.span, "either", "a number stands straight behind something: write what is meant, x*2, x^2 or x + 2; "
                              "a number has no blank in it")
        if sort in ("x", "function", "("):
            self.juxtapose()
            return
        if sort != "^":
            self.reduce(TIGHT[sort])
        self.wait(sort)

    def raise_by_sign(self) -> None:
        token = self.take()
        self.put(Part("push", False, token.number))
        self.put_both("Pow")
        if self.token.sort in ("^", "raised"):
            self.tokens.wrong(self.token.span, "either", "this could raise the whole or the power: write (x^2)^3, x^(2^3) or x^23")

    def juxtapose(self) -> None:
        self.reduce(TIGHT["neg"])
        if self.waiting and self.waiting[-1].sort == "/":
            self.tokens.wrong(self.token.span, "either", "this could be divided by as well or not: 1/2 x is (1/2) x or 1/(2 x); write a * or parentheses")
        self.reduce(TIGHT["*"])
        self.waiting.append(Waiting("*", self.token))

    def close(self) -> None:
        self.reduce(TIGHT["+"])
        if not self.waiting:
            self.tokens.wrong(self.token.span, "close", "this parenthesis closes nothing: no ( stands before it")
        self.take()
        self.open -= 1
        function = self.waiting.pop().function
        if function:
            self.put_of(function)

    def whole(self) -> List[Part]:
        self.reduce(TIGHT["+"])
        if self.waiting:
            self.tokens.wrong(self.waiting[-1].token.span, "open", "what starts here is never closed: a ) is missing")
        return self.parts

    def reduce(self, least: int) -> None:
        """What waits and binds at least so tightly takes the operands behind it."""
        while self.waiting and self.waiting[-1].sort != "(" and TIGHT[self.waiting[-1].sort] >= least:
            waited = self.waiting.pop()
            if waited.sort == "neg":
                self.open -= 1
                self.negate(waited.before_number)
            else:
                self.open -= waited.sort == "^"
                self.put_both(STEPS[waited.sort])

    def negate(self, before_number: bool) -> None:
        part = self.parts[self.operands[-1]]
        if before_number and part.step == "push":
            self.parts[self.operands[-1]] = part._replace(number=-part.number)
        else:
            self.put_of("Neg")

    def leaf(self) -> None:
        token = self.take()
        self.put(Part("x", True) if token.sort == "x" else Part("push", False, token.number))

    def put_of(self, step: str) -> None:
        inner = self.operands.pop()
        self.put(Part(step, self.parts[inner].has_x, left=inner))

    def put_both(self, step: str) -> None:
        right, left = self.operands.pop(), self.operands.pop()
        self.put(Part(step, self.parts[left].has_x or self.parts[right].has_x, left=left, right=right))

    def put(self, part: Part) -> None:
        self.steps += part.step != "x"
        if self.steps > MOST_RECORDS:
            self.too_long()
        self.operands.append(len(self.parts))
        self.parts.append(part)

    def too_long(self) -> NoReturn:
        self.tokens.wrong(self.first, "long", "this formula makes more than %d steps, which is the most that a list has" % MOST_RECORDS)


def missing(sort: str) -> str:
    wanted = "something is missing here: a number, x, a function or ("
    return wanted + ("; a number has no + before it" if sort == "+" else "; a power is written ^" if sort == "*" else "")


TAKE, KEEP = "take", "keep"
Work = Tuple[str, int]
"""To leave a part in the place of x, or above it; or, with the place -1, a step by its name."""


def work_of(parts: List[Part], form: str, part: Part) -> List[Work]:
    """How a part of two parts is left: what is to be done, in order."""
    left, right = parts[part.left], parts[part.right]
    last = (part.step, -1)
    if not right.has_x:
        return [(form if left.has_x else KEEP, part.left), (KEEP, part.right), last]
    if not left.has_x and part.step in ("Add", "Mul"):
        return [(form, part.right), (KEEP, part.left), last]
    if left.step == "x":
        between = [("Dup", -1)] if form == TAKE else [("Dup", -1), ("Over", -1)]
        return [*between, (TAKE, part.right), last]
    return [(KEEP, part.left), ("Flip" if form == TAKE else "Over", -1), (TAKE, part.right), last]


def records_of(parts: List[Part]) -> List[Record]:
    """The list of a formula, by the rules of notation/README.md."""
    whole = len(parts) - 1
    to_do: List[Work] = [(TAKE, whole)] if parts[whole].has_x else [(KEEP, whole), ("Pop", -1)]
    records: List[Record] = []
    while to_do:
        what, place = to_do.pop()
        part = parts[place] if place >= 0 else None
        if part is None:
            records.append(Record(PRIMITIVE, PRIMITIVES[what]))
        elif part.step == "push":
            records.append(Record(REAL, re=part.number))
        elif part.step == "x":
            to_do += [("Dup", -1)] if what == KEEP else []
        elif part.right < 0:
            to_do += [(part.step, -1), (what, part.left)]
        else:
            to_do += reversed(work_of(parts, what, part))
    return records


def parse(text: str) -> List[Record]:
    """The records of a formula's text; Mistake says where it is wrong."""
    reader = Reader(text)
    records = records_of(reader.read())
    if len(records) > MOST_RECORDS:
        reader.too_long()
    return records
