"""The notation of steps, as `dive help notation` has it: `Dup, push 2, Pow, On { push 3, Mul }`."""
from __future__ import annotations

import re
from typing import Dict, Iterator, List, NamedTuple, NoReturn, Optional, Tuple

from . import numbers
from .errors import Mistake, Span
from .records import BODY, COMPLEX, HOLDING, MODIFIER, MODIFIERS, MOST_LEVELS, MOST_RECORDS, PLAIN, PRIMITIVE, PRIMITIVES, REAL, Record, decode

BLANK = "\t\n\x0b\x0c\r \x85\xa0\u1680\u2000-\u200a\u2028\u2029\u202f\u205f\u3000,"
TOKEN = re.compile("(?P<blank>[%s]+|#[^\n]*)|[{}]|[0-9]+:|[^%s{}#]+" % (BLANK, BLANK))

NAMED: Dict[str, Record] = {
    **{name: Record(PRIMITIVE, code) for name, code in PRIMITIVES.items()},
    **{name: Record(MODIFIER, code) for name, code in MODIFIERS.items()},
    **{name: Record(kind) for name, kind in {**PLAIN, **HOLDING}.items()},
}
NAMES = {(record.kind, record.code): name for name, record in NAMED.items()}
SMALL = {name.lower(): name for name in [*NAMED, "push"]}


class Token(NamedTuple):
    word: str
    span: Span


class Open(NamedTuple):
    """A record whose inside is being read."""

    place: int
    span: Span
    bodies_follow: bool


def tokens(text: str) -> Iterator[Token]:
    """The words and braces of a text, each with where it stands; the last is the empty word."""
    if text.startswith("\ufeff"):
        text = text[1:]
    line, start = 1, 0
    for found in TOKEN.finditer(text):
        word = found.group()
        if found.group("blank") is None:
            yield Token(word, Span(line, found.start() - start + 1, len(word)))
        if "\n" in word:
            line, start = line + word.count("\n"), found.start() + word.rindex("\n") + 1
    yield Token("", Span(line, len(text) - start + 1, 0))


class Reader:
    def __init__(self, text: str) -> None:
        self.text, self.rest = text, tokens(text)
        self.token = next(self.rest)
        self.list: List[Record] = []
        self.open: List[Open] = []

    def take(self) -> Token:
        taken = self.token
        self.token = next(self.rest, taken)
        return taken

    def wrong(self, span: Span, message: str) -> NoReturn:
        raise Mistake(self.text, span, "steps", message)

    def read(self) -> List[Record]:
        while self.token.word:
            token = self.take()
            if token.word == "{":
                self.body(token.span)
                continue
            if self.open and self.open[-1].bodies_follow:
                self.close()
            if token.word == "}":
                if not self.open:
                    self.wrong(token.span, "this brace closes nothing: no { stands before it")
                self.close()
            else:
                self.step(token)
        if self.open and self.open[-1].bodies_follow:
            self.close()
        if self.open:
            self.wrong(self.open[-1].span, "what starts here is never closed: a } is missing")
        return self.list

    def put(self, record: Record, span: Span) -> int:
        if len(self.list) == MOST_RECORDS:
            self.wrong(span, "a list has at most %d records, bodies counted" % MOST_RECORDS)
        if len(self.open) > MOST_LEVELS:
            self.wrong(span, "this lies inside more than %d records, bodies counted" % MOST_LEVELS)
        self.list.append(record)
        return len(self.list) - 1

    def close(self) -> None:
        """The innermost open record ends here, and what lies inside it is counted."""
        place = self.open.pop().place
        self.list[place] = self.list[place]._replace(inside=len(self.list) - place - 1)

    def step(self, token: Token) -> None:
        record = self.record(token)
        place = self.put(record, token.span)
        if record.kind == MODIFIER:
            self.open.append(Open(place, token.span, True))
        elif token.word in HOLDING:
            if self.token.word != "{":
                self.wrong(token.span, "%s needs its inside in braces: %s { .. }" % (token.word, token.word))
            self.take()
            self.open.append(Open(place, token.span, False))

    def body(self, span: Span) -> None:
        """A brace opens a body, of one argument unless it says another count."""
        if not self.open or not self.open[-1].bodies_follow:
            self.wrong(span, "a brace stands only after a modifier, Run or CustomInverse")
        arguments = 1
        if self.token.word.endswith(":"):
            word, at = self.take()
            arguments = self.byte(word[:-1], at, "a body's argument count is a whole number from 0 to 255, as in {2: Add }")
        self.open.append(Open(self.put(Record(BODY, arguments=arguments), span), span, False))

    def record(self, token: Token) -> Record:
        """The record that a word starts, with the numbers behind it."""
        word, span = token
        if word == "push":
            return self.push(span)
        if word in ("Primitive", "Modifier"):
            code, at = self.after(word, "its code", span)
            code_byte = self.byte(code, at, "after %s comes its code, a whole number from 0 to 255" % word)
            return Record(PRIMITIVE if word == "Primitive" else MODIFIER, code_byte)
        if word not in NAMED:
            self.wrong(span, no_step(word))
        return NAMED[word]

    def byte(self, word: str, span: Span, message: str) -> int:
        if not re.fullmatch("0*[0-9]{1,3}", word, re.ASCII) or int(word) > 255:
            self.wrong(span, message)
        return int(word)

    def after(self, before: str, what: str, span: Span) -> Token:
        if self.token.word in ("", "{", "}"):
            self.wrong(span, "after %s comes %s, and there is none" % (before, what))
        return self.take()

    def number(self, word: str, span: Span, more: str = "") -> float:
        try:
            return numbers.parse(word)
        except ValueError as error:
            return self.wrong(span, str(error) + more)

    def push(self, span: Span) -> Record:
        word, at = self.after("push", "a number", span)
        more = "; a complex number is written with spaces, as in push 2 + 3i" if len(word) > 1 and word.endswith("i") else ""
        real = self.number(word, at, more)
        if self.token.word not in ("+", "-"):
            return Record(REAL, re=real)
        sign = self.take().word
        word, at = self.after(sign, "an imaginary part, as in push 2 + 3i", at)
        if not word.endswith("i") or word[0] in "+-":
            self.wrong(at, "an imaginary part is a number without a sign, followed by i, as in push 2 + 3i")
        size = self.number(word[:-1], at)
        return Record(COMPLEX, re=real, im=-size if sign == "-" else size)


def no_step(word: str) -> str:
    try:
        numbers.parse(word)
        return "a number is pushed by `push %s`" % word
    except ValueError:
        meant: Optional[str] = SMALL.get(word.lower())
        hint = "is `%s` meant?" % meant if meant else "the steps are push and a number, %s" % " ".join(NAMED)
        return "there is no step `%s`; %s" % (numbers.shortened(word), hint)


def parse(text: str) -> List[Record]:
    """The records of a text; Mistake says where it is wrong."""
    return Reader(text).read()


def word_of(record: Record) -> str:
    """A record by itself, as it is written, without what lies inside."""
    if record.kind == REAL:
        return "push " + numbers.text(record.re)
    if record.kind == COMPLEX:
        is_below = has_minus(record.im)
        return "push %s %s %si" % (numbers.text(record.re), "-" if is_below else "+", numbers.text(-record.im if is_below else record.im))
    if record.kind == BODY:
        return "{" if record.arguments == 1 else "{%d:" % record.arguments
    name = NAMES.get((record.kind, record.code))
    return name or "%s %d" % ("Primitive" if record.kind == PRIMITIVE else "Modifier", record.code)


def has_minus(number: float) -> bool:
    """Whether a number has a minus before it; one that is no number has none."""
    return number == number and str(number).startswith("-")


def written(data: bytes) -> List[str]:
    """The outermost steps of a list, each with its inside; `parse` of them, parted by commas, gives the same list."""
    steps: List[str] = []
    ends: List[Tuple[int, str]] = []
    is_first = True
    for place, record in enumerate(decode(data)):
        while ends and ends[-1][0] == place:
            steps[-1] += ends.pop()[1]
            is_first = False
        start = " " if record.kind == BODY or is_first else ", "
        word = word_of(record) + (" {" if record.kind in HOLDING.values() else "")
        if ends:
            steps[-1] += start + word
        else:
            steps.append(word)
        is_first = bool(record.kind == BODY or record.kind in HOLDING.values())
        ends.append((place + 1 + record.inside, " }" if is_first else ""))
    for _, closing in reversed(ends):
        steps[-1] += closing
    return steps
