"""What goes wrong, as exceptions."""
from __future__ import annotations

from typing import Any, NamedTuple, Optional, Tuple


class Refusal(NamedTuple):
    """One of the eighteen reasons for which there is no result."""

    name: str
    meaning: str
    advice: str
    of_the_whole: bool
    """Whether it is always about the whole list or sum, so that its place says nothing."""


# In the order of their numbers, from 1; the sentences are those of the Rust crate (bindings/rust/src/refusal.rs).
REFUSALS = (
    Refusal("TooManyVariables", "a step takes a value from the stack, and none is left there",
            "The stack starts with x alone: put a push or a Dup before the step that finds nothing.", False),
    Refusal("NotSupported", "there is a step of a sort that isn't handled",
            "Write the formula with the primitives and modifiers that are handled.", False),
    Refusal("NoOutput", "no value is left on the stack at the end",
            "Leave one value, the formula's: take out a Pop.", True),
    Refusal("TooManyOutputs", "several values are left on the stack at the end",
            "Leave one value, the formula's: bring them together with Add, for example, or Pop those not wanted.", True),
    Refusal("NonScalar", "an array is pushed, and only single numbers are handled", "Push single numbers.", False),
    Refusal("NonReal", "a value is pushed that is no number, or that isn't real where reals alone are run", "Push real numbers.", False),
    Refusal("TooComplex", "the formula is none that the algebra has a rule for",
            "Write the formula as a sum of powers of x; functions of x can be added, but not multiplied or divided.", False),
    Refusal("InterpreterBug", "a modifier doesn't have the number of bodies that it needs",
            "Give Dip, Gap, On, By and Both one body, and Bracket two.", False),
    Refusal("NoInverse", "there is a custom inverse without a normal form",
            "Hand over the steps that the custom inverse stands for.", False),
    Refusal("NotHandled", "the list has too few steps of arithmetic to be undone by algebra",
            "Undo such a list step by step: push 5, Add is undone by push 5, Sub.", True),
    Refusal("BadRecord", "the bytes break a rule of lists or sums",
            "Check that the length is whole (24 bytes a record, 32 an entry), that unused bytes are 0 and counts of what lies inside "
            "are right, and that there are at most 2,048 records or 64 entries.", True),
    Refusal("NoRoom", "a sum or the stack grows past its limit",
            "Use fewer terms or lower powers: a sum has at most 64 entries, the stack 1,024 of them, and in the run 256 values.", False),
    Refusal("TooDeep", "records or terms lie too deep inside one another",
            "Nest less: a record lies inside at most 128 others, a term inside at most 3.", False),
    Refusal("NeedsMath", "a power, a root, a logarithm or a function is asked for that this code can't compute",
            "Keep to whole powers from 0 to 64; a formula that is only read and derived may have other powers of x itself, and logarithms to "
            "base e, 2 and 10.", False),
    Refusal("NotFinite", "a coefficient or another number is infinite or not a number, or has an imaginary part where a real number is needed",
            "Look for a division by zero, for coefficients that grow too large, and for a push or an x that isn't finite.", False),
    Refusal("BigPower", "a sum is raised to a whole power above 64", "Use whole powers up to 64.", False),
    Refusal("OutputRoom", "the result doesn't fit the bytes lent for it, and none of it was written",
            "Lend SUM_BYTES bytes for a sum and LIST_BYTES for a list: no result needs more.", True),
    Refusal("PowerNotFinite", "a power of x is infinite",
            "Mend the exponents: where powers of x are multiplied, divided or raised, their exponents are added, subtracted or multiplied.", False),
)


# So many characters of a line are shown at most, and so many of them before the mark.
WIDEST, NEAR = 120, 60


class Refused(ValueError):
    """The library's answer where there is no result: one of eighteen refusals.

    >>> from uplink import Formula
    >>> try:
    ...     Formula(steps='Neg, Add').sum()
    ... except Refused as refused:
    ...     refused.number, refused.name, refused.place
    (1, 'TooManyVariables', 1)
    """

    number: int
    """1 to 18, as in include/uplink.h."""
    name: str
    place: int
    """Which record refused, counted from 0; 0 too where it is none of them, but the whole list, its end, or what was made of it."""
    sentence: str
    """What it means and what to do."""
    x: Optional[float]
    """Where the formula was to be worked out, if it was."""

    def __init__(self, number: int, place: int = 0, x: Optional[float] = None, fault: Optional[str] = None) -> None:
        refusal = REFUSALS[number - 1]
        self.number, self.name, self.place, self.x, self.fault = number, refusal.name, place, x, fault
        self.sentence = fault or "%s. %s" % (refusal.meaning, refusal.advice)
        where = " at record %d" % place if place else "" if refusal.of_the_whole or fault else " at record 0 or after the last"
        at = "" if x is None else " (x = %r)" % x
        super().__init__("%s (%d)%s%s: %s" % (self.name, number, where, at, self.sentence))

    def __reduce__(self) -> Tuple[Any, ...]:
        return Refused, (self.number, self.place, self.x, self.fault)


class Mistake(ValueError):
    """What is wrong with a text, and where: the line is shown, with the place marked below it.

    >>> from uplink import Formula
    >>> Formula('60 x - 6 y^2')
    Traceback (most recent call last):
        ...
    uplink.errors.Mistake: line 1, column 10: there is no `y`; a formula has x, and the functions sqrt sin cos exp ln log2 log10
      1 | 60 x - 6 y^2
        |          ^
    """

    line: int
    column: int
    width: int
    kind: str
    """In a formula the word that notation/README.md has for such mistakes; in steps `steps`."""
    message: str

    def __init__(self, text: str, span: "Span", kind: str, message: str) -> None:
        self.text, self.span, self.kind, self.message = text, span, kind, message
        self.line, self.column, self.width = span
        number = str(self.line)
        shown, mark = marked(text, span)
        super().__init__("line %d, column %d: %s\n  %s | %s\n  %s | %s" % (self.line, self.column, message, number, shown, " " * len(number), mark))

    def __reduce__(self) -> Tuple[Any, ...]:
        return Mistake, (self.text, self.span, self.kind, self.message)


class Span(NamedTuple):
    """A stretch of a text: its line and column, from 1, and how many characters it has."""

    line: int
    column: int
    width: int


def marked(text: str, span: Span) -> Tuple[str, str]:
    """The line that a stretch stands on, and the mark below it; of a long line what is near the mark."""
    lines = (text[1:] if text.startswith("\ufeff") else text).split("\n")
    line = (lines[span.line - 1] if span.line <= len(lines) else "").replace("\t", " ").replace("\r", " ")
    start = max(0, span.column - 1 - NEAR)
    front = ".. " if start else ""
    behind = " .." if len(line.rstrip()) > start + WIDEST else ""
    width = max(1, min(span.width, WIDEST - (span.column - 1 - start)))
    return front + line[start:start + WIDEST].rstrip() + behind, " " * (len(front) + span.column - 1 - start) + "^" * width


class TooLong(ValueError):
    """A list that would take too many steps to read; `steps` says how many."""

    def __init__(self, steps: int, most: int) -> None:
        self.steps, self.most = steps, most
        super().__init__(
            "reading this list would take %s steps, and it isn't read: Both runs its body twice, so a Both inside a Both doubles the steps. "
            "A list of more than %s steps is read only where the formula is made with long=True"
            % ("more than 18 quintillion" if steps == 2**64 - 1 else format(steps, ","), format(most, ",")))

    def __reduce__(self) -> Tuple[Any, ...]:
        return TooLong, (self.steps, self.most)


class NoLibrary(RuntimeError):
    """The proved library can't be built or loaded here; the message says why and what to do."""
