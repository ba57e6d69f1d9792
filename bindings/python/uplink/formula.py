"""Formulas and the sums that they stand for."""
from __future__ import annotations

import builtins
import sys
from typing import Any, Callable, Iterable, List, NamedTuple, NoReturn, Optional, SupportsFloat, Tuple, Union, overload

from . import library, notation, printed, steps as step_notation
from .errors import Mistake, Refused, TooLong
from .records import COMPLEX, MOST_RECORDS, REAL, RECORD_BYTES, Record, encode, fault_of

Number = Union[int, float]
Step = Union[str, int, float, complex]

MOST_STEPS_READ = 10_000_000
"""A list of more steps is read only with long=True."""

KINDS = ("X", "Div", "Log", "Exp", "Sin", "Cos", "SinH", "CosH")


class Entry(NamedTuple):
    """A term of a sum with its coefficient.

    `kind` is X, a power of x; Div, 1 over what is inside; Log, the logarithm of what is inside, to a base; Exp, Sin, Cos, SinH or CosH of it."""

    kind: str
    coefficient: Union[float, complex]
    """A complex number where the imaginary part isn't 0."""
    power: Optional[float] = None
    """Of an X: 0 makes it a constant."""
    base: Optional[float] = None
    """Of a Log."""
    inside: Tuple["Entry", ...] = ()
    """The sum that all kinds but X are of."""


def entries_of(data: bytes) -> Tuple[Entry, ...]:
    """The entries of a sum, as they lie inside one another."""
    found: List[Entry] = []
    for kind, number, re, im, inside in printed.level(data):
        name = KINDS[kind - 1]
        power, base = number if name == "X" else None, number if name == "Log" else None
        found.append(Entry(name, complex(re, im) if im else re, power, base, entries_of(inside)))
    return tuple(found)


class Sum:
    """What a formula stands for: a sum of terms, in rising order.

    >>> Formula('60 x - 6 x^2').sum().entries
    (Entry(kind='X', coefficient=60.0, power=1.0, base=None, inside=()), Entry(kind='X', coefficient=-6.0, power=2.0, base=None, inside=()))
    """

    __slots__ = ("_data", "complex", "pairs")

    def __init__(self, data: bytes, is_complex: bool, pairs: int = 0) -> None:
        self._data = checked_bytes(data, "a sum's bytes")
        self.complex: bool = bool(is_complex)
        """Whether a complex step was met in reading."""
        self.pairs: int = pairs
        """How many pairs of outermost terms the products and whole powers of the formula multiplied in reading."""

    @property
    def entries(self) -> Tuple[Entry, ...]:
        return entries_of(self._data)

    def __bytes__(self) -> bytes:
        """Its entries, 32 bytes each (docs/FORMATS.md)."""
        return self._data

    def __len__(self) -> int:
        return len(self.entries)

    def __eq__(self, other: object) -> bool:
        return isinstance(other, Sum) and (self._data, self.complex) == (other._data, other.complex)

    def __hash__(self) -> int:
        return hash((self._data, self.complex))

    def __repr__(self) -> str:
        return "Sum(%s)" % ", ".join(map(repr, self.entries))

    def __str__(self) -> str:
        """The sum as a formula, as `dive` prints it.

        >>> print(Formula('60 x - 6 x^2 + sin(2 x)').sum().derivative())
        60 - 12 x + 2 cos(2 x)
        """
        return printed.formula(self._data)

    def derivative(self) -> "Sum":
        """The derivative of the sum.

        >>> [(entry.coefficient, entry.power) for entry in Formula('60 x - 6 x^2').sum().derivative().entries]
        [(60.0, 0.0), (-12.0, 1.0)]
        """
        return Sum(library.bytes_to_bytes("derive", self._data, 32), self.complex)

    def integral(self) -> "Sum":
        """The integral of the sum, 0 at 0 where it is one of powers."""
        return Sum(library.bytes_to_bytes("integrate", self._data, 32), self.complex)

    def formula(self, as_rust: bool = False) -> "Formula":
        """The sum written as a list, so that the list means what the sum says; with as_rust as the Rust module does it.

        >>> Formula('x (x + 1)').sum().formula()
        Formula(steps='Dup, Dup, Mul, Add')
        """
        name = "write" if as_rust else "write_faithful"
        return Formula(bytes=library.write(name, self._data, self.complex))

    @overload
    def value(self, x: Number) -> float: ...
    @overload
    def value(self, x: Iterable[Number]) -> List[float]: ...

    def value(self, x: Any) -> Any:
        """The value of a sum of whole powers of x, 0 to 64, straight from its terms: of a number, a sequence or an array."""
        return at_each(x, lambda xs: library.values("value", self._data, xs))


class Formula:
    """A formula in x: a list of steps on a stack that starts with x.

    It is made of a text as people write it (notation/README.md), of steps, or of the bytes of a list.

    >>> depth = Formula('60 x - 6 x^2')
    >>> depth.run(2.5)
    112.5
    >>> depth.derivative().run([0, 5, 10])
    [60.0, 0.0, -60.0]
    >>> depth == Formula(steps='Dup, push 60, Mul, Flip, push 2, Pow, push 6, Mul, Sub')
    True
    >>> depth == Formula(steps=['Dup', 60, 'Mul', 'Flip', 2, 'Pow', 6, 'Mul', 'Sub'])
    True
    >>> depth == Formula(bytes=bytes(depth))
    True

    A text that is wrong raises Mistake, a list that is refused Refused, both of them ValueErrors; something else than such a text or list is a
    TypeError. A list of more than ten million steps is read only with long=True; else TooLong is raised.
    """

    __slots__ = ("_data", "_long")

    def __init__(self, text: Optional[str] = None, *, steps: Union[str, Iterable[Step], None] = None, bytes: Optional[bytes] = None,
                 long: bool = False) -> None:
        given = [what for what in (text, steps, bytes) if what is not None]
        if len(given) != 1:
            raise TypeError("a formula is made of one thing: a text such as '60 x - 6 x^2', steps=.. or bytes=..; %s given" % (len(given) or "none is"))
        self._long = bool(long)
        if text is not None:
            self._data = encode(notation.parse(a_text(text, "a formula is a text such as '60 x - 6 x^2'")))
        elif steps is not None:
            self._data = encode(records_of_steps(steps))
        else:
            self._data = checked_list(bytes)

    def __bytes__(self) -> builtins.bytes:
        """Its records, 24 bytes each (docs/FORMATS.md)."""
        return self._data

    def steps(self) -> List[str]:
        """Its steps in words, as `dive show` has them.

        >>> Formula('5 - x^2').steps()
        ['push 5', 'Flip', 'push 2', 'Pow', 'Sub']
        """
        return step_notation.written(self._data)

    def __len__(self) -> int:
        """How many records it has."""
        return len(self._data) // RECORD_BYTES

    def __bool__(self) -> bool:
        return True

    def __eq__(self, other: object) -> bool:
        return isinstance(other, Formula) and self._data == other._data

    def __hash__(self) -> int:
        return hash(self._data)

    def __repr__(self) -> str:
        return "Formula(steps=%r)" % ", ".join(self.steps())

    def derivative(self, as_rust: bool = False) -> "Formula":
        """The formula of its derivative, as a list that means what the formula says (`uplink_derivative_faithful`, as `dive` does). With
        as_rust it is written as the Rust module writes it, where a function behind another term gets another argument.

        >>> Formula('60 x - 6 x^2').derivative().steps()
        ['On { push 0, Mul, push 60, Add }', 'push -12', 'Mul', 'Add']
        """
        return self._list_of("derivative" if as_rust else "derivative_faithful")

    def integral(self, as_rust: bool = False) -> "Formula":
        """The formula of its integral; as_rust as for `derivative`.

        >>> Formula('60 - 12 x').integral().run(2.5)
        112.5
        """
        return self._list_of("integral" if as_rust else "integral_faithful")

    def inverse(self) -> "Formula":
        """The formula that undoes it.

        >>> Formula('2 x + 1').inverse().run(7)
        3.0
        """
        return self._list_of("inverse")

    def sum(self) -> Sum:
        """The sum that it stands for."""
        self._ask_cost()
        return Sum(*library.read(self._data))

    @overload
    def run(self, x: Number) -> float: ...
    @overload
    def run(self, x: Iterable[Number]) -> List[float]: ...

    def run(self, x: Any) -> Any:
        """Its value at x, step by step: of a number, a sequence or an array.

        Of a sequence it is a list, of a numpy array an array of the same shape.

        >>> Formula('x sqrt x').run([0, 4, 9])
        [0.0, 8.0, 27.0]
        """
        return at_each(x, lambda xs: library.values("run", self._data, xs))

    @overload
    def value(self, x: Number) -> float: ...
    @overload
    def value(self, x: Iterable[Number]) -> List[float]: ...

    def value(self, x: Any) -> Any:
        """The value at x of the sum that it stands for, where that is one of whole powers of x from 0 to 64.

        >>> Formula('60 x - 6 x^2').value(2.5)
        112.5
        """
        return self.sum().value(x)

    def cost(self) -> int:
        """How many steps it takes to read, told before it is read; 2^64 - 1 stands for more as well."""
        return library.cost(self._data)

    def _ask_cost(self) -> None:
        if not self._long and self.cost() > MOST_STEPS_READ:
            raise TooLong(self.cost(), MOST_STEPS_READ)

    def _list_of(self, name: str) -> "Formula":
        self._ask_cost()
        return Formula(bytes=library.bytes_to_bytes(name, self._data, RECORD_BYTES))


def shown(what: object) -> str:
    """A thing as a message shows it: its type, and what it looks like, shortened."""
    try:
        looks = repr(what)
    except Exception:  # a repr of the caller's own may fail in any way
        looks = ".."
    return "%s %s" % (type(what).__name__, looks if len(looks) <= 60 else looks[:57] + "..")


def a_text(text: object, what: str) -> str:
    if not isinstance(text, str):
        raise TypeError("%s, not %s" % (what, shown(text)))
    return text


def checked_bytes(data: object, what: str) -> builtins.bytes:
    if not isinstance(data, (builtins.bytes, bytearray, memoryview)):
        raise TypeError("%s are bytes, not %s" % (what, shown(data)))
    return builtins.bytes(data)


def checked_list(data: object) -> builtins.bytes:
    """Bytes that keep the rules of lists."""
    copy = checked_bytes(data, "a list's bytes")
    fault = fault_of(copy)
    if fault:
        raise Refused(fault.number, 0, None, fault.sentence)
    return copy


def records_of_steps(given: object) -> List[Record]:
    """The records of a text of steps, or of a sequence of texts and numbers, each text one or more whole steps, each number a push."""
    if isinstance(given, str):
        return step_notation.parse(given)
    if isinstance(given, (builtins.bytes, bytearray, dict)) or not hasattr(given, "__iter__"):
        not_steps(given)
    records: List[Record] = []
    for place, step in enumerate(given):
        if len(records) > MOST_RECORDS:
            break
        if isinstance(step, str):
            records += records_of_step(step, place)
        elif isinstance(step, complex):
            records.append(Record(COMPLEX, re=step.real, im=step.imag))
        else:
            records.append(Record(REAL, re=number_of(step, "step %d" % place, "a text or a number")))
    data = encode(records)
    fault = fault_of(data)
    if fault:
        raise Refused(fault.number, 0, None, fault.sentence)
    return records


def records_of_step(step: str, place: int) -> List[Record]:
    try:
        return step_notation.parse(step)
    except Mistake as mistake:
        raise Mistake(mistake.text, mistake.span, mistake.kind, "in step %d, counted from 0: %s" % (place, mistake.message)) from None


def not_steps(given: object) -> NoReturn:
    raise TypeError("steps are a text such as 'Dup, push 2, Pow' or a sequence of such texts and of numbers, not %s" % shown(given))


def number_of(x: object, what: str, wanted: str) -> float:
    """A number as binary64."""
    if isinstance(x, (str, builtins.bytes, bytearray, complex)) or not (hasattr(x, "__float__") or hasattr(x, "__index__")):
        raise TypeError("%s is to be %s, not %s" % (what, wanted, shown(x)))
    try:
        return float(x)  # type: ignore[arg-type]
    except OverflowError:
        raise ValueError("%s is too large for a binary64 number: %s" % (what, shown(x))) from None
    except (TypeError, ValueError):
        raise TypeError("%s is to be %s, not %s" % (what, wanted, shown(x))) from None


def at_each(x: Any, values: Callable[[List[float]], List[float]]) -> Any:
    """The values at a number, at each of a sequence, or at each of an array, which gives an array of the same shape."""
    numpy = sys.modules.get("numpy")
    if numpy is not None and isinstance(x, numpy.ndarray):
        found = values(numbers_of(x.ravel().tolist()))
        return numpy.array(found, dtype=numpy.float64).reshape(x.shape)
    if isinstance(x, (str, builtins.bytes, bytearray, dict, set, frozenset)):
        raise TypeError("x is to be a number or a sequence of numbers, not %s" % shown(x))
    if hasattr(x, "__iter__"):
        return values(numbers_of(x))
    return values([number_of(x, "x", "a number or a sequence of numbers")])[0]


def numbers_of(xs: Iterable[SupportsFloat]) -> List[float]:
    return [number_of(x, "item %d of x" % place, "a number") for place, x in enumerate(xs)]
