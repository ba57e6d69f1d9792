"""Lists as bytes: 24 for each record (docs/FORMATS.md)."""
from __future__ import annotations

import struct
from typing import Dict, Iterator, List, NamedTuple, Optional, Tuple

RECORD_BYTES = 24
MOST_RECORDS = 2048
MOST_LEVELS = 128
LIST_BYTES = RECORD_BYTES * MOST_RECORDS

RECORD = struct.Struct("<BBBBIdd")

REAL, COMPLEX, PRIMITIVE, MODIFIER, BODY = 1, 2, 5, 6, 7

PRIMITIVES: Dict[str, int] = {
    "Identity": 1, "Pop": 2, "Dup": 3, "Flip": 4, "Neg": 5, "Not": 6, "Sqrt": 7, "Add": 8, "Sub": 9, "Mul": 10, "Div": 11, "Pow": 12,
    "Exp": 13, "Sin": 14, "Cos": 15, "Reciprocal": 16, "Complex": 17, "Max": 18, "SinH": 19, "CosH": 20,
    "Exp2": 32, "Exp10": 33, "Log": 34, "Ln": 35, "Log2": 36, "Log10": 37, "Over": 38, "Root": 39,
}
MODIFIERS: Dict[str, int] = {"Dip": 1, "Gap": 2, "On": 3, "By": 4, "Both": 5, "Bracket": 6, "Fork": 7}
PLAIN: Dict[str, int] = {"ArrayPush": 3, "OtherPush": 4, "Obverse": 10, "NoNormal": 11, "UnderMarker": 12, "AnythingElse": 13}
HOLDING: Dict[str, int] = {"Run": 8, "CustomInverse": 9}

# The bytes of a record that its kind uses, besides the first.
CODE, ARGUMENTS, INSIDE, RE, IM = range(1, 2), range(2, 3), range(4, 8), range(8, 16), range(16, 24)
USED: Dict[int, Tuple[range, ...]] = {kind: () for kind in range(1, 14)}
USED.update({REAL: (RE,), COMPLEX: (RE, IM), PRIMITIVE: (CODE,), MODIFIER: (CODE, INSIDE), BODY: (ARGUMENTS, INSIDE), 8: (INSIDE,), 9: (INSIDE,)})


class Record(NamedTuple):
    """One record; `inside` is how many of the records that follow lie inside, nested ones too."""

    kind: int
    code: int = 0
    arguments: int = 0
    inside: int = 0
    re: float = 0.0
    im: float = 0.0

    def encoded(self) -> bytes:
        return RECORD.pack(self.kind, self.code, self.arguments, 0, self.inside, self.re, self.im)


def encode(records: List[Record]) -> bytes:
    return b"".join(record.encoded() for record in records)


def decode(data: bytes) -> Iterator[Record]:
    """The records of bytes that keep the rules of lists."""
    for kind, code, arguments, _, inside, re, im in RECORD.iter_unpack(data):
        yield Record(kind, code, arguments, inside, re, im)


class Fault(NamedTuple):
    """A rule of lists that bytes break: the refusal that the library gives, and a sentence that says where and what."""

    number: int
    sentence: str


def bad(sentence: str) -> Fault:
    return Fault(11, sentence)


def fault_of(data: bytes) -> Optional[Fault]:
    """The first rule of lists that bytes break, if they break one: those behind BadRecord, then that of TooDeep."""
    if len(data) % RECORD_BYTES:
        return bad("%d bytes are no whole number of 24: %d are left over; a record has 24 bytes." % (len(data), len(data) % RECORD_BYTES))
    count = len(data) // RECORD_BYTES
    if count > MOST_RECORDS:
        return bad("Of records there are %d, and at most %d are taken." % (count, MOST_RECORDS))
    for place in range(count):
        found = fault_of_record(data[place * RECORD_BYTES:(place + 1) * RECORD_BYTES], place)
        if found:
            return found
    return fault_of_shape(list(decode(data)))


def fault_of_record(record: bytes, place: int) -> Optional[Fault]:
    used = USED.get(record[0])
    if used is None:
        return bad("Record %d has kind %d, and there is no such kind." % (place, record[0]))
    for byte in range(1, RECORD_BYTES):
        if record[byte] and not any(byte in part for part in used):
            return bad("Byte %d of record %d isn't used by its kind, and isn't 0." % (byte, place))
    return None


def fault_of_shape(records: List[Record]) -> Optional[Fault]:
    """What is wrong with how records lie inside one another."""
    open_records: List[Tuple[int, bool]] = []
    too_deep = None
    for place, record in enumerate(records):
        while open_records and open_records[-1][0] == place:
            open_records.pop()
        end, in_modifier = open_records[-1] if open_records else (len(records), False)
        if in_modifier and record.kind != BODY:
            return bad("Record %d is straight inside a modifier, and it is no body." % place)
        if record.kind == BODY and not in_modifier:
            return bad("Record %d is a body, and it isn't straight inside a modifier." % place)
        if place + 1 + record.inside > end:
            return bad("What lies inside record %d reaches too far: its count is too large." % place)
        if len(open_records) > MOST_LEVELS and too_deep is None:
            too_deep = Fault(13, "Record %d lies inside more than %d others." % (place, MOST_LEVELS))
        open_records.append((place + 1 + record.inside, record.kind == MODIFIER))
    return too_deep
