"""Reads and writes ODL 2.1 camera labels, by way of the proved library.

    import odl
    for statement in odl.read(open("camera.lbl", "rb").read()):
        print(statement)

`read` gives the label's statements in order: `Attribute`, `Pointer` and
`Block`, each with its name folded up. Values are

    integer                 int
    real                    decimal.Decimal, exact
    number with units       Quantity
    date                    datetime.date
    time                    datetime.time with its Zone
    date and time           datetime.datetime with its Zone
    either, with decimals
    past the microsecond    Moment with its Zone
    text                    str, its lines joined
    symbol                  Symbol, a str, folded up
    sequence                list, of lists where it has rows
    set                     Set, a tuple in the written order

A time always has an offset, 0 where the label gives no zone: that is the rule,
but the camera's clock may have stood anywhere. Its `Zone`, which is the `tzinfo`
of a time and the `zone` of a Moment, tells these apart:

    value.tzinfo.mark == odl.Mark.NO_ZONE    # value.zone.mark of a Moment

Ask the mark and not the printed time, which has +00:00 for both; and ask it of
the camera's own label: the canonical one has a zone with every time.

`relabel` gives the canonical label, and `same` tells whether two labels mean
the same, whatever their layout. A `Book` counts sessions by the weekday of their
START_TIME:

    book = odl.Book()
    for label in labels:
        book.take(label)
    book.counts["Sunday"]

All raise `OdlError` with code, place and reason for a label that is refused,
`same` also with which of the two it is; nothing is guessed.

The library is `target/libodl.so` at the project's root, made by the script
`build` beside this file, or the file that ODL_LIBRARY names.
"""

import ctypes
import datetime
import decimal
import enum
import os
import threading
from dataclasses import dataclass
from typing import Any, Dict, List, Mapping, Optional, Tuple, Union

__all__ = [
    "Attribute",
    "Block",
    "Book",
    "Mark",
    "Moment",
    "OdlError",
    "Pointer",
    "Quantity",
    "Set",
    "Symbol",
    "Unit",
    "Zone",
    "read",
    "relabel",
    "same",
]

LONGEST_LABEL = 65535

REASONS = {
    1: "the label is over 65,535 bytes",
    2: "a byte that begins no element, or is not allowed in its text, symbol or comment",
    3: "a text, symbol or comment that is not closed",
    4: "a word of no form, or an empty symbol",
    5: "a number, radix, digit, length, date or unit exponent past its limit",
    6: "an element that cannot stand there",
    7: "a closing name that is not the opening one",
    8: "OBJECT or GROUP at depth 80",
    9: "END without spacing or a line end after it",
    10: "the input ends early",
    11: "the room is too short",
    12: "the table is not proper over this label",
    13: "the written label would be over 65,535 bytes",
    14: "no attribute of that name",
    15: "not the offset of a row that is asked for",
    16: "the book is full",
}

COUNTERS = (
    "Monday",
    "Tuesday",
    "Wednesday",
    "Thursday",
    "Friday",
    "Saturday",
    "Sunday",
    "undated",
)


class OdlError(ValueError):
    """A label was refused: `code`, `place` in the label, 0 if it is the book that
    is full, and `reason`. Where two labels were given, `label` is "first" or
    "second", else None."""

    def __init__(self, code: int, place: int):
        super().__init__(code, place)
        self.code = code
        self.place = place
        self.reason = REASONS[code]
        self.label: Optional[str] = None

    def __str__(self):
        of_label = f" of the {self.label} label" if self.label else ""
        return f"code {self.code} at {self.place}{of_label}: {self.reason}"


class Symbol(str):
    """A symbol, folded up. A text is a plain str."""

    def __repr__(self):
        return f"Symbol({str.__repr__(self)})"


class Set(tuple):
    """The members of a set in their written order."""

    def __repr__(self):
        return f"Set({list(self)!r})"


@dataclass(frozen=True)
class Unit:
    """One unit of a units expression; `joint` is "" for the first, else "*" or "/"."""

    joint: str
    name: str
    exponent: int


@dataclass(frozen=True)
class Quantity:
    """A number with units."""

    value: Union[int, decimal.Decimal]
    units: Tuple[Unit, ...]

    def __str__(self):
        units = "".join(
            unit.joint + unit.name + ("" if unit.exponent == 1 else f"**{unit.exponent}")
            for unit in self.units
        )
        return f"{self.value} <{units}>"


class Mark(enum.IntEnum):
    """How a zone was given: not at all, as Z, or signed (`+00:00` too)."""

    NO_ZONE = 0
    Z = 1
    SIGNED_ZONE = 2


@dataclass(frozen=True)
class Zone(datetime.tzinfo):
    """The zone of a time: its mark, and how far its clock is ahead of UTC, which
    only a signed zone says. Its text is "no zone", "Z" or such as "+07:00".

    A datetime.timezone would not do: it has one UTC for all offsets of 0."""

    mark: Mark
    offset: datetime.timedelta = datetime.timedelta(0)

    def __post_init__(self):
        object.__setattr__(self, "mark", Mark(self.mark))
        if self.mark != Mark.SIGNED_ZONE and self.offset:
            raise ValueError("only a signed zone has an offset other than 0")
        if abs(self.offset) >= datetime.timedelta(hours=13):
            raise ValueError("an offset is less than 13 hours")

    def __str__(self):
        if self.mark != Mark.SIGNED_ZONE:
            return "Z" if self.mark == Mark.Z else "no zone"
        minutes = self.offset // datetime.timedelta(minutes=1)
        hours, rest = divmod(abs(minutes), 60)
        return f"{'-' if minutes < 0 else '+'}{hours:02}:{rest:02}"

    def __reduce__(self):
        return type(self), (self.mark, self.offset)

    def utcoffset(self, dt):
        return self.offset

    def dst(self, dt):
        return None  # No label tells it.

    def tzname(self, dt):
        return str(self)

    def fromutc(self, dt):
        return dt + self.offset


@dataclass(frozen=True, eq=False)
class Moment:
    """A time, perhaps with its date, that has decimals past the microsecond.
    As with a datetime, the mark of its zone does not count in comparisons."""

    date: Optional[datetime.date]
    hour: int
    minute: int
    second: int
    nanoseconds: int
    zone: Zone

    def _meaning(self):
        time = self.hour, self.minute, self.second, self.nanoseconds
        return self.date, time, self.zone.utcoffset(None)

    def __eq__(self, other):
        return self._meaning() == other._meaning() if isinstance(other, Moment) else NotImplemented

    def __hash__(self):
        return hash(self._meaning())


@dataclass(frozen=True)
class Attribute:
    name: str
    value: Any


@dataclass(frozen=True)
class Pointer:
    name: str
    value: Any


@dataclass(frozen=True)
class Block:
    """An OBJECT or a GROUP (`kind` says which) and the statements in it."""

    kind: str
    name: str
    statements: List[Union[Attribute, Pointer, "Block"]]


def read(data: bytes) -> list:
    """The statements of a label."""
    data = bytes(memoryview(data))
    return _Table(data, _table(data, _reading(data))).statements()


def relabel(data: bytes) -> bytes:
    """The canonical label; refused just as the program `relabel` refuses it,
    which has room for a table of 65,535 bytes. Reals are plain in it, `1.5`,
    `0.015` or `100.0`, and have a power of ten, `15.E-30` or `1.E18`, only where
    it takes more than 18 digits without, behind the period or before it."""
    data = bytes(memoryview(data))
    return _written(data, _filled(LONGEST_LABEL, _reading(data)))


def same(a: bytes, b: bytes) -> bool:
    """Whether two labels mean the same: their canonical labels are equal exactly
    when their meanings are. Raises for a label that is refused, or whose
    canonical label would be over 65,535 bytes; the first is judged before the
    second. Unlike `relabel`, this has all the room that a table needs."""
    first = _canonical(a, "first")
    return first == _canonical(b, "second")


class Book:
    """Counts sessions by weekday: `counts` has a number for each of Monday to
    Sunday, and for undated. `Book()` is empty; `Book(counts)` goes on from counts
    that were kept, where a name left out is 0.

    A book may be shared by threads."""

    def __init__(self, counts: Optional[Mapping[str, int]] = None):
        counts = {**dict.fromkeys(COUNTERS, 0), **({} if counts is None else counts)}
        for name, number in counts.items():
            if name not in COUNTERS:
                raise ValueError(f"no counter: {name}")
            if not 0 <= number < 2**32:
                raise ValueError(f"a count is from 0 to 4294967295, not {number}")
        self._book = _Book(_Counts(*counts.values()))
        self._lock = threading.Lock()

    @property
    def counts(self) -> Dict[str, int]:
        """The number of each counter by its name, Monday first, undated last."""
        with self._lock:
            return dict(zip(COUNTERS, self._book.counts))

    def take(self, data: bytes) -> str:
        """Reads a label and counts its session under the weekday of the first
        START_TIME outside all blocks: of the date as written, whatever the zone.
        Without one, or with one that is not a single value with a date, the
        session is undated. The answer is the counter's name.

        Raises for a label that is refused, and with code 16 if the book is full:
        the counts come to 1,000,000 or more. The book then stays as it is."""
        data = bytes(memoryview(data))
        with self._lock:
            before = list(self._book.counts)
            _table(data, _taking(self._book, data))
            after = list(self._book.counts)
        (name,) = (name for name, old, more in zip(COUNTERS, before, after) if old != more)
        return name

    def __eq__(self, other):
        return self.counts == other.counts if isinstance(other, Book) else NotImplemented

    def __repr__(self):
        return f"Book({self.counts!r})"

    def __reduce__(self):
        return type(self), (self.counts,)


_Counts = ctypes.c_uint32 * len(COUNTERS)


class _Book(ctypes.Structure):
    """The book as the library has it."""

    _fields_ = [("counts", _Counts)]


def _load():
    here = os.path.dirname(os.path.abspath(__file__))
    path = os.environ.get("ODL_LIBRARY", os.path.join(here, "..", "..", "target", "libodl.so"))
    try:
        library = ctypes.CDLL(path)
    except OSError as error:
        raise ImportError(
            f"the library cannot be loaded ({error}): run the script `build` beside odl.py"
        ) from None
    book = [ctypes.POINTER(_Book)]
    given = [ctypes.c_char_p, ctypes.c_size_t]
    room = [ctypes.c_void_p, ctypes.c_size_t]
    number = ctypes.POINTER(ctypes.c_size_t)
    for name, handed in [
        ("odl_read", given),
        ("odl_write", given + given),
        ("odl_text", given + given + [ctypes.c_size_t]),
        ("odl_take", book + given),
    ]:
        function = getattr(library, name)
        function.argtypes = handed + room + [number, number]
        function.restype = ctypes.c_uint8
    return library


_library = _load()
_ROOM_TOO_SHORT = 11


def _call(size, call):
    """Calls with room of this size: code, place, length, room."""
    room = ctypes.create_string_buffer(size)
    place = ctypes.c_size_t()
    length = ctypes.c_size_t()
    code = call(room, size, ctypes.byref(place), ctypes.byref(length))
    return code, place.value, length.value, room


def _result(code, place, length, room):
    """What the call left in its room."""
    if code != 0:
        raise OdlError(code, place)
    return room.raw[:length]


def _filled(size, call):
    return _result(*_call(size, call))


def _grown(size, call):
    """The same, with all the room that is needed."""
    code, place, length, room = _call(size, call)
    if code == _ROOM_TOO_SHORT:
        return _filled(length, call)
    return _result(code, place, length, room)


def _reading(data):
    """The call that reads a label."""
    return lambda *room: _library.odl_read(data, len(data), *room)


def _taking(book, data):
    """The call that takes a label into a book."""
    return lambda *room: _library.odl_take(book, data, len(data), *room)


def _table(data, call):
    """The table of a label, by the call that reads or takes it."""
    return _grown(min(len(data), LONGEST_LABEL), call)


def _written(data, table):
    return _grown(
        len(data),
        lambda *room: _library.odl_write(data, len(data), table, len(table), *room),
    )


def _canonical(data, label):
    """The canonical label of the "first" or the "second" label."""
    data = bytes(memoryview(data))
    try:
        return _written(data, _table(data, _reading(data)))
    except OdlError as error:
        error.label = label
        raise


def _text(written):
    """A text as the library reassembles it. It gets a table of its own, so
    that a label of many texts is not judged anew for each."""
    label = b"A" + written
    table = b"\x01\0\0\0\x01" + b"\x0d\0\x01" + len(label).to_bytes(2, "big") + b"\x63\0\0"
    text = _grown(
        len(written),
        lambda *room: _library.odl_text(label, len(label), table, len(table), 5, *room),
    )
    return text.decode("ascii")


_BLOCKS = {3: ("OBJECT", 4), 5: ("GROUP", 6)}
_SEQUENCE, _END_SEQUENCE, _SET, _END_SET, _UNIT, _LAST = 20, 21, 22, 23, 15, 99


class _Table:
    """Takes the rows of a proper table one after another."""

    def __init__(self, label, table):
        self.label = label
        self.table = table
        self.at = 0

    def take(self, count):
        self.at += count
        return self.table[self.at - count : self.at]

    def unsigned(self, count):
        return int.from_bytes(self.take(count), "big")

    def signed(self, count):
        return int.from_bytes(self.take(count), "big", signed=True)

    def span(self):
        start, end = self.unsigned(2), self.unsigned(2)
        return self.label[start:end]

    def name(self):
        return self.span().decode("ascii").upper()

    def statements(self):
        """The statements up to the closing row, or to the last."""
        statements = []
        while True:
            kind = self.unsigned(1)
            if kind == 1:
                statements.append(Attribute(self.name(), self.value()))
            elif kind == 2:
                statements.append(Pointer(self.name(), self.value()))
            elif kind in _BLOCKS:
                statements.append(Block(_BLOCKS[kind][0], self.name(), self.statements()))
            else:
                return statements

    def value(self):
        kind = self.unsigned(1)
        if kind == _SEQUENCE:
            return list(self.members(_END_SEQUENCE))
        if kind == _SET:
            return Set(self.members(_END_SET))
        return self.scalar(kind)

    def members(self, end):
        while self.table[self.at] != end:
            yield self.value()
        self.take(1)

    def scalar(self, kind):
        if kind == 12:
            return self.moment()
        if kind == 13:
            return _text(self.span())
        if kind == 14:
            return Symbol(self.name())
        value = self.signed(8)
        if kind == 11:
            sign = 1 if value < 0 else 0
            digits = tuple(int(digit) for digit in str(abs(value)))
            value = decimal.Decimal((sign, digits, self.signed(2)))
        units = []
        while self.table[self.at] == _UNIT:
            self.take(1)
            joint = ("", "*", "/")[self.unsigned(1)]
            units.append(Unit(joint, self.name(), self.signed(1)))
        return Quantity(value, tuple(units)) if units else value

    def moment(self):
        parts = self.unsigned(1)
        year, month, day = self.unsigned(2), self.unsigned(1), self.unsigned(1)
        hour, minute, second = self.unsigned(1), self.unsigned(1), self.unsigned(1)
        nanoseconds = self.unsigned(4)
        offset = datetime.timedelta(minutes=self.signed(2))
        zone = Zone(Mark(self.unsigned(1)), offset)
        date = datetime.date(year, month, day) if parts & 1 else None
        if parts == 1:
            return date
        if nanoseconds % 1000 != 0:
            return Moment(date, hour, minute, second, nanoseconds, zone)
        time = datetime.time(hour, minute, second, nanoseconds // 1000, zone)
        return datetime.datetime.combine(date, time) if date else time
