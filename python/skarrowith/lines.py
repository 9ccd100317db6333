"""Lines: telegrams, and the lines that carry them."""
from __future__ import annotations

import ctypes
import enum
from dataclasses import dataclass
from decimal import Context, Decimal
from typing import Iterable, Optional, Sequence, Union

from . import names
from ._library import body, call, characters, i64, lent_bytes, record, size, u8, u16, u32, u64


class Kind(enum.IntEnum):
    """The five telegrams."""

    ACK = names.ACK
    READ = names.READ
    ENTER = names.ENTER
    LEAVE = names.LEAVE
    DATA = names.DATA


class Sort(enum.IntEnum):
    """What an entry's value is: packed digits, a point in time, or binary."""

    DECIMAL = names.DECIMAL
    TIME = names.TIME
    BINARY = names.BINARY


class Quantity(enum.IntEnum):
    """What an entry is about."""

    ENERGY = names.ENERGY
    VOLUME = names.VOLUME
    POWER = names.POWER
    FLOW = names.FLOW
    INLET = names.INLET
    OUTLET = names.OUTLET
    POINT_IN_TIME = names.POINT_IN_TIME


class Unit(enum.IntEnum):
    """The unit of a quantity."""

    NO_UNIT = names.NO_UNIT
    WH = names.WH
    J = names.J
    M3 = names.M3
    W = names.W
    M3_H = names.M3_H
    DEGREE = names.DEGREE


class Interface(enum.IntEnum):
    """The interfaces of a position."""

    MBUS = names.MBUS
    OPTICAL = names.OPTICAL


@dataclass(frozen=True)
class Meaning:
    """What a unit byte means: a value is its count times ten to the power, in the unit."""

    quantity: Quantity
    unit: Unit
    power: int


@dataclass(frozen=True)
class Moment:
    """A point in time. Year 0 to 99 means 2000 to 2099; weekday 1 is Monday, 0 is not said."""

    year: int
    month: int
    day: int
    hour: int = 0
    minute: int = 0
    second: int = 0
    weekday: int = 0


@dataclass(frozen=True)
class Entry:
    """An entry: a count, of which the unit byte gives the power of ten, or a point in time.

    >>> inlet = Entry(0x0A, 0x59, -150)
    >>> inlet.meaning.quantity, inlet.exact
    (<Quantity.INLET: 4>, Decimal('-1.50'))
    """

    structure: int
    unit: int
    value: Union[int, Moment]
    sort: Sort = Sort.DECIMAL

    @property
    def meaning(self) -> Meaning:
        """Quantity, unit and power of ten, by the unit byte."""
        return entry_meaning(self.unit)

    @property
    def exact(self) -> Decimal:
        """The value in its unit, exactly."""
        if isinstance(self.value, Moment):
            raise ValueError("a point in time has no unit")
        return Decimal(self.value).scaleb(self.meaning.power, Context(prec=40))


@dataclass(frozen=True)
class Telegram:
    """A telegram; what its kind does not use is 0 or empty."""

    kind: Kind
    address: int = 0
    method: int = 0
    number: int = 0
    maker: int = 0
    version: int = 0
    meter_type: int = 0
    access: int = 0
    status: int = 0
    entries: tuple[Entry, ...] = ()


@dataclass(frozen=True)
class Found:
    """Where a line was found."""

    place: int
    length: int


@dataclass(frozen=True)
class FoundEither:
    """Which capture has a line, and where."""

    interface: Interface
    place: int
    length: int


@dataclass(frozen=True)
class FoundAfter:
    """Where a line was found, and when its first character began."""

    place: int
    length: int
    time: int


@dataclass(frozen=True)
class Unmarked:
    """The characters that were made, and how many bytes were used."""

    characters: list[int]
    used: int


class MeaningRecord(ctypes.Structure):
    _fields_ = [("quantity", ctypes.c_uint8), ("unit", ctypes.c_uint8), ("power", ctypes.c_int8), ("zero", ctypes.c_uint8)]


class MomentRecord(ctypes.Structure):
    _fields_ = [(name, ctypes.c_uint8) for name in ("year", "month", "day", "hour", "minute", "second", "weekday", "zero")]


class ValueRecord(ctypes.Union):
    _fields_ = [("count", ctypes.c_int64), ("time", MomentRecord)]


class EntryRecord(ctypes.Structure):
    _fields_ = [("structure", ctypes.c_uint8), ("unit", ctypes.c_uint8), ("sort", ctypes.c_uint8), ("zero", ctypes.c_uint8 * 5),
                ("value", ValueRecord)]


class TelegramRecord(ctypes.Structure):
    _fields_ = [("kind", ctypes.c_uint8), ("address", ctypes.c_uint8), ("method", ctypes.c_uint8), ("version", ctypes.c_uint8),
                ("number", ctypes.c_uint32), ("maker", ctypes.c_uint16), ("meter_type", ctypes.c_uint8), ("access", ctypes.c_uint8),
                ("status", ctypes.c_uint8), ("zero", ctypes.c_uint8 * 3), ("count", ctypes.c_uint64), ("entries", EntryRecord * 7)]


class FoundRecord(ctypes.Structure):
    _fields_ = [("place", ctypes.c_uint64), ("length", ctypes.c_uint64)]


class FoundAfterRecord(ctypes.Structure):
    _fields_ = [("place", ctypes.c_uint64), ("length", ctypes.c_uint64), ("time", ctypes.c_uint64)]


def entry_of(place: EntryRecord) -> Entry:
    """The entry that a record is."""
    sort = Sort(place.sort)
    if sort is Sort.TIME:
        t = place.value.time
        return Entry(place.structure, place.unit, Moment(t.year, t.month, t.day, t.hour, t.minute, t.second, t.weekday), sort)
    return Entry(place.structure, place.unit, place.value.count, sort)


def telegram_of(told: TelegramRecord) -> Telegram:
    """The telegram that a record is."""
    return Telegram(Kind(told.kind), told.address, told.method, told.number, told.maker, told.version, told.meter_type, told.access,
                    told.status, tuple(entry_of(place) for place in told.entries[:told.count]))


def _fill_entry(place: EntryRecord, entry: Entry) -> None:
    place.structure, place.unit = u8(entry.structure), u8(entry.unit)
    if isinstance(entry.value, Moment):
        place.sort = Sort.TIME
        for name in ("year", "month", "day", "hour", "minute", "second", "weekday"):
            setattr(place.value.time, name, u8(getattr(entry.value, name)))
    else:
        place.sort = entry.sort
        place.value.count = i64(entry.value)


def record_of(telegram: Telegram) -> TelegramRecord:
    """The record of a telegram. Entries past the seventh are counted and not kept: writing refuses such a count by 20."""
    told = TelegramRecord()
    for name in ("kind", "address", "method", "version", "meter_type", "access", "status"):
        setattr(told, name, u8(getattr(telegram, name)))
    told.number, told.maker, told.count = u32(telegram.number), u16(telegram.maker), len(telegram.entries)
    for place, entry in zip(told.entries, telegram.entries):
        _fill_entry(place, entry)
    return told


def check_line(line: Iterable[int]) -> Kind:
    """What an accepted line is.

    >>> check_line([0x1E5])
    <Kind.ACK: 1>
    """
    return Kind(call("check_line", *lent_bytes(body(line))))


def read_line(line: Iterable[int]) -> Telegram:
    """The telegram of a line.

    >>> read_line([0x168, 0x104, 0x104, 0x168, 0x053, 0x1FE, 0x050, 0x090, 0x131, 0x116])
    Telegram(kind=<Kind.ENTER: 3>, address=254, method=144, number=0, maker=0, version=0, meter_type=0, access=0, status=0, entries=())
    """
    told = TelegramRecord()
    call("read_line", *characters(line), *record(told))
    return telegram_of(told)


def write_line(telegram: Telegram) -> list[int]:
    """The line of a telegram.

    >>> [f"{c:03X}" for c in write_line(Telegram(Kind.ACK))]
    ['1E5']
    >>> data = Telegram(Kind.DATA, 5, number=12345678, maker=0x4E89, version=1, meter_type=4, entries=(
    ...     Entry(0x0C, 0x03, 96712345), Entry(0x0C, 0x11, 12345678), Entry(0x0A, 0x59, -150), Entry(0x02, 0x5D, -20, Sort.BINARY),
    ...     Entry(0x06, 0x6D, Moment(18, 7, 23, 15, 51, 28, 1), Sort.TIME)))
    >>> read_line(write_line(data)) == data
    True
    >>> write_line(Telegram(Kind.DATA))
    Traceback (most recent call last):
        ...
    skarrowith.Refusal: 20: writer: no accepted line reads as this telegram
    """
    line = (ctypes.c_uint16 * names.LINE_MOST)()
    count = call("write_line", *record(record_of(telegram)), line, size(names.LINE_MOST))
    return list(line[:count])


def write_request(kind: Kind, address: int, method: int = 0) -> list[int]:
    """The line of a read, of an enter with its method, or of a leave.

    >>> [f"{c:03X}" for c in write_request(Kind.READ, names.BROADCAST)]
    ['110', '15B', '1FE', '059', '116']
    """
    line = (ctypes.c_uint16 * names.LINE_MOST)()
    count = call("write_request", u8(kind), u8(address), u8(method), line, size(names.LINE_MOST))
    return list(line[:count])


def find_line(capture: Iterable[int]) -> Found:
    """The lowest place of a capture at which an accepted line begins, and its length.

    >>> find_line([0x000, 0x1E5])
    Found(place=1, length=1)
    """
    found = FoundRecord()
    call("find_line", *characters(capture), *record(found))
    return Found(found.place, found.length)


def line_length(first: Iterable[int]) -> Optional[int]:
    """How many characters the accepted line has that begins with these; None where that is not told yet.

    >>> line_length([0x168]) is None
    True
    >>> line_length([0x168, 0x104])
    10
    """
    length = ctypes.c_size_t()
    said = call("line_length", *characters(first), ctypes.byref(length))
    return None if said == names.NOT_YET else length.value


def find_line_after(capture: Iterable[int], times: Sequence[int], t: int) -> FoundAfter:
    """The same as find_line among the lines whose first character began at t or later: times[i] is when capture[i] began.

    >>> find_line_after([0x1E5, 0x1E5], [950, 1010], 1000)
    FoundAfter(place=1, length=1, time=1010)
    """
    found = FoundAfterRecord()
    began = (ctypes.c_uint64 * len(times))(*[u64(time) for time in times])
    call("find_line_after", *characters(capture), began, size(len(times)), u64(t), *record(found))
    return FoundAfter(found.place, found.length, found.time)


def find_either(mbus: Iterable[int], optical: Iterable[int]) -> FoundEither:
    """The line of whichever capture of a position has one, that of M-Bus first.

    >>> find_either([0x000, 0x0FF], [0x1E5])
    FoundEither(interface=<Interface.OPTICAL: 2>, place=0, length=1)
    """
    found = FoundRecord()
    said = call("find_either", *characters(mbus), *characters(optical), *record(found))
    return FoundEither(Interface(said), found.place, found.length)


def entry_meaning(unit: int) -> Meaning:
    """What a unit byte means.

    >>> entry_meaning(0x11)
    Meaning(quantity=<Quantity.VOLUME: 1>, unit=<Unit.M3: 3>, power=-5)
    """
    meaning = MeaningRecord()
    call("entry_meaning", u8(unit), *record(meaning))
    return Meaning(Quantity(meaning.quantity), Unit(meaning.unit), meaning.power)


def unmark(marked: bytes) -> Unmarked:
    """The characters of bytes that a serial port marked (PARMRK); what is not used goes in front of what is read next.

    >>> unmark(bytes([0xE5, 0xFF, 0x00, 0xE5, 0xFF]))
    Unmarked(characters=[485, 229], used=4)
    """
    made, used, count = (ctypes.c_uint16 * len(marked))(), ctypes.c_size_t(), ctypes.c_size_t()
    call("unmark", *lent_bytes(marked), made, size(len(marked)), ctypes.byref(used), ctypes.byref(count))
    return Unmarked(list(made[:count.value]), used.value)
