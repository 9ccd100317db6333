"""CJ/T 188: the other protocol of a bench, for the positions whose meters speak it."""
from __future__ import annotations

import ctypes
import enum
from dataclasses import dataclass
from typing import Iterable

from . import names
from ._library import body, call, characters, lent_bytes, record, size, u8, u16, u32, u64
from .lines import Entry, EntryRecord, entry_of

_VALUES = ("cold", "heat", "power", "flow", "volume")
_CLOCK = ("year", "month", "day", "hour", "minute", "second")


class CjtKind(enum.IntEnum):
    """The two telegrams."""

    REQUEST = names.CJT_REQUEST
    ANSWER = names.CJT_ANSWER


@dataclass(frozen=True)
class CjtValue:
    """A value of eight digits, as a count of its last one, and the code of its unit (CJT_KWH and so on)."""

    count: int = 0
    code: int = 0


@dataclass(frozen=True)
class CjtClock:
    """The meter's clock."""

    year: int = 0
    month: int = 0
    day: int = 0
    hour: int = 0
    minute: int = 0
    second: int = 0


@dataclass(frozen=True)
class CjtTelegram:
    """A telegram; what only an answer has is 0 in a request. The address is its fourteen digits as a number."""

    kind: CjtKind
    type: int
    address: int = 0
    serial: int = 0
    broadcast: bool = False
    state: bytes = bytes(2)
    cold: CjtValue = CjtValue()
    heat: CjtValue = CjtValue()
    power: CjtValue = CjtValue()
    flow: CjtValue = CjtValue()
    volume: CjtValue = CjtValue()
    inlet: int = 0
    outlet: int = 0
    hours: int = 0
    clock: CjtClock = CjtClock()


class CjtValueRecord(ctypes.Structure):
    _fields_ = [("count", ctypes.c_uint32), ("code", ctypes.c_uint8), ("zero", ctypes.c_uint8 * 3)]


class CjtClockRecord(ctypes.Structure):
    _fields_ = [("year", ctypes.c_uint16), ("month", ctypes.c_uint8), ("day", ctypes.c_uint8), ("hour", ctypes.c_uint8),
                ("minute", ctypes.c_uint8), ("second", ctypes.c_uint8), ("zero", ctypes.c_uint8)]


class CjtTelegramRecord(ctypes.Structure):
    _fields_ = [("kind", ctypes.c_uint8), ("type", ctypes.c_uint8), ("serial", ctypes.c_uint8), ("broadcast", ctypes.c_uint8),
                ("state", ctypes.c_uint8 * 2), ("zero", ctypes.c_uint8 * 2), ("address", ctypes.c_uint64),
                *[(name, CjtValueRecord) for name in _VALUES],
                ("inlet", ctypes.c_uint32), ("outlet", ctypes.c_uint32), ("hours", ctypes.c_uint32), ("zero_too", ctypes.c_uint32),
                ("clock", CjtClockRecord)]


def _telegram_of(told: CjtTelegramRecord) -> CjtTelegram:
    values = {name: CjtValue(getattr(told, name).count, getattr(told, name).code) for name in _VALUES}
    clock = CjtClock(*[getattr(told.clock, name) for name in _CLOCK])
    return CjtTelegram(CjtKind(told.kind), told.type, told.address, told.serial, bool(told.broadcast), bytes(told.state),
                       inlet=told.inlet, outlet=told.outlet, hours=told.hours, clock=clock, **values)


def _record_of(telegram: CjtTelegram) -> CjtTelegramRecord:
    if len(telegram.state) != 2:
        raise ValueError("state is two bytes")
    told = CjtTelegramRecord()
    for name in ("kind", "type", "serial", "broadcast"):
        setattr(told, name, u8(getattr(telegram, name)))
    for name in ("inlet", "outlet", "hours"):
        setattr(told, name, u32(getattr(telegram, name)))
    told.state[:] = telegram.state
    told.address = u64(telegram.address)
    for name in _VALUES:
        value = getattr(telegram, name)
        getattr(told, name).count, getattr(told, name).code = u32(value.count), u8(value.code)
    told.clock.year = u16(telegram.clock.year)
    for name in _CLOCK[1:]:
        setattr(told.clock, name, u8(getattr(telegram.clock, name)))
    return told


def cjt_check_line(line: Iterable[int]) -> CjtKind:
    """What an accepted CJ/T 188 line is.

    >>> cjt_check_line(cjt_write_line(CjtTelegram(CjtKind.REQUEST, 0x20, broadcast=True)))
    <CjtKind.REQUEST: 1>
    """
    return CjtKind(call("cjt_check_line", *lent_bytes(body(line))))


def cjt_read_line(line: Iterable[int]) -> CjtTelegram:
    """The telegram of a CJ/T 188 line; up to five FE in front of it are skipped.

    >>> request = CjtTelegram(CjtKind.REQUEST, 0x20, 11110012345678, serial=3)
    >>> cjt_read_line([0x1FE, 0x1FE] + cjt_write_line(request)) == request
    True
    """
    told = CjtTelegramRecord()
    call("cjt_read_line", *characters(line), *record(told))
    return _telegram_of(told)


def cjt_write_line(telegram: CjtTelegram) -> list[int]:
    """The CJ/T 188 line of a telegram, without FE in front.

    >>> answer = CjtTelegram(CjtKind.ANSWER, 0x20, 11110012345678, state=bytes([1, 2]), cold=CjtValue(0, names.CJT_KWH),
    ...     heat=CjtValue(212234, names.CJT_KWH), power=CjtValue(5, names.CJT_W), flow=CjtValue(6, names.CJT_M3_H),
    ...     volume=CjtValue(7, names.CJT_M3), inlet=7812, outlet=6534, hours=8, clock=CjtClock(2026, 11, 16, 10, 30, 59))
    >>> len(cjt_write_line(answer)), cjt_read_line(cjt_write_line(answer)) == answer
    (59, True)
    """
    line = (ctypes.c_uint16 * names.CJT_LINE_MOST)()
    count = call("cjt_write_line", *record(_record_of(telegram)), line, size(names.CJT_LINE_MOST))
    return list(line[:count])


def cjt_energy_entry(count: int, code: int) -> Entry:
    """An energy of a CJ/T 188 meter as an M-Bus entry, with the same exact value.

    >>> entry = cjt_energy_entry(212234, names.CJT_KWH)
    >>> entry.exact == 2122340, entry.meaning.unit
    (True, <Unit.WH: 1>)
    """
    entry = EntryRecord()
    call("cjt_energy_entry", u32(count), u8(code), *record(entry))
    return entry_of(entry)
