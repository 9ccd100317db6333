"""The run bundle: what was sent and heard in a run."""
from __future__ import annotations

import ctypes
from dataclasses import dataclass
from typing import Iterable

from . import names
from ._library import body, call, lent_bytes, record, size, u8, u32, u64


@dataclass(frozen=True)
class Row:
    """A row; direction is SENT or HEARD, and the body is `length` bytes from `offset` on, two for each character."""

    position: int
    direction: int
    time: int
    offset: int
    length: int

    def line(self, bundle: bytes) -> list[int]:
        """The characters of its line, from the bundle that it is a row of."""
        told = bundle[self.offset:self.offset + self.length]
        return [told[i] + 256 * told[i + 1] for i in range(0, len(told), 2)]


@dataclass(frozen=True)
class Salvaged:
    """What could be kept of a damaged bundle, and the rule that the first dropped row breaks, 0 for none."""

    bundle: bytes
    kept: int
    dropped: int
    rule: int


class RowRecord(ctypes.Structure):
    _fields_ = [("time", ctypes.c_uint32), ("offset", ctypes.c_uint32), ("length", ctypes.c_uint16), ("position", ctypes.c_uint8),
                ("direction", ctypes.c_uint8)]


class SalvagedRecord(ctypes.Structure):
    _fields_ = [("kept", ctypes.c_uint64), ("dropped", ctypes.c_uint64), ("rule", ctypes.c_uint64), ("filled", ctypes.c_uint64)]


class Contents(ctypes.Structure):
    """The contents of a bundle in columns, for who looks rows up often; place i of each list is row i."""

    _fields_ = [("count", ctypes.c_uint64), ("positions", ctypes.c_uint8 * 512), ("directions", ctypes.c_uint8 * 512),
                ("times", ctypes.c_uint32 * 512), ("offsets", ctypes.c_uint32 * 512), ("lengths", ctypes.c_uint16 * 512)]


def _row_of(told: RowRecord) -> Row:
    return Row(told.position, told.direction, told.time, told.offset, told.length)


def _buffer(bundle: bytes) -> ctypes.Array[ctypes.c_uint8]:
    """Room for the largest bundle, with this one in front; a longer one has room too, and is refused."""
    buffer = (ctypes.c_uint8 * max(names.BUNDLE_MOST, len(bundle)))()
    ctypes.memmove(buffer, bundle, len(bundle))
    return buffer


def bundle_check(bundle: bytes) -> int:
    """The count of rows of a bundle.

    >>> bundle_check(bytes.fromhex("0100 0701 00000000 0E000000 0200 E501"))
    1
    >>> bundle_check(b"")
    Traceback (most recent call last):
        ...
    skarrowith.Refusal: 31: bundle: under two bytes
    """
    rows = ctypes.c_size_t()
    call("bundle_check", *lent_bytes(bundle), ctypes.byref(rows))
    return rows.value


def bundle_row(bundle: bytes, i: int) -> Row:
    """Row i of a bundle, counted from 0.

    >>> bundle = bundle_add(bytes(2), 7, names.HEARD, 250, [0x1E5])
    >>> bundle_row(bundle, 0)
    Row(position=7, direction=1, time=250, offset=14, length=2)
    >>> bundle_row(bundle, 0).line(bundle) == [0x1E5]
    True
    """
    row = RowRecord()
    call("bundle_row", *lent_bytes(bundle), size(i), *record(row))
    return _row_of(row)


def _row_more(buffer, filled, position: int, direction: int, time: int, line: Iterable[int]) -> tuple:
    return buffer, size(len(buffer)), ctypes.byref(filled), u8(position), u8(direction), u32(time), *lent_bytes(body(line))


def bundle_add(bundle: bytes, position: int, direction: int, time: int, line: Iterable[int]) -> bytes:
    """The bundle with one row more; an empty one is two bytes of 0.

    >>> bundle_list(bundle_add(bytes(2), 7, names.HEARD, 0, [0x1E5]))
    'position,direction,time,line\\n7,heard,0,ack\\n'
    """
    buffer, filled = _buffer(bundle), size(len(bundle))
    call("bundle_add", *_row_more(buffer, filled, position, direction, time, line))
    return bytes(buffer[:filled.value])


def bundle_insert(bundle: bytes, position: int, direction: int, time: int, line: Iterable[int]) -> bytes:
    """The bundle with one row more, behind the last whose time is not above its own.

    >>> bundle = bundle_add(bundle_add(bytes(2), 7, names.HEARD, 0, [0x1E5]), 8, names.HEARD, 9, [0x1E5])
    >>> bundle_list(bundle_insert(bundle, 3, names.SENT, 5, [0x1E5]))
    'position,direction,time,line\\n7,heard,0,ack\\n3,sent,5,ack\\n8,heard,9,ack\\n'
    """
    buffer, filled = _buffer(bundle), size(len(bundle))
    call("bundle_insert", *_row_more(buffer, filled, position, direction, time, line))
    return bytes(buffer[:filled.value])


def bundle_sweep(bundle: bytes, position: int = 0) -> bytes:
    """The bundle without its wake-ups and the rows of a position; 0 names none.

    >>> bundle = bundle_add(bundle_add(bytes(2), 7, names.SENT, 0, [0x055] * 480), 7, names.HEARD, 6000, [0x1E5])
    >>> bundle_check(bundle), bundle_check(bundle_sweep(bundle)), bundle_check(bundle_sweep(bundle, 7))
    (2, 1, 0)
    """
    buffer, filled = _buffer(bundle), size(len(bundle))
    call("bundle_sweep", buffer, size(len(buffer)), ctypes.byref(filled), u8(position))
    return bytes(buffer[:filled.value])


def bundle_salvage(damaged: bytes) -> Salvaged:
    """What can be kept of a bundle that was cut short.

    >>> bundle = bundle_add(bundle_add(bytes(2), 7, names.HEARD, 0, [0x1E5]), 8, names.HEARD, 9, [0x1E5])
    >>> told = bundle_salvage(bundle[:-1])
    >>> told.kept, told.dropped, told.rule, bundle_check(told.bundle)
    (1, 1, 35, 1)
    """
    out, told = (ctypes.c_uint8 * names.BUNDLE_MOST)(), SalvagedRecord()
    call("bundle_salvage", *lent_bytes(damaged), out, size(names.BUNDLE_MOST), *record(told))
    return Salvaged(bytes(out[:told.filled]), told.kept, told.dropped, told.rule)


def bundle_of_position(bundle: bytes, position: int) -> bytes:
    """The rows of one position as a bundle of their own.

    >>> bundle = bundle_add(bundle_add(bytes(2), 7, names.HEARD, 0, [0x1E5]), 8, names.HEARD, 9, [0x1E5])
    >>> bundle_row(bundle_of_position(bundle, 8), 0)
    Row(position=8, direction=1, time=9, offset=14, length=2)
    """
    out, filled = _buffer(bundle), ctypes.c_size_t()
    call("bundle_of_position", *lent_bytes(bundle), u8(position), out, size(len(out)), ctypes.byref(filled))
    return bytes(out[:filled.value])


def bundle_join(a: bytes, b: bytes) -> bytes:
    """The rows of two bundles by time, of equal times those of a first.

    >>> bundle = bundle_add(bundle_add(bytes(2), 7, names.HEARD, 0, [0x1E5]), 8, names.HEARD, 9, [0x1E5])
    >>> bundle_join(bundle_of_position(bundle, 8), bundle_of_position(bundle, 7)) == bundle
    True
    """
    out, filled = (ctypes.c_uint8 * names.BUNDLE_MOST)(), ctypes.c_size_t()
    call("bundle_join", *lent_bytes(a), *lent_bytes(b), out, size(names.BUNDLE_MOST), ctypes.byref(filled))
    return bytes(out[:filled.value])


def bundle_list(bundle: bytes) -> str:
    """The listing of a bundle; a refused one is listed as its number.

    >>> bundle_list(b"")
    'refused 31\\n'
    """
    out, written = (ctypes.c_uint8 * names.LISTING_MOST)(), ctypes.c_size_t()
    call("bundle_list", *lent_bytes(bundle), out, size(names.LISTING_MOST), ctypes.byref(written))
    return bytes(out[:written.value]).decode("ascii")


def contents_of(bundle: bytes) -> Contents:
    """The contents of a bundle in columns.

    >>> contents = contents_of(bundle_add(bytes(2), 7, names.HEARD, 250, [0x1E5]))
    >>> contents.count, contents.times[0]
    (1, 250)
    """
    contents = Contents()
    call("contents_of", *lent_bytes(bundle), *record(contents))
    return contents


def contents_row(contents: Contents, i: int) -> Row:
    """Row i from columns, counted from 0.

    >>> contents_row(contents_of(bundle_add(bytes(2), 7, names.HEARD, 250, [0x1E5])), 0)
    Row(position=7, direction=1, time=250, offset=14, length=2)
    """
    row = RowRecord()
    call("contents_row", *record(contents), size(i), *record(row))
    return _row_of(row)


def contents_next(contents: Contents, position: int, start: int = 0) -> int:
    """The number of the next row of a position, from row `start` on.

    >>> contents = contents_of(bundle_add(bundle_add(bytes(2), 7, names.HEARD, 0, [0x1E5]), 8, names.HEARD, 9, [0x1E5]))
    >>> contents_next(contents, 8)
    1
    >>> contents_next(contents, 7, 1)
    Traceback (most recent call last):
        ...
    skarrowith.Refusal: 39: bundle: no such row
    """
    i = ctypes.c_size_t()
    call("contents_next", *record(contents), u8(position), size(start), ctypes.byref(i))
    return i.value


def replay_error(bundle: bytes, position: int, s1: int, s2: int, elapsed: int) -> int:
    """The error of the real-time method in tenths of a percent, from the record of a run.

    >>> replay_error(bundle_add(bytes(2), 7, names.HEARD, 0, [0x1E5]), 7, 0, 1000000, 10000)
    Traceback (most recent call last):
        ...
    skarrowith.Refusal: 63: replay: fewer than two answers
    """
    tenths = ctypes.c_int64()
    call("replay_error", *lent_bytes(bundle), u8(position), u64(s1), u64(s2), u64(elapsed), ctypes.byref(tenths), size(1))
    return tenths.value
