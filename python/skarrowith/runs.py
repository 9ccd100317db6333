"""What happened in a run: verdicts of the rows of a bundle, readings that were given twice, and a picture."""
from __future__ import annotations

import ctypes
from dataclasses import dataclass
from enum import IntEnum

from . import names
from ._library import call, lent_bytes, record, size
from .bundles import Contents


class Outcome(IntEnum):
    """What became of a row that was sent or heard."""

    WAKE = names.VERDICT_WAKE
    FIRST_SEND = names.VERDICT_FIRST_SEND
    RESEND = names.VERDICT_RESEND
    REFUSED = names.VERDICT_REFUSED
    COUNTS = names.VERDICT_COUNTS
    LEFT_OVER = names.VERDICT_LEFT_OVER
    LATE = names.VERDICT_LATE
    SECOND = names.VERDICT_SECOND
    DAMAGED = names.VERDICT_DAMAGED
    WRONG_KIND = names.VERDICT_WRONG_KIND
    UNASKED = names.VERDICT_UNASKED


@dataclass(frozen=True)
class Verdict:
    """The verdict of a row, with the number of the refusal where it was refused or damaged, else 0."""

    outcome: Outcome
    number: int


class VerdictRecord(ctypes.Structure):
    _fields_ = [("verdict", ctypes.c_uint16), ("number", ctypes.c_uint16)]


ROWS_MOST = 512


def _verdict_of(told: VerdictRecord) -> Verdict:
    return Verdict(Outcome(told.verdict), told.number)


def verdict(bundle: bytes, i: int) -> Verdict:
    """The verdict of row i, counted from 0. Who wants those of many rows asks for all.

    >>> from skarrowith import bundle_add, HEARD
    >>> verdict(bundle_add(bytes(2), 7, HEARD, 0, [0x1E5]), 0)
    Verdict(outcome=<Outcome.UNASKED: 11>, number=0)
    """
    told = VerdictRecord()
    call("verdict", *lent_bytes(bundle), size(i), *record(told))
    return _verdict_of(told)


def verdicts(bundle: bytes) -> list[Verdict]:
    """The verdicts of all rows, in one walk.

    >>> from skarrowith import bundle_add, write_request, Kind, HEARD, SENT
    >>> bundle = bundle_add(bytes(2), 7, SENT, 0, write_request(Kind.LEAVE, 7))
    >>> bundle = bundle_add(bundle, 7, HEARD, 100, [0x1E5])
    >>> bundle = bundle_add(bundle, 7, HEARD, 200, [0x1E5])
    >>> [told.outcome.name for told in verdicts(bundle)]
    ['FIRST_SEND', 'LEFT_OVER', 'COUNTS']
    """
    told, count = (VerdictRecord * ROWS_MOST)(), ctypes.c_size_t()
    call("verdicts", *lent_bytes(bundle), told, size(ctypes.sizeof(told)), ctypes.byref(count))
    return [_verdict_of(told[i]) for i in range(count.value)]


def contents_verdicts(contents: Contents, bundle: bytes) -> list[Verdict]:
    """The verdicts of rows in columns, whose bodies lie in the bundle.

    >>> from skarrowith import bundle_add, contents_of, HEARD
    >>> bundle = bundle_add(bytes(2), 7, HEARD, 0, [0x0E5])
    >>> contents_verdicts(contents_of(bundle), bundle) == verdicts(bundle)
    True
    """
    told, count = (VerdictRecord * ROWS_MOST)(), ctypes.c_size_t()
    call("contents_verdicts", *record(contents), *lent_bytes(bundle), told, size(ctypes.sizeof(told)), ctypes.byref(count))
    return [_verdict_of(told[i]) for i in range(count.value)]


def repeats(bundle: bytes) -> list[int | None]:
    """For each row the lowest earlier one with the same meter number and the same reading, or None.

    >>> from skarrowith import bundle_add, HEARD
    >>> repeats(bundle_add(bytes(2), 7, HEARD, 0, [0x1E5]))
    [None]
    """
    rows, count = (ctypes.c_uint16 * ROWS_MOST)(), ctypes.c_size_t()
    call("repeats", *lent_bytes(bundle), rows, size(ROWS_MOST), ctypes.byref(count))
    return [rows[i] - 1 if rows[i] else None for i in range(count.value)]


def picture(bundle: bytes) -> str:
    """A picture of the run, as the text of an SVG.

    >>> picture(bytes(2)).startswith("<svg")
    True
    """
    out, written = (ctypes.c_uint8 * names.PICTURE_MOST)(), ctypes.c_size_t()
    call("picture", *lent_bytes(bundle), out, size(names.PICTURE_MOST), ctypes.byref(written))
    return bytes(out[:written.value]).decode("ascii")
