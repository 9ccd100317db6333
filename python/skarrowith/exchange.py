"""The exchange, and the simulated meter at the other end of the line."""
from __future__ import annotations

import ctypes
import enum
from dataclasses import dataclass
from typing import Iterable, Optional

from . import names
from ._library import call, characters, record, u8, u64
from .lines import Kind, Telegram, TelegramRecord, record_of, telegram_of


class State(enum.IntEnum):
    """How an exchange stands."""

    WAITING = names.WAITING
    RESEND = names.RESEND
    WELL = names.WELL
    FAILED = names.FAILED


class Cause(enum.IntEnum):
    """Why a send failed."""

    NONE = 0
    SILENT = names.SILENT
    DAMAGED = names.DAMAGED
    WRONG_KIND = names.WRONG_KIND


class ExchangeRecord(ctypes.Structure):
    _fields_ = [("kind", ctypes.c_uint8), ("address", ctypes.c_uint8), ("method", ctypes.c_uint8), ("state", ctypes.c_uint8),
                ("cause", ctypes.c_uint8), ("sends", ctypes.c_uint8), ("zero", ctypes.c_uint8 * 2), ("began", ctypes.c_uint64),
                ("last", ctypes.c_uint64)]


class PairRecord(ctypes.Structure):
    _fields_ = [("volume", ctypes.c_uint64), ("energy", ctypes.c_uint64)]


class MeterRecord(ctypes.Structure):
    _fields_ = [("last", ctypes.c_uint64), ("address", ctypes.c_uint8), ("mode", ctypes.c_uint8), ("method", ctypes.c_uint8),
                ("zero", ctypes.c_uint8 * 5), ("since", ctypes.c_uint64), ("used", PairRecord), ("verified", PairRecord),
                ("data", TelegramRecord)]


class Exchange:
    """One request, at most three sends of it, and how it ends; one object serves for one exchange after another.

    >>> x = Exchange()
    >>> x.send_ended(Kind.ENTER, names.BROADCAST, names.START_STOP, t=110)
    <State.WAITING: 1>
    >>> x.heard([0x1E5], t=200)
    <State.WELL: 3>
    >>> x.reply.kind
    <Kind.ACK: 1>

    An answer that was left in a driver's buffer began before the send had ended, and does not count:

    >>> x.send_ended(Kind.READ, names.BROADCAST, t=1000)
    <State.WAITING: 1>
    >>> x.heard([0x1E5], t=950)
    Traceback (most recent call last):
        ...
    skarrowith.Refusal: 40: exchange: time earlier than the last step's

    Silence asks for the same request again, and after the third send it has failed:

    >>> x.tick(t=1451), x.cause
    (<State.RESEND: 2>, <Cause.SILENT: 1>)
    """

    def __init__(self) -> None:
        self._record = ExchangeRecord()
        self.reply: Optional[Telegram] = None

    @property
    def state(self) -> Optional[State]:
        """How it stands; None before the first send."""
        return State(self._record.state) if self._record.state else None

    @property
    def cause(self) -> Cause:
        """Why the last send failed."""
        return Cause(self._record.cause)

    @property
    def sends(self) -> int:
        """How many sends there were."""
        return int(self._record.sends)

    @property
    def began(self) -> int:
        """The end of the last send: answers begin then, and at most REPLY_TIME later."""
        return int(self._record.began)

    def send_ended(self, kind: Kind, address: int, method: int = 0, *, t: int) -> State:
        """A send has ended at t: it begins an exchange, or is the resend that one asks for."""
        state = State(call("exchange_send_ended", *record(self._record), u8(kind), u8(address), u8(method), u64(t)))
        self.reply = None
        return state

    def heard(self, line: Iterable[int], *, t: int) -> State:
        """A line was heard that began at t; where it ends the exchange well, `reply` is its telegram."""
        reply = TelegramRecord()
        state = State(call("exchange_heard", *record(self._record), *characters(line), u64(t), *record(reply)))
        if state is State.WELL:
            self.reply = telegram_of(reply)
        return state

    def tick(self, *, t: int) -> State:
        """No line has begun up to t."""
        return State(call("exchange_tick", *record(self._record), u64(t)))


@dataclass(frozen=True)
class Pair:
    """A pair of totals, each a count of the last digit that the data template gives it."""

    volume: int
    energy: int


class Meter:
    """A simulated meter, with its own address and a data template.

    >>> from skarrowith import Entry, Moment, Sort, read_line, write_line, write_request
    >>> template = Telegram(Kind.DATA, number=12345678, maker=0x4E89, version=1, meter_type=4, entries=(
    ...     Entry(0x0C, 0x03, 100), Entry(0x0C, 0x11, 200), Entry(0x0A, 0x59, 7812), Entry(0x0A, 0x5D, 6534),
    ...     Entry(0x06, 0x6D, Moment(18, 7, 23, 15, 51, 28), Sort.TIME)))
    >>> meter = Meter(5, template)
    >>> meter.heard(write_request(Kind.ENTER, names.BROADCAST, names.START_STOP), t=0)
    Telegram(kind=<Kind.ACK: 1>, address=0, method=0, number=0, maker=0, version=0, meter_type=0, access=0, status=0, entries=())
    >>> meter.in_verification
    True
    >>> meter.measure(10, 20, t=1000)
    >>> meter.heard(write_request(Kind.READ, 5), t=2000).entries[1].value
    10
    >>> meter.heard(write_request(Kind.READ, 6), t=3000) is None
    True
    """

    def __init__(self, address: int, data: Telegram) -> None:
        self._record = MeterRecord()
        call("meter_set_up", *record(self._record), u8(address), *record(record_of(data)))

    @property
    def in_verification(self) -> bool:
        """Whether the last step left it in verification."""
        return bool(self._record.mode)

    @property
    def used(self) -> Pair:
        """The totals in use."""
        return Pair(self._record.used.volume, self._record.used.energy)

    @property
    def verified(self) -> Pair:
        """The totals in verification."""
        return Pair(self._record.verified.volume, self._record.verified.energy)

    def heard(self, line: Iterable[int], *, t: int) -> Optional[Telegram]:
        """What it answers to a line heard at t; None for silence."""
        told = TelegramRecord()
        said = call("meter_heard", *record(self._record), *characters(line), u64(t), *record(told))
        return None if said == names.SILENCE else telegram_of(told)

    def measure(self, volume: int, energy: int, *, t: int) -> None:
        """Adds to the totals in force."""
        call("meter_measure", *record(self._record), u64(volume), u64(energy), u64(t))
