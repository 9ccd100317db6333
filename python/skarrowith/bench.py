"""The bench: wake-up, gap, error of indication and resistance box."""
from __future__ import annotations

import ctypes

from . import names
from ._library import call, size, u32, u64


def write_wake(count: int) -> list[int]:
    """A wake-up of WAKE_LEAST to WAKE_MOST characters.

    >>> write_wake(459) == [0x055] * 459
    True
    >>> write_wake(458)
    Traceback (most recent call last):
        ...
    skarrowith.Refusal: 52: wake-up count outside 459-502
    """
    line = (ctypes.c_uint16 * names.WAKE_MOST)()
    call("write_wake", size(count), line, size(names.WAKE_MOST))
    return list(line[:count])


def gap(ended: int, begins: int) -> None:
    """Tests the gap between a wake-up's end and the beginning of the command after it, in bit times.

    >>> gap(5000, 5100)
    >>> gap(5000, 5032)
    Traceback (most recent call last):
        ...
    skarrowith.Refusal: 50: command begins less than 33 after the wake-up's end, or before it
    """
    call("gap", u64(ended), u64(begins))


def error(m1: int, m2: int, s1: int, s2: int) -> int:
    """The error of indication in tenths of a percent, from the meter's counts and the standard's.

    >>> error(0, 10005, 0, 10000)
    1
    """
    tenths = ctypes.c_int64()
    call("error", u64(m1), u64(m2), u64(s1), u64(s2), ctypes.byref(tenths), size(1))
    return tenths.value


def resistance(hundredths: int) -> int:
    """The resistance in milliohm that stands for a temperature in hundredths of a degree Celsius.

    >>> resistance(10000)
    1385055
    """
    milliohm = ctypes.c_uint32()
    call("resistance", u32(hundredths), ctypes.byref(milliohm))
    return milliohm.value


def temperature(milliohm: int) -> int:
    """The highest temperature, in hundredths of a degree Celsius, whose resistance is not above this one.

    >>> temperature(1385055)
    10000
    """
    hundredths = ctypes.c_uint32()
    call("temperature", u32(milliohm), ctypes.byref(hundredths))
    return hundredths.value
