"""The shared library: how it is found and called, and what a refusal is."""
from __future__ import annotations

import ctypes
import ctypes.util
import os
from typing import Iterable

from . import names


class Refusal(Exception):
    """A refusal by the rules: `number` is that of docs/REFUSALS.md, `words` are the library's.

    Nothing that was handed to the call has changed.
    """

    def __init__(self, number: int) -> None:
        self.number = number
        self.words = refusal_text(number)
        super().__init__(f"{number}: {self.words}")


Refusal.__module__ = "skarrowith"


def _load() -> ctypes.CDLL:
    """The library that SKARROWITH_LIBRARY names, or the one that is installed, if it goes with this module."""
    name = os.environ.get("SKARROWITH_LIBRARY") or ctypes.util.find_library("skarrowith") or f"libskarrowith.so.{names.VERSION_MAJOR}"
    try:
        library = ctypes.CDLL(name)
    except OSError as error:
        raise ImportError(f"{name} cannot be loaded; SKARROWITH_LIBRARY may name the library: {error}") from None
    number = library.skarrowith_version() & 0xFFFFFFFF
    if number >> 16 != names.VERSION_MAJOR or number < names.VERSION:
        raise ImportError(f"{name} is of version {number >> 16}.{number >> 8 & 255}.{number & 255}, and {names.VERSION_TEXT} is wanted")
    return library


_library = _load()


def answer(name: str, *arguments: object) -> int:
    """What a function of the library answers, refusals among it."""
    function = getattr(_library, "skarrowith_" + name)
    function.restype = ctypes.c_uint32
    number: int = function(*arguments)
    return number


def call(name: str, *arguments: object) -> int:
    """What a function of the library answers; a refusal is raised."""
    number = answer(name, *arguments)
    if number >= names.REFUSED:
        raise Refusal(number - names.REFUSED)
    return number


def version() -> tuple[int, int, int]:
    """The version of the library: major, minor and patch.

    >>> version() >= (1, 1, 0)
    True
    """
    number = answer("version")
    return number >> 16, number >> 8 & 255, number & 255


def refusal_text(number: int) -> str:
    """The words for a refusal number; an empty text where there are none.

    >>> refusal_text(8)
    'checksum wrong'
    >>> refusal_text(15)
    ''
    """
    out = ctypes.create_string_buffer(names.TEXT_MOST)
    said = answer("refusal_text", u32(number), out, size(names.TEXT_MOST))
    return "" if said >= names.REFUSED else out.value.decode("ascii")


def _within(value: int, bits: int) -> int:
    if not 0 <= value < 1 << bits:
        raise ValueError(f"{value} is no number of {bits} bits")
    return value


def u8(value: int) -> ctypes.c_uint8:
    return ctypes.c_uint8(_within(value, 8))


def u16(value: int) -> ctypes.c_uint16:
    return ctypes.c_uint16(_within(value, 16))


def u32(value: int) -> ctypes.c_uint32:
    return ctypes.c_uint32(_within(value, 32))


def u64(value: int) -> ctypes.c_uint64:
    return ctypes.c_uint64(_within(value, 64))


def i64(value: int) -> int:
    if not -(1 << 63) <= value < 1 << 63:
        raise ValueError(f"{value} is no number of 64 bits")
    return value


def size(value: int) -> ctypes.c_size_t:
    return ctypes.c_size_t(_within(value, 64))


def characters(line: Iterable[int]) -> tuple[ctypes.Array[ctypes.c_uint16], ctypes.c_size_t]:
    """Characters as they are lent, with how many there are."""
    items = [_within(c, 16) for c in line]
    return (ctypes.c_uint16 * len(items))(*items), size(len(items))


def lent_bytes(data: bytes) -> tuple[ctypes.Array[ctypes.c_uint8], ctypes.c_size_t]:
    """Bytes as they are lent, with how many there are."""
    return (ctypes.c_uint8 * len(data)).from_buffer_copy(data), size(len(data))


def body(line: Iterable[int]) -> bytes:
    """The characters of a line as bytes, two each, low byte first."""
    return b"".join(_within(c, 16).to_bytes(2, "little") for c in line)


def record(structure: ctypes.Structure) -> tuple[object, ctypes.c_size_t]:
    """A record as it is lent, with its size."""
    return ctypes.byref(structure), size(ctypes.sizeof(structure))
