"""Lines, exchanges, simulated meters and run bundles of a heat-meter verification bench.

A module over the shared library, with the names of skarrowith.h without its prefix, and without any other dependency. Every decision
is the library's, which is proved; this module turns bytes and numbers into Python's and back. A refusal is raised as `Refusal`, with
its number and its words; a number that no place of the library can hold is a ValueError.

>>> import skarrowith
>>> skarrowith.check_line([0x1E5])
<Kind.ACK: 1>
>>> skarrowith.check_line([0x0E5])
Traceback (most recent call last):
    ...
skarrowith.Refusal: 3: a parity is odd

A character is a number 0 to 511: the byte received, and the parity bit received as bit 8. A line is any sequence of them. Times are
counted in bit times of 1/2400 s.

>>> line = skarrowith.write_request(skarrowith.Kind.READ, skarrowith.BROADCAST)
>>> [f"{c:03X}" for c in line]
['110', '15B', '1FE', '059', '116']
>>> try:
...     skarrowith.read_line(line[:-1])
... except skarrowith.Refusal as refusal:
...     refusal.number == skarrowith.WRONG_COUNT
True

The functions of an exchange are the methods of `Exchange`, and those of the simulated meter the methods of `Meter`.
"""
from ._library import Refusal, refusal_text, version
from .bench import error, gap, resistance, temperature, write_wake
from .bundles import (Contents, Row, Salvaged, bundle_add, bundle_check, bundle_insert, bundle_join, bundle_list, bundle_of_position,
                      bundle_row, bundle_salvage, bundle_sweep, contents_next, contents_of, contents_row, replay_error)
from .cjt import CjtClock, CjtKind, CjtTelegram, CjtValue, cjt_check_line, cjt_energy_entry, cjt_read_line, cjt_write_line
from .exchange import Cause, Exchange, Meter, Pair, State
from .lines import (Entry, Found, FoundAfter, FoundEither, Interface, Kind, Meaning, Moment, Quantity, Sort, Telegram, Unit, Unmarked,
                    check_line, entry_meaning, find_either, find_line, find_line_after, line_length, read_line, unmark, write_line,
                    write_request)
from .runs import Outcome, Verdict, contents_verdicts, picture, repeats, verdict, verdicts
from .names import *  # noqa: F401,F403

__version__ = VERSION_TEXT  # noqa: F405
