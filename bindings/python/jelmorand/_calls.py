"""The calls that answer a list, a text or a rate."""

from __future__ import annotations

import ctypes
import dataclasses
from typing import TYPE_CHECKING, Iterable, List, Optional, SupportsIndex, Tuple

from ._coefficients import CoefficientSet, lent
from ._given import listed_periods, listed_rates, plain, rate_of
from ._library import LIBRARY
from ._limits import MAX_MEMBERS, NO_RATE, REPORT_ROOM, TABLE_ROOM
from ._refusals import answered

if TYPE_CHECKING:
    from _typeshed import ReadableBuffer as Bytes


def factors(rate: SupportsIndex, book: Bytes) -> List[int]:
    """The factor of every member of a chain book at a rate, in grains of 2^-40 of the parent's activity, the parent first.

    rate: hundredths of an air change per hour, 0 to 100,000.
    book: the bytes of the chain book.
    Raises Refused where the rate is too high or the book is not accepted, ValueError for a rate below 0, and TypeError for one that
    is no whole number.
    """
    given, data = rate_of(rate), plain(book, "book")
    places = (ctypes.c_uint64 * MAX_MEMBERS)()
    count = answered(LIBRARY.jelmorand_factors(given, data, len(data), places, MAX_MEMBERS))
    return list(places[:count])


def factors_after(periods: Iterable[Tuple[SupportsIndex, SupportsIndex]], book: Bytes) -> List[int]:
    """The factor of every member of a chain book after periods of airing, minute by minute from a shut room, in which all but the
    parent are 0; in grains as in `factors`, the parent first.

    periods: pairs of a rate and minutes, as in [(0, 480), (200, 60)] for eight hours without airing and one with two air changes; 1
    to 32 of them. A rate is in hundredths of an air change per hour, 0 to 100,000, and a period has 1 to 1,440 minutes.
    book: the bytes of the chain book.
    Raises Refused where a rate is too high, the periods are not as said or the book is not accepted, ValueError for a number below
    0, and TypeError for what is no pair of whole numbers.
    """
    listed, data = listed_periods(periods), plain(book, "book")
    places = (ctypes.c_uint64 * MAX_MEMBERS)()
    count = answered(LIBRARY.jelmorand_factors_after(listed, len(listed), data, len(data), places, MAX_MEMBERS))
    return list(places[:count])


def table(rates: Iterable[SupportsIndex], book: Bytes) -> str:
    """The table of a chain book, for printing. Each rate has one line, in the list's order: the rate, then every member's factor as
    its share of the parent's, such as 5.000E-01, rounded to the nearest, halves up.

    rates: hundredths of an air change per hour, each 0 to 100,000; 1 to 200 of them, in any order.
    book: the bytes of the chain book.
    Raises Refused where a rate is too high, the book is not accepted or there are no rates or too many, ValueError for a rate below
    0, and TypeError for one that is no whole number.
    """
    listed, data = listed_rates(rates), plain(book, "book")
    room = ctypes.create_string_buffer(TABLE_ROOM)
    length = answered(LIBRARY.jelmorand_table(listed, len(listed), data, len(data), room, TABLE_ROOM))
    return room.raw[:length].decode("ascii")


def report(job: Bytes) -> str:
    """The lines that the program `screen` writes of a whole job: its 48 bytes and its chain book."""
    data = plain(job, "job")
    room = ctypes.create_string_buffer(REPORT_ROOM)
    length = answered(LIBRARY.jelmorand_report(data, len(data), room, REPORT_ROOM))
    return room.raw[:length].decode("ascii")


def lowest_rate(job: Bytes) -> Optional[int]:
    """The lowest rate at which the verdict on a whole job is 'below', in hundredths of an air change per hour; None where no rate
    from 0 to 100,000 gives it. The job's own rate is checked, and otherwise ignored. Raises Refused where the job is refused."""
    return lowest_rate_with(job, None).rate


@dataclasses.dataclass(frozen=True)
class LowestRate:
    """A job's lowest rate, None where no rate is enough, and whose coefficients it is of."""

    rate: Optional[int]
    set: CoefficientSet


def lowest_rate_with(job: Bytes, coefficients: Optional[Bytes]) -> LowestRate:
    """The lowest rate as `lowest_rate` answers it, with a second set of coefficients in use where one is lent, as in `screen_with`."""
    data, second, in_use = plain(job, "job"), lent(coefficients), ctypes.c_uint32()
    rate = answered(LIBRARY.jelmorand_lowest_rate_with(data, len(data), second, len(second), ctypes.byref(in_use)))
    return LowestRate(None if rate == NO_RATE else rate, CoefficientSet(in_use.value))
