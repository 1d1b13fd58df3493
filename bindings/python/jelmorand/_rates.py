"""A chain book at many rates, in one run."""

from __future__ import annotations

import ctypes
from typing import TYPE_CHECKING, Iterable, List, SupportsIndex, Union

from ._given import listed_rates, plain
from ._library import LIBRARY
from ._limits import MAX_MEMBERS
from ._refusals import Refused, answered

if TYPE_CHECKING:
    from _typeshed import ReadableBuffer as Bytes


def factors_at_rates(rates: Iterable[SupportsIndex], book: Bytes) -> List[Union[List[int], Refused]]:
    """The factor of every member of a chain book at each of many rates, in one run for which the book is read once.

    rates: hundredths of an air change per hour, each 0 to 100,000; any number of them, in any order.
    book: the bytes of the chain book.
    Answers for each rate, in the list's order, the list that `factors` answers. Where `factors` raises Refused, that stands in the list's
    place and is not raised: a rate that is too high is refused by itself, and a book that is not accepted at every rate. Raises
    ValueError for a rate below 0, and TypeError for one that is no whole number.
    """
    listed, data = listed_rates(rates), plain(book, "book")
    count, room = len(listed), len(listed) * MAX_MEMBERS
    answers, rows = (ctypes.c_int64 * count)(), (ctypes.c_uint64 * room)()
    run = answered(LIBRARY.jelmorand_factors_at_rates(listed, count, data, len(data), MAX_MEMBERS, answers, count, rows, room))
    return [_row(answers[k], rows, k * MAX_MEMBERS) for k in range(run)]


def _row(answer: int, rows: ctypes.Array[ctypes.c_uint64], at: int) -> Union[List[int], Refused]:
    """What stands for a rate whose row begins at this place."""
    return Refused(-answer) if answer < 0 else rows[at : at + answer]
