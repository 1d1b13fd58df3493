"""Which entries of a table that comes from elsewhere agree with a chain book."""

from __future__ import annotations

import ctypes
import dataclasses
from typing import TYPE_CHECKING, NamedTuple, Optional, Union

from ._given import plain, plain_text
from ._library import LIBRARY
from ._refusals import answered

if TYPE_CHECKING:
    from _typeshed import ReadableBuffer as Bytes

_Numbers = ctypes.c_uint64 * 5


class Place(NamedTuple):
    """Where an entry stands in a table: the line, from 1, and the member, from 0, the parent gas."""

    line: int
    member: int


@dataclasses.dataclass(frozen=True)
class Marks:
    """How many of a table's entries have each mark, and where the first wrong one is.

    The exact factor of member i is somewhere from the grains that `factors` answers to 2i grains above them, and at most the parent's.

    right: entries of which half a unit of the last printed place holds all of that range, so the exact factor.
    wrong: entries of which it holds nothing of that range, so not the exact factor.
    close: the others.
    first: the first wrong one in reading order; None where none is.
    """

    right: int
    close: int
    wrong: int
    first: Optional[Place]


def marks(text: Union[str, Bytes], book: Bytes) -> Marks:
    """The marks of a table by a chain book.

    text: a table in the form that `table` writes: 1 to 200 lines, each a rate and an entry for each member of the book, and nothing
    else. Bytes are taken as they are; where a file is read as a str, Python makes a line feed of a carriage return with one.
    book: the bytes of the chain book.
    Raises Refused where the book is not accepted, or the text is not of the form or has a rate over 100,000. What `table` writes of
    the same book is never wrong.
    """
    table, data, numbers = plain_text(text, "a table"), plain(book, "book"), _Numbers()
    answered(LIBRARY.jelmorand_marks(table, len(table), data, len(data), numbers))
    right, close, wrong, line, member = numbers
    return Marks(right, close, wrong, Place(line, member) if wrong else None)
