"""A whole job's figures."""

from __future__ import annotations

import ctypes
import dataclasses
from typing import TYPE_CHECKING, List, Optional

from ._coefficients import CoefficientSet, lent
from ._given import plain
from ._library import LIBRARY, Figures
from ._limits import MAX_MEMBERS
from ._refusals import answered

if TYPE_CHECKING:
    from _typeshed import ReadableBuffer as Bytes

VERDICTS = {1: "below", 2: "close", 3: "above"}
"""The words of the verdicts by their numbers; 0 is none."""

NONE = 2**64 - 1
"""An equilibrium factor or a working level where there is none."""


@dataclasses.dataclass(frozen=True)
class WorkingLevels:
    """The equilibrium factor, in millionths, and millionths of a working level."""

    equilibrium: int
    micro: int


@dataclasses.dataclass(frozen=True)
class Report:
    """What an accepted job's report says.

    factors: every member's factor in grains of 2^-40 of the parent's activity, the parent first.
    concentration: the parent's concentration in indoor air, mBq/m3.
    verdict: 'below', 'close' or 'above': whether the risk or the yearly dose passes the target.
    level: the screening level, the highest concentration that is 'below', mBq/m3.
    working: None where no later member of the chain has alpha energy without ventilation.
    set: whose coefficients the verdict, the level and the working levels are of. The factors do not depend on it.
    """

    factors: List[int]
    concentration: int
    verdict: str
    level: int
    working: Optional[WorkingLevels]
    set: CoefficientSet


def screen(job: Bytes) -> Report:
    """What the report of a whole job says: its 48 bytes and its chain book. Raises Refused where the job is refused."""
    return screen_with(job, None)


def screen_with(job: Bytes, coefficients: Optional[Bytes]) -> Report:
    """The same with a second set of coefficients in use, where one is lent beside the book.

    coefficients: 20 bytes for each member of the book, in its order, as Coefficients writes them; None where none is lent.
    But for `set` it is then the report of the job whose book has the second set written over its own numbers.
    Raises Refused where the job or the set is refused. A set that is lent and empty is refused as one of a wrong length, so that nobody
    gets the book's verdict for it.
    """
    data, second = plain(job, "job"), lent(coefficients)
    in_use, figures, places = ctypes.c_uint32(), Figures(), (ctypes.c_uint64 * MAX_MEMBERS)()
    written = (ctypes.byref(in_use), ctypes.byref(figures), places, MAX_MEMBERS)
    count = answered(LIBRARY.jelmorand_screen_with(data, len(data), second, len(second), *written))
    return Report(
        factors=list(places[:count]),
        concentration=figures.concentration,
        verdict=VERDICTS[figures.verdict],
        level=figures.level,
        working=_working(figures),
        set=CoefficientSet(in_use.value),
    )


def _working(figures: Figures) -> Optional[WorkingLevels]:
    return None if figures.equilibrium == NONE else WorkingLevels(figures.equilibrium, figures.working)
