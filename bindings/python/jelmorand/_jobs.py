"""The 48 bytes of a job, from its values. docs/FORMAT.md has the bytes; whether they are accepted, the library says."""

from __future__ import annotations

import dataclasses
import decimal
import enum
import math
import numbers
import struct
from typing import NamedTuple, Union

from ._given import MOST_32_BITS, rate_of, whole

JOB_LENGTH = 48
"""The bytes of a job before its chain book."""

_MOST_16_BITS = 2**16 - 1


class Kind(enum.IntEnum):
    """What is screened."""

    RISK = 0
    DOSE = 1


class Medium(enum.IntEnum):
    """Where the meter read."""

    INDOOR_AIR = 0
    SOIL_GAS = 1
    GROUNDWATER = 2


class Unit(enum.IntEnum):
    """The unit of value and uncertainty."""

    PCI_PER_L = 0
    PCI_PER_M3 = 1
    BQ_PER_M3 = 2


class Group(NamedTuple):
    """A group's exposure: days per year, years, quarter hours per day (not hours) and breathing in m3 per day."""

    days: int
    years: int
    quarter_hours: int
    breathing: int


class Exposure(NamedTuple):
    """The exposure of both groups."""

    child: Group
    adult: Group


RESIDENTIAL = Exposure(child=Group(350, 6, 96, 10), adult=Group(350, 20, 96, 20))
"""The residential defaults of source 001."""

WORKER = Exposure(child=Group(0, 0, 0, 0), adult=Group(250, 25, 32, 60))
"""The worker defaults of source 001."""

Reading = Union[float, numbers.Real, decimal.Decimal]


@dataclasses.dataclass(frozen=True)
class Job:
    """A job without its book: `bytes(job) + bytes(book)` is what `screen` takes. Nothing has a default, since what is left out
    would clear rooms.

    rate: hundredths of an air change per hour.
    target: billionths of risk, or thousandths of a mrem per year.
    attenuation: from the medium to the room, in millionths; 1,000,000 for indoor air.
    value, uncertainty: the meter's, in the unit. What no float holds, such as Decimal("0.3"), becomes the next float above it.
    """

    rate: int
    kind: Kind
    medium: Medium
    unit: Unit
    target: int
    attenuation: int
    value: Reading
    uncertainty: Reading
    exposure: Exposure

    def __bytes__(self) -> bytes:
        head = struct.pack("<I4B", rate_of(self.rate), *self._codes(), 0)
        target = whole(self.target, "a target is a whole number", MOST_32_BITS)
        attenuation = whole(self.attenuation, "an attenuation is a whole number of millionths", MOST_32_BITS)
        reading = (_upwards(self.value, "value"), _upwards(self.uncertainty, "uncertainty"))
        return head + struct.pack("<2I2d8H", target, attenuation, *reading, *self._groups())

    def _codes(self) -> list[int]:
        """A plain number could stand for any of the three, so only their own names are taken."""
        for name, named in (("kind", Kind), ("medium", Medium), ("unit", Unit)):
            if not isinstance(getattr(self, name), named):
                raise TypeError(f"{name} is a jelmorand.{named.__name__}, not {getattr(self, name)!r}")
        return [self.kind, self.medium, self.unit]

    def _groups(self) -> list[int]:
        child, adult = self.exposure
        what = "a group has whole numbers of days, years, quarter hours and m3"
        return [whole(number, what, _MOST_16_BITS) for number in (*Group(*child), *Group(*adult))]


def _upwards(number: Reading, what: str) -> float:
    """The number itself where a float holds it, and the next float above it otherwise: a reading is never rounded down."""
    if not isinstance(number, (numbers.Real, decimal.Decimal)):
        raise TypeError(f"{what} is a number, not {number!r}")
    near = float(number)
    return math.nextafter(near, math.inf) if near < number else near
