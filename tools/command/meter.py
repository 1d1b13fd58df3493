"""The level as the meter would show it: the highest reading, without uncertainty, whose concentration indoors is no higher.

The programs round a reading up on its way into the room's air, so this goes back the same way and rounds down. What comes
out is screened itself before it is shown.
"""

from fractions import Fraction
from math import floor
import struct

from textform.indoors import PER_UNIT, share_indoors
from textform.remarks import MOST
from textform.words import bits_not_below, number_of

from .numerals import decimal
from .programs import screened
from .tool import Failure

DIGITS = 4  # of what is shown
VALUE_AT = 16  # of a job's bytes; its uncertainty follows


def most_in_medium(level, job):
    """The highest whole mBq/m³ in the medium that is no more than the level indoors, and that a job can hold."""
    share = share_indoors(job)
    return min(MOST, floor(level / share)) if share else MOST


def highest_reading(level, job, size=1):
    """(n, places): n of 10^-places of the meter's unit, the highest of so many digits. The size is that of the meter's unit
    in the bytes' own."""
    most, scale = most_in_medium(level, job), PER_UNIT[job.unit] * size
    if most == 0:
        return 0, 0
    places = places_for(Fraction(most, scale))
    number = floor(Fraction(most, scale) * 10**places)
    held = number_of(bits_not_below(Fraction(number * size, 10**places)))  # a job holds the next f64 above
    return (number if held * PER_UNIT[job.unit] <= most else number - 1), places


def places_for(number):
    """How many decimal places show a number with so many digits."""
    places = 0
    while number * 10**places < 10 ** (DIGITS - 1):
        places += 1
    return places


def with_reading(number, places, data, size=1):
    """The job with this reading, and no uncertainty."""
    bits = bits_not_below(Fraction(number * size, 10**places))
    return data[:VALUE_AT] + struct.pack("<QQ", bits, 0) + data[VALUE_AT + 16 :]


def level_on_meter(level, job, data, size, second=None):
    """The reading in digits. The proved program that the level is of has the last word on it."""
    number, places = highest_reading(level, job, size)
    at = screened(with_reading(number, places, data, size), second)
    if at.verdict != "below" or at.concentration > level:
        program = "screen" if second is None else "partner"
        raise Failure(f"the level in the meter's unit: {program} does not agree with it, so nothing is shown")
    return decimal(number, places)
