"""Hours per day: read as people say them into the quarter hours that a job holds, and written back."""

import re
from fractions import Fraction
from math import floor

from .words import Mistake, exact, hint, shown

MOST_QUARTERS = 96  # of a day; screen refuses more
DAY = MOST_QUARTERS // 4  # hours
MOST_HELD = 65_535  # quarter hours that the field in the bytes has room for
CLOCK = re.compile(r"([0-9]+)(?::([0-9]{2})| ?h ?([0-9]{1,2}))\Z")
DECIMAL_MINUTES = re.compile(r"([0-9]+)\.(15|30|45)\Z")
FORM = "hours such as 8, 7.75, 7:45 or 7 h 45; after : or h stand the minutes, 00, 15, 30 or 45"


def may_be_whole_hours(*quarters):
    """Whether a job's quarter hours could be whole hours, which jobs used to hold: nothing in the bytes tells the two apart."""
    return 0 < max(quarters) <= DAY


def quarters_of(words, what, line):
    """The quarter hours that the words say. What is no whole number of them is never rounded, but a mistake."""
    said = " ".join(words)
    hours = hours_said(said, what, line)
    if hours is None:
        raise Mistake(f"{what} {shown(said)}: {FORM}{hint(said, None, None)}", line)
    quarters = 4 * hours
    if quarters.denominator == 1 and quarters <= MOST_HELD:
        return int(quarters)
    expected = f"at most {hours_text(MOST_QUARTERS)}" if quarters > MOST_QUARTERS else nearest(floor(quarters), said)
    raise Mistake(f"{what} {shown(said)}: {expected}", line)


def hours_said(said, what, line):
    """The exact hours, or None where the words say none.

    `7 h` says none: where a line ends in `7 h 45`, what is breathed was left out, and 45 would be taken for it.
    """
    parts = CLOCK.match(said)
    if not parts:
        return exact(said, what, line)
    minutes = int(parts[2] or parts[3])
    return exact(parts[1], what, line) + Fraction(minutes, 60) if minutes < 60 else None


def nearest(lower, said):
    """What to say of hours between two quarters; 7.45 may have been meant for 7:45, which is neither of the nearest."""
    quarters = (lower, lower + 1)
    expected = f"whole quarter hours, so {' or '.join(map(decimal, quarters))} ({' or '.join(map(clock, quarters))})"
    minutes = DECIMAL_MINUTES.match(said)
    meant = f"; {minutes[1]} hours {minutes[2]} minutes are {minutes[1]}:{minutes[2]}" if minutes else ""
    return f"{expected}; the longer one errs on the safe side{meant}"


def decimal(quarters):
    return f"{quarters // 4}{('', '.25', '.5', '.75')[quarters % 4]}"


def clock(quarters):
    return f"{quarters // 4}:{quarters % 4 * 15:02}"


def hours_text(quarters):
    """The hours as a text says them: `8`, `7:45`."""
    return clock(quarters) if quarters % 4 else str(quarters // 4)
