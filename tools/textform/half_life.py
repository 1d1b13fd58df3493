"""Half-lives: read as a number with its unit into whole nanoseconds, and written back."""

import re
from decimal import Decimal
from fractions import Fraction

from .words import Mistake, exact, fitting, hint, shown

HALF_LIFE = re.compile(r"([0-9_.]+([eE][+-]?[0-9]+)?)([a-zA-Z]*)\Z")
NANOSECONDS = {"ns": 1, "us": 10**3, "ms": 10**6, "s": 10**9, "m": 60 * 10**9, "h": 3_600 * 10**9, "d": 86_400 * 10**9}
UNITS = "ns, us, ms, s, m (minutes), h or d"
FORM = f"a number and its unit without a space, {UNITS}, such as 3.10m"
DECIMALS = 4  # that a half-life is written with at most


def half_life(word, line):
    """A number without a unit is refused: it would be anybody's guess, and nanoseconds would be nobody's."""
    parts = HALF_LIFE.match(word)
    number = exact(parts[1], "half-life", line) if parts else None
    if number is not None and not parts[3]:
        raise Mistake(f"half-life {word}: its unit is missing, {UNITS}, without a space, such as {word}m", line)
    if number is None or parts[3] not in NANOSECONDS:
        raise Mistake(f"half-life {shown(word)}: {FORM}{hint(word, None, None)}", line)
    nanoseconds = number * NANOSECONDS[parts[3]]
    if nanoseconds.denominator != 1:
        raise Mistake(f"half-life {word}: a whole number of nanoseconds, which this is not", line)
    return fitting(int(nanoseconds), 8, f"half-life {word}: nanoseconds", line)


def half_life_text(nanoseconds):
    """The half-life, exactly, in the largest unit in which it is 1 or more with few decimals."""
    for unit, size in reversed(NANOSECONDS.items()):
        number = Fraction(nanoseconds, size)
        if number >= 1 and (number * 10**DECIMALS).denominator == 1:
            return f"{Decimal(number.numerator) / Decimal(number.denominator)}{unit}"
    return f"{nanoseconds}ns"
