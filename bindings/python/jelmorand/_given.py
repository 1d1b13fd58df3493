"""What a caller gives, as the library takes it, or why it cannot be taken."""

from __future__ import annotations

import ctypes
import operator
from typing import TYPE_CHECKING, Iterable, SupportsIndex, Tuple, Union

if TYPE_CHECKING:
    from _typeshed import ReadableBuffer as Bytes

MOST_32_BITS = 2**32 - 1

RATE = "a rate is a whole number of hundredths of an air change per hour"
MINUTES = "a number of minutes is a whole number"


def plain(data: Bytes, what: str, kinds: str = "bytes") -> bytes:
    """The bytes of anything that has the buffer protocol."""
    try:
        return memoryview(data).tobytes()
    except TypeError:
        raise TypeError(f"{what} is {kinds}, not {type(data).__name__}") from None


def plain_text(text: Union[str, Bytes], what: str) -> bytes:
    """The same, or those of a str, of which a character that is not ASCII becomes bytes that are not, a lone surrogate too."""
    return text.encode("utf-8", "surrogatepass") if isinstance(text, str) else plain(text, what, "a str or bytes")


def whole(number: SupportsIndex, what: str, most: int) -> int:
    """A whole number, not negative. One that is over the most that its bytes hold would be cut; it is refused as the most is."""
    try:
        given = operator.index(number)
    except TypeError:
        raise TypeError(f"{number!r} is given, and {what}") from None
    if given < 0:
        raise ValueError(f"{given} is given, and {what}, not below 0")
    return min(given, most)


def rate_of(rate: SupportsIndex) -> int:
    return whole(rate, RATE, MOST_32_BITS)


def _period(period: Tuple[SupportsIndex, SupportsIndex]) -> Tuple[int, int]:
    try:
        rate, minutes = period
    except (TypeError, ValueError):
        raise TypeError(f"{period!r} is given, and a period is a rate and its minutes, such as (400, 60)") from None
    return rate_of(rate), whole(minutes, MINUTES, MOST_32_BITS)


def listed_rates(rates: Iterable[SupportsIndex]) -> ctypes.Array[ctypes.c_uint32]:
    numbers = [rate_of(rate) for rate in rates]
    return (ctypes.c_uint32 * len(numbers))(*numbers)


def listed_periods(periods: Iterable[Tuple[SupportsIndex, SupportsIndex]]) -> ctypes.Array[ctypes.c_uint32]:
    """Rate and minutes in turn."""
    numbers = [number for period in periods for number in _period(period)]
    return (ctypes.c_uint32 * len(numbers))(*numbers)
