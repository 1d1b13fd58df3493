"""The bytes of a chain book, from its members and feeds. docs/FORMAT.md has the bytes; whether they are accepted, the library says."""

from __future__ import annotations

import struct
from typing import NamedTuple, SupportsIndex

from ._coefficients import Coefficients
from ._given import MOST_32_BITS, whole

_MOST_8_BITS, _MOST_16_BITS, _MOST_64_BITS = (2**bits - 1 for bits in (8, 16, 64))


class _Feed(NamedTuple):
    share: int
    source: int
    into: int


class Book:
    """A chain book that is put together: `bytes(book)` is what the calls take.

        book = Book(divisor=1_000)
        radon = book.member(half_life=330_350_400_000_000, inhalation_risk=100_000, ...)
        polonium = book.member(half_life=186_000_000_000, ...)
        book.feed(100_000, radon, polonium)

    divisor: tenths of pCi/L at equilibrium for one working level: 1,000 for radon, 75 for thoron, 1,620 for actinon.
    """

    def __init__(self, divisor: SupportsIndex) -> None:
        self._divisor = whole(divisor, "a working level divisor is a whole number of tenths of pCi/L", _MOST_16_BITS)
        self._members: list[bytes] = []
        self._feeds: list[_Feed] = []

    def member(
        self,
        *,
        half_life: SupportsIndex,
        inhalation_risk: SupportsIndex,
        submersion_risk: SupportsIndex,
        inhalation_dose: SupportsIndex,
        submersion_dose: SupportsIndex,
        weight: SupportsIndex,
    ) -> int:
        """Adds a member after those that are there, the parent gas first, and answers its number. No coefficient has a default, since
        one that is left out would clear rooms.

        half_life: nanoseconds.
        The other five are in the units of Coefficients.
        """
        coefficients = Coefficients(inhalation_risk, submersion_risk, inhalation_dose, submersion_dose, weight)
        life = whole(half_life, "a half-life is a whole number of nanoseconds", _MOST_64_BITS)
        self._members.append(struct.pack("<Q", life) + bytes(coefficients))
        return len(self._members) - 1

    def feed(self, share: SupportsIndex, source: int, into: int) -> None:
        """Adds a feed: this share, in hundred-thousandths, of what leaves the one member goes into the other. A member's feeds are
        taken in the order in which they are added."""
        for number in (source, into):
            if number not in range(len(self._members)):
                raise ValueError(f"{number!r} is no member of the book, which has {len(self._members)}")
        self._feeds.append(_Feed(whole(share, "a share is a whole number of hundred-thousandths", MOST_32_BITS), source, into))

    def __bytes__(self) -> bytes:
        """A number that its byte cannot hold is written as the largest, and refused as that."""
        counts = (_in_byte(len(self._members)), _in_byte(len(self._feeds)))
        head = struct.pack("<BBH4x", *counts, self._divisor)
        members = [member + struct.pack("<B3x", self._feed_after(-1, i)) for i, member in enumerate(self._members)]
        return head + b"".join(members) + b"".join(map(self._feed_bytes, range(len(self._feeds))))

    def _feed_bytes(self, at: int) -> bytes:
        feed = self._feeds[at]
        return struct.pack("<IBB2x", feed.share, _in_byte(feed.source), self._feed_after(at, feed.into))

    def _feed_after(self, at: int, into: int) -> int:
        """The number, from 1, of the first feed into a member after this place, or 0."""
        later = (j + 1 for j in range(at + 1, len(self._feeds)) if self._feeds[j].into == into)
        return _in_byte(next(later, 0))


def _in_byte(number: int) -> int:
    return min(number, _MOST_8_BITS)
