"""A second set of coefficients beside the book's, and whose are in use. Whether its bytes are accepted, the library says."""

from __future__ import annotations

import dataclasses
import enum
import struct
from typing import TYPE_CHECKING, Optional, SupportsIndex

from ._given import MOST_32_BITS, plain, whole

if TYPE_CHECKING:
    from _typeshed import ReadableBuffer as Bytes


class CoefficientSet(enum.IntEnum):
    """Whose coefficients a job or a lowest rate was worked out with: the book's own, or those of the second set that was lent."""

    BOOK = 1
    SECOND = 2


@dataclasses.dataclass(frozen=True)
class Coefficients:
    """A member's five numbers in a second set: `bytes(Coefficients(..))` are its 20 bytes. Those of a set are its members', one after
    the other in the book's order, the parent gas first:

        partner = [Coefficients(inhalation_risk=150, ...), Coefficients(inhalation_risk=400, ...)]
        screen_with(job, b"".join(map(bytes, partner)))

    None has a default, since one that is left out would clear rooms.

    inhalation_risk: 10^-17 per pCi; submersion_risk: 10^-17 per year per pCi/m3.
    inhalation_dose: 10^-10 mrem per pCi; submersion_dose: 10^-10 mrem per year per pCi/m3.
    weight: alpha energy per decay, in any one unit for all members.
    """

    inhalation_risk: SupportsIndex
    submersion_risk: SupportsIndex
    inhalation_dose: SupportsIndex
    submersion_dose: SupportsIndex
    weight: SupportsIndex

    def __bytes__(self) -> bytes:
        """A number that its bytes cannot hold is written as the largest, and refused as that."""
        given = (self.inhalation_risk, self.submersion_risk, self.inhalation_dose, self.submersion_dose, self.weight)
        return struct.pack("<5I", *(whole(number, "a coefficient or weight is a whole number", MOST_32_BITS) for number in given))


def lent(coefficients: Optional[Bytes]) -> bytes:
    """What the library is lent. To it no bytes are no set. So a set that is lent and has none goes to it as one byte, which is no set
    of any chain either: it is refused, and only after what is wrong with the job."""
    return b"" if coefficients is None else plain(coefficients, "a second set of coefficients") or b"\0"
