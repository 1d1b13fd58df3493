"""On its way into the room's air: what a reading's unit counts, and what a concentration in the medium is multiplied by."""

from fractions import Fraction

PER_UNIT = (37_000, 37, 1_000)  # mBq/m3 in one of each unit
HENRY = 434  # hundredths: the gas in air over the gas in water at 25 degrees Celsius (source 001)


def share_indoors(job):
    """Of indoor air all; of soil gas the attenuation; of groundwater the attenuation and Henry's constant."""
    attenuation = Fraction(job.attenuation, 10**6)
    return (Fraction(1), attenuation, attenuation * HENRY / 100)[job.medium]
