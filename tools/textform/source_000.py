"""The half-lives that source 000 prints: tables C-1 (actinon), C-3 (thoron) and C-5 (radon), with their units; m is minutes."""

from fractions import Fraction

from .half_life import NANOSECONDS, half_life

PRINTED = {
    "Rn-219": "3.96s", "Po-215": "1.781E-3s", "Pb-211": "36.1m", "Bi-211": "2.14m", "Tl-207": "4.77m", "Po-211": "0.516s",
    "Rn-220": "55.6s", "Po-216": "0.145s", "Pb-212": "10.64h", "Bi-212": "60.55m", "Po-212": "2.99E-7s", "Tl-208": "3.053m",
    "Rn-222": "3.8235d", "Po-218": "3.10m", "Pb-214": "26.8m", "At-218": "1.5s", "Bi-214": "19.9m", "Rn-218": "3.5E-2s",
    "Po-214": "1.643E-4s", "Tl-210": "1.30m", "Pb-210": "22.20y", "Bi-210": "5.013d", "Hg-206": "8.15m", "Po-210": "138.376d",
    "Tl-206": "4.200m",
}
YEAR = Fraction("365.25") * NANOSECONDS["d"]  # no text can write years; Pb-210 in minutes is found by them


def plain_name(name):
    """`Po218` and `po-218` are Po-218 too."""
    return name.replace("-", "").casefold()


BY_NAME = {plain_name(name): printed for name, printed in PRINTED.items()}


def printed_half_life(name):
    """What source 000 prints for a nuclide of this name, and its nanoseconds; None where it has none."""
    printed = BY_NAME.get(plain_name(name or ""))
    if printed is None:
        return None
    return printed, Fraction(printed[:-1]) * YEAR if printed.endswith("y") else half_life(printed, 0)
