"""Document 01's rows on whole jobs; two shifts a quarter of an hour apart; splits of the years between the groups; and both
edges of grounds 1 to 8 and of C: the last accepted value and the first refused one. ET is in quarter hours throughout
(document 02, R-1), and dose has its shares of the years (R-2).

The answers are typed here from the documents: a verdict or a level, the number of a refusal, or the concentration of an accepted job.
"""

import math

from packing import bits, pack_book, pack_feed, pack_job, pack_member

BOOK = pack_book([pack_member(1)], [])
MOST = 4_000_000_000

TWO_TO_63 = 1 << 63
INFINITY = 0x7FF << 52
NOT_A_NUMBER = [INFINITY + 1, INFINITY + (1 << 51), INFINITY + (1 << 52) - 1]


def job(**fields):
    return pack_job(**fields) + BOOK


def rows():
    """The rows on a verdict or a level: residential, indoor air in pCi/L."""
    risk = pack_book([pack_member(1, inhalation_risk=1_000)], [])
    dose = pack_book([pack_member(1, inhalation_dose=1_000)], [])
    chain = pack_book([pack_member(1), pack_member(2_495_329_851_600, inhalation_risk=1_000, first=1)], [pack_feed(100_000, 0)])
    for target, line in ((1_610, 'verdict below'), (1_609, 'verdict above'), (1_610, 'level 37000')):
        yield pack_job(unit=0, value=bits(1.0), target=target) + risk, line
    for target, line in ((1_610, 'verdict close'), (1_611, 'verdict below'), (1_609, 'verdict above')):
        yield pack_job(v=200, unit=0, value=bits(3.0), target=target) + chain, line
    for target, line in ((6_195, 'verdict below'), (6_194, 'verdict above'), (6_195, 'level 370000')):
        yield pack_job(kind=1, unit=0, value=bits(10.0), target=target) + dose, line


def shifts():
    """A worker room let for 31 quarters (7 hours 45) or 32 (8 hours), the parent alone, at targets that tell the two apart.

    With one member its factor is G, so Low = High and both sides can be divided by G and by 37 * 365; 8,760 = 365 * 24.

    Risk: X = 250 * 25 * ET * 60 = 375,000 * ET, 11,625,000 for 31 quarters, 12,000,000 for 32.
    With h = 1,000 and 1.0 pCi/L (C = 37,000 = 37 * 1,000): 1,000 * X * 1,000 against 4 * target * 24 * 10^8.
    So 'below' is X <= 9,600 * target: 31 quarters from 11,625,000 / 9,600 = 1,210.9, 32 from exactly 1,250.
    Dose: the adult has all the years, a share of 100, so X = 250 * ET * 60 * 100 = 1,500,000 * ET, 46,500,000 and 48,000,000.
    With coefficient 1,000 and 10 pCi/L (C = 370,000 = 37 * 10,000): 10,000 * X * 1,000 against 4 * target * 100 * 24 * 10^7.
    So 'below' is X <= 9,600 * target: 31 quarters from 46,500,000 / 9,600 = 4,843.75, 32 from exactly 5,000.

    At 1,250 and at 5,000 the 8 hour shift's level is C itself; the other's is 32/31 of it, rounded down:
    1,184,000 / 31 = 38,193.5 and 11,840,000 / 31 = 381,935.4.
    """
    risk = pack_book([pack_member(1, inhalation_risk=1_000)], [])
    dose = pack_book([pack_member(1, inhalation_dose=1_000)], [])
    below, above = 'verdict below', 'verdict above'
    at_risk = ((1_210, above, above), (1_211, below, above), (1_249, below, above),
               (1_250, f'{below}\nlevel 38193', f'{below}\nlevel 37000'))
    at_dose = ((4_843, above, above), (4_844, below, above), (4_999, below, above),
               (5_000, f'{below}\nlevel 381935', f'{below}\nlevel 370000'))
    for kind, value, book, table in ((0, 1.0, risk, at_risk), (1, 10.0, dose, at_dose)):
        for target, shorter, longer in table:
            for ET, line in ((31, shorter), (32, longer)):
                groups = {'child': (0, 0, 0, 0), 'adult': (250, 25, ET, 60)}
                yield pack_job(kind=kind, unit=0, value=bits(value), target=target, **groups) + book, line


# The years of child and adult; then the lowest target that is 'below' for dose by inhalation, dose by submersion, risk by
# inhalation and risk by submersion. The arithmetic is in `fractions`.
SPLITS = [
    # Shares that add up to 100.
    ((6, 20), 619_500, 86_100, 161_000, 22_400),  # 23.08 and 76.92: 23 and 77
    ((1, 2), 584_500, 93_100, 17_500, 2_800),  # 33.33 and 66.67: 33 and 67
    ((77, 100), 546_000, 100_800, 969_500, 177_800),  # 43.503 and 56.497: 44 and 56; no pair misses its halves by less
    ((1, 100), 696_500, 70_700, 703_500, 71_400),  # 0.99 and 99.01: 1 and 99
    ((100, 1), 353_500, 139_300, 357_000, 140_700),  # 99 and 1
    ((99, 100), 525_000, 105_000, 1_046_500, 208_600),  # 49.7 and 50.3: 50 and 50
    ((100, 100), 525_000, 105_000, 1_050_000, 210_000),  # 50 and 50
    ((0, 25), 700_000, 70_000, 175_000, 17_500),  # 0 and 100
    ((25, 0), 350_000, 140_000, 87_500, 35_000),  # 100 and 0
    # Shares that add up to 101: two halves, and both go up.
    ((1, 7), 661_500, 79_800, 52_500, 6_300),  # 12.5 and 87.5: 13 and 88
    ((7, 1), 399_000, 132_300, 31_500, 10_500),  # 88 and 13
    ((3, 5), 574_000, 97_300, 45_500, 7_700),  # 37.5 and 62.5: 38 and 63
    ((1, 39), 696_500, 72_800, 276_500, 28_700),  # 2.5 and 97.5: 3 and 98
]


def fractions():
    """R-2's shares: the parent alone, at the lowest target that is 'below', where the level is C itself, and at the one beneath.

    The child is exposed 350 days, 96 quarters, at 10 m3 a day, the adult 280 days, 60 quarters, at 40:
    EF * ET * IRA = 336,000 and 672,000; EF * ET = 33,600 and 16,800. Low = High, and both sides can be divided by G and by 37.

    Dose, 10 pCi/L (C = 370,000 = 37 * 10,000), c and a the shares of child and adult:
    Inhalation, coefficient 100,000: 10,000 * 365 * X * 100,000 against 4 * target * 100 * 8,760 * 10^7, so X <= 96 * target.
    The lowest such target is (336,000 * c + 672,000 * a) / 96 = 3,500 * c + 7,000 * a.
    Submersion, coefficient 146,000,000: 10,000 * Y * 146,000,000 against 4 * target * 100 * 8,760 * 10^7, so Y <= 24 * target.
    The lowest such target is (33,600 * c + 16,800 * a) / 24 = 1,400 * c + 700 * a.

    Risk, 1.0 pCi/L (C = 37,000 = 37 * 1,000), the same coefficients: 1,000 * 365 * X * 100,000 and 1,000 * Y * 146,000,000
    against 4 * target * 8,760 * 10^8, so again X <= 96 * target and Y <= 24 * target, but X and Y have the years themselves:
    3,500 * c + 7,000 * a and 1,400 * c + 700 * a with c and a the years of child and adult.

    Years 1 and 7, for instance: dose 3,500 * 13 + 7,000 * 88 = 661,500 and 1,400 * 13 + 700 * 88 = 79,800;
    risk 3,500 * 1 + 7,000 * 7 = 52,500 and 1,400 * 1 + 700 * 7 = 6,300.
    The dose targets would be 656,250 and 78,750 with unrounded shares, 651,000 and 77,700 with halves down, 658,000 and 78,400
    with halves to even, 654,500 and 79,100 with the rest of 100 for the adult; and 12.5 times as large with Z left in B.
    """
    inhaled = pack_book([pack_member(1, inhalation_risk=100_000, inhalation_dose=100_000)], [])
    around = pack_book([pack_member(1, submersion_risk=146_000_000, submersion_dose=146_000_000)], [])
    for (child, adult), *targets in SPLITS:
        groups = {'child': (350, child, 96, 10), 'adult': (280, adult, 60, 40)}
        ways = ((1, 10.0, inhaled, 370_000), (1, 10.0, around, 370_000), (0, 1.0, inhaled, 37_000), (0, 1.0, around, 37_000))
        for (kind, value, book, C), target in zip(ways, targets):
            fields = {'kind': kind, 'unit': 0, 'value': bits(value)} | groups
            yield pack_job(target=target, **fields) + book, f'verdict below\nlevel {C}'
            yield pack_job(target=target - 1, **fields) + book, 'verdict above'


def codes():
    yield job()[:47], 1
    yield job()[:48], 9  # 48 bytes pass ground 1
    yield job(kind=1), 0
    yield job(kind=2), 2
    yield job(medium=2), 0
    yield job(medium=3), 2
    yield job(unit=2), 0
    yield job(unit=3), 2
    yield job(zero=1), 2
    yield job(v=100_000), 0
    yield job(v=100_001), 3
    yield job(target=1_000_000_000), 0
    yield job(target=1_000_000_001), 4
    yield job(medium=1, AF=0), 0
    yield job(medium=1, AF=1_000_000), 0
    yield job(medium=1, AF=1_000_001), 5
    yield job(AF=999_999), 5
    yield job(AF=1_000_001), 5


def exposures():
    limits = (366, 100, 96, 100)
    for name in ('child', 'adult'):
        yield job(**{name: limits}), 0
        for place in range(4):
            over = list(limits)
            over[place] += 1
            yield job(**{name: over}), 6
        # ET alone, up to 24 hours in whole hours and in parts of them; a quarter more is refused. 256 has a low byte of 0.
        for ET, number in ((0, 0), (1, 0), (24, 0), (25, 0), (31, 0), (95, 0), (96, 0), (97, 6), (99, 6), (100, 6), (256, 6)):
            yield job(**{name: (350, 20, ET, 20)}), number
    yield job(child=(350, 0, 96, 10), adult=(350, 0, 96, 20)), 6
    yield job(child=(0, 1, 0, 0), adult=(0, 0, 0, 0)), 0


def unusable():
    negative = [TWO_TO_63, TWO_TO_63 + 1, bits(-1.0), bits(-1.7976931348623157e308)]
    infinite = [INFINITY, TWO_TO_63 + INFINITY]
    for pattern in negative + infinite + NOT_A_NUMBER + [TWO_TO_63 + n for n in NOT_A_NUMBER]:
        yield job(value=pattern), 7
        yield job(uncertainty=pattern), 7


def readings():
    """(the bits, the unit, mBq/m³)"""
    yield 0, 2, 0
    yield 1, 2, 1  # the smallest subnormal
    yield (1 << 52) - 1, 0, 1  # the largest subnormal
    for whole in (1.0, 148.0, 3_999_999.0):
        mBq = int(whole) * 1_000
        yield bits(math.nextafter(whole, 0)), 2, mBq
        yield bits(whole), 2, mBq
        yield bits(math.nextafter(whole, math.inf)), 2, mBq + 1
    yield bits(4.0), 0, 148_000
    yield bits(0.5), 1, 19


def concentrations():
    for pattern, unit, mBq in readings():
        yield job(value=pattern, unit=unit), mBq
        yield job(uncertainty=pattern, unit=unit), mBq
    top = bits(4_000_000.0)
    yield job(value=top), MOST
    yield job(value=top + 1), 8
    yield job(uncertainty=top), MOST
    yield job(uncertainty=top + 1), 8
    yield job(value=bits(1_500_000.0), uncertainty=bits(2_500_000.0)), MOST
    yield job(value=bits(1_500_000.0), uncertainty=bits(2_500_000.0) + 1), 8
    yield job(value=bits(1.7976931348623157e308)), 8  # the largest finite
    # Groundwater: 921,658,986 times 4.34 is rounded up to the limit, one more is over it.
    yield job(value=bits(921_658.9855), medium=2), MOST
    yield job(value=bits(921_658.9865), medium=2), 8


def edges():
    """(the job, what its text must have)"""
    for data, line in [*rows(), *shifts(), *fractions()]:
        yield data, f'{line}\n'
    for data, number in [*codes(), *exposures(), *unusable()]:
        yield data, f'refused {number}\n' if number else 'concentration 0\n'
    for data, number in concentrations():
        yield data, 'refused 8\n' if number == 8 else f'concentration {number}\n'


if __name__ == "__main__":
    print(__doc__)
