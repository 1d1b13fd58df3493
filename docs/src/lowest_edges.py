"""Jobs for the lowest rate (document 02, R-6), worked by hand, with the text of `fan` for each typed here from the documents.

Rooms. T' stands for 2,495,329,851,600, for which K is 100 T': a daughter with T', fed wholly, has the factor 100 G / (100 + v),
rounded down. The parent has no coefficient here and the daughter has h = 1,000,000. For a residential risk and c pCi/m3
(C = 37 c, without rounding) both sides of High <= B can be divided by 37 and by 4 * 8,760 * 10^8: 365 * 15,456,000 * 10^6 is
1,610 times that. So 'below' is

    c * 1,610 * (factor + 2, at most G) <= target * G.

With c = (100 + V) * k and the target 161,000 * k both sides meet at rate V but for rounding: Low is at most B there, and High
is 2 grains over it, so V is 'close' and V + 1 is 'below'. Only at V = 0 is the factor G and High capped, so 0 is 'below' itself.
One more in the target makes V 'below', with V - 1 'above'; one less makes V 'above' and leaves V + 1 'below': a step of
the target is worth 1 / (161,000 k) of the factor, the next rate 1 / (100 + V) or more, and 2 grains far less than either.
"""

from job_edges import SPLITS, codes, concentrations, exposures, fractions, rows, shifts, unusable
from opening_edges import bad_books
from packing import bits, pack_book, pack_feed, pack_job, pack_member
from small_books import T1, TOP, widest

NONE = "rate none"


def rate(v):
    return f"rate {v}"


def refused(number):
    return f"refused {number}"


# ---- Books and jobs ------------------------------------------------------------------------------


def daughter(share=100_000, T=T1, parent=0, **coefficients):
    """The parent and one daughter; `parent` is the parent's inhalation risk."""
    coefficients = coefficients or {"inhalation_risk": 1_000_000}
    members = [pack_member(10**15, inhalation_risk=parent), pack_member(T, first=1, **coefficients)]
    return pack_book(members, [pack_feed(share, 0)])


def alone(**coefficients):
    return pack_book([pack_member(1, **coefficients)], [])


def air(c, target, book, **fields):
    """Indoor air of c pCi/m3: C is 37 c."""
    return pack_job(unit=1, value=bits(float(c)), target=target, **fields) + book


def room(V, more=0, k=1, **fields):
    """The room above, whose two sides meet at rate V where `more` is 0."""
    return air((100 + V) * k, 161_000 * k + more, daughter(), **fields)


# ---- Rooms ---------------------------------------------------------------------------------------

# V; then the answer where the sides meet there, with one more in the target, and with one less.
ROOMS = [
    (0, rate(0), rate(0), rate(1)),  # met exactly at the cap; one less: 0 is 'above'
    (1, rate(2), rate(1), rate(2)),
    (2, rate(3), rate(2), rate(3)),
    (99, rate(100), rate(99), rate(100)),
    (200, rate(201), rate(200), rate(201)),
    (255, rate(256), rate(255), rate(256)),
    (1_999, rate(2_000), rate(1_999), rate(2_000)),
    (32_767, rate(32_768), rate(32_767), rate(32_768)),
    (65_535, rate(65_536), rate(65_535), rate(65_536)),
    (99_997, rate(99_998), rate(99_997), rate(99_998)),
    (99_998, rate(99_999), rate(99_998), rate(99_999)),
    (99_999, rate(100_000), rate(99_999), rate(100_000)),
    (100_000, NONE, rate(100_000), NONE),  # 'close' at 100,000, or with one less 'above'
    (100_001, NONE, NONE, NONE),  # 'above' at 100,000 in all three: 100,001 is no rate
    (107_000, NONE, NONE, NONE),
]


def rooms():
    """Each with k = 1, some also with k = 1,000. The rates of the jobs themselves differ."""
    for V, *answers in ROOMS:
        for k in (1, 1_000) if V in (0, 99_999, 100_000) else (1,):
            for more, answer in zip((0, 1, -1), answers):
                yield room(V, more, k, v=min(100_000, V * k % 100_003)), answer


def from_half():
    """A share of a half: the factor is 50 G / (100 + v), no cap is met, and at rate 0 the sides can meet 'close'."""
    for V, *answers in ((0, rate(1), rate(0), rate(1)), (1, rate(2), rate(1), rate(2)), (700, rate(701), rate(700), rate(701))):
        for more, answer in zip((0, 1, -1), answers):
            yield air(100 + V, 80_500 + more, daughter(50_000)), answer


def half_lives():
    """20 T' gives 5 G / (5 + v), so target 8,050 k with c = (5 + V) k; a hundredth of T' gives 10,000 G / (10,000 + v), so
    16,100,000 k with (10,000 + V) k. 1 ns: even at rate 100,000 the factor is only 441 grains below G, far less than a step of
    the target, so 0 is 'below' or no rate is."""
    for V, *answers in ((1, rate(2), rate(1), rate(2)), (2, rate(3), rate(2), rate(3)),
                        (5_000, rate(5_001), rate(5_000), rate(5_001))):
        for more, answer in zip((0, 1, -1), answers):
            yield air((5 + V) * 20, 8_050 * 20 + more, daughter(T=20 * T1)), answer
            yield air(10_000 + V, 16_100_000 + more, daughter(T=T1 // 100)), answer
    yield air(100, 161_000, daughter(T=1)), rate(0)
    yield air(100, 160_999, daughter(T=1)), NONE


def document_rows():
    """Document 01's first chain: T', h = 1,000, C = 111,000. 1,610 * 3 * factor against target * G, so the sides meet at 200
    for 1,610; 1,611 asks for 100 + v >= 299.8, 1,609 for 300.2. The job's own rate is 200, with verdicts close, below, above."""
    answers = {1_610: rate(201), 1_611: rate(200), 1_609: rate(201)}
    chain = daughter(inhalation_risk=1_000)
    for target, answer in answers.items():
        yield pack_job(v=200, unit=0, value=bits(3.0), target=target) + chain, answer
    # One target after the other: v >= 100 * (4,830 / target - 1), and more than that where it is whole.
    for target, answer in ((4_831, 0), (4_830, 0), (4_829, 1), (4_806, 1), (4_783, 1), (4_782, 2), (2_416, 100), (2_415, 101),
                           (2_414, 101), (966, 401), (483, 901), (50, 9_561), (7, 68_901), (6, 80_401), (5, 96_501)):
        yield pack_job(unit=0, value=bits(3.0), target=target) + chain, rate(answer)
    for target in (4, 3, 2, 1, 0):  # 120,650 and more
        yield pack_job(unit=0, value=bits(3.0), target=target) + chain, NONE


def dose():
    """Inhalation dose 1,000,000: 365 * 59,472,000 * 10^6 is 619.5 times 4 * 100 * 8,760 * 10^7, so the target is 61,950 k.
    Submersion, risk: 873,600 * 146,000,000 is 36.4 times 4 * 8,760 * 10^8, so 3,640 k. Submersion, dose: 3,360,000 *
    146,000,000 is 14 times 4 * 100 * 8,760 * 10^7, so 1,400 k."""
    ways = ((1, "inhalation_dose", 1_000_000, 61_950, 2), (0, "submersion_risk", 146_000_000, 3_640, 50),
            (1, "submersion_dose", 146_000_000, 1_400, 90))
    for kind, name, coefficient, target, k in ways:
        book = daughter(**{name: coefficient})
        other = daughter(**{name.replace("dose", "risk") if kind else name.replace("risk", "dose"): coefficient})
        for V, *answers in ((0, rate(0), rate(0), rate(1)), (18, rate(19), rate(18), rate(19)), (100_000, NONE, rate(100_000), NONE)):
            for more, answer in zip((0, 1, -1), answers):
                yield air((100 + V) * k, target * k + more, book, kind=kind), answer
        yield air(100, target, other, kind=kind), rate(0)  # the coefficient of the other kind counts for nothing


# ---- Other chains --------------------------------------------------------------------------------


def with_parent():
    """The parent has h too: c * 1,610 * (G + factor) against target * G. What the parent leaves of the target for c = 1 is
    target - 1,610, and the daughter is 'below' where 161,000 / (100 + v) is less."""
    book = daughter(parent=1_000_000)
    for target, answer in ((3_221, 0), (3_220, 0), (3_219, 1), (2_416, 100), (2_415, 101), (2_414, 101), (1_613, 53_567),
                           (1_612, 80_401)):
        yield air(1, target, book), rate(answer)
    for target in (1_611, 1_610, 1_609, 805, 0):  # 160,900 for 1,611; nothing is left for the rest
        yield air(1, target, book), NONE


def several_members():
    """Two in a line: 10,000 G / (100 + v)^2. Two halves and what both feed: G/4 each at rate 100. Fifteen daughters of a
    sixteenth each: 15/16 of a room, with 240 grains between Low and High."""
    line = pack_book([pack_member(1), pack_member(T1, first=1), pack_member(T1, inhalation_risk=1_000_000, first=2)],
                     [pack_feed(100_000, 0), pack_feed(100_000, 1)])
    for c, target, answer in ((1, 1_610, 0), (1, 1_609, 1), (4, 1_610, 101), (4, 1_611, 100), (4, 1_609, 101), (16, 1_610, 301),
                              (16, 1_611, 300), (16, 1_609, 301), (10_000, 1_610, 9_901), (1_000_000, 1_610, 99_901)):
        yield air(c, target, line), rate(answer)
    yield air(1_002_001, 1_610, line), NONE  # 1,001 squared: 'close' at 100,000
    # 100,100 * sqrt(1,610 / 1,611) is 100,068.93, but 4 grains of 1.1 million, less a grain at most that rounding has lost, move
    # it by 0.14 to 0.18: 99,969 is 'close'.
    yield air(1_002_001, 1_611, line), rate(99_970)
    yield air(1_002_001, 1_609, line), NONE

    def branched(*coefficients):
        members = [pack_member(T1, inhalation_risk=h, first=k) for k, h in enumerate(coefficients) if k]
        return pack_book([pack_member(1)] + members, [pack_feed(50_000, 0), pack_feed(50_000, 0), pack_feed(100_000, 1, 4),
                                                      pack_feed(100_000, 2)])
    for h, target in (((0, 0, 0, 10**6), 1_610), ((0, 10**6, 10**6, 10**6), 4_830), ((0, 10**6, 0, 0), 1_610)):
        for more, answer in zip((0, 1, -1), (101, 100, 101)):
            yield air(4, target + more, branched(*h)), rate(answer)
    sixteenths = pack_book([pack_member(1)] + [pack_member(T1, inhalation_risk=10**6, first=k) for k in range(1, 16)],
                           [pack_feed(6_250, 0) for _ in range(15)])
    for V, *answers in ((0, rate(1), rate(0), rate(1)), (40, rate(41), rate(40), rate(41)),
                        (99_998, rate(99_999), rate(99_998), rate(99_999)), (100_000, NONE, rate(100_000), NONE)):
        for more, answer in zip((0, 1, -1), answers):
            yield air((100 + V) * 2, 301_875 + more, sixteenths), answer


def many_feeds():
    """64 feeds into one daughter, 100,000 in all: the room above."""
    shares = [1_562] * 63 + [1_594]
    feeds = [pack_feed(share, 0, k + 1 if k < 64 else 0) for k, share in enumerate(shares, 1)]
    book = pack_book([pack_member(1), pack_member(T1, inhalation_risk=1_000_000, first=1)], feeds)
    for c, target, answer in ((100, 161_000, rate(0)), (100, 160_999, rate(1)), (300, 161_000, rate(201)), (300, 161_001, rate(200)),
                              (100_100, 161_000, NONE), (100_100, 161_001, rate(100_000))):
        yield air(c, target, book), answer
    yield air(100, 0, widest()), rate(0)  # 16 members, 64 feeds, no coefficient


def thin():
    """Few grains: a share of 1 into member 1 and again into member 2, which alone has a coefficient, the largest. A grain of it
    is worth 108,108,108 * 6,440,000 / G = 633.2 steps of the target, and High has 4 grains more than the factor.
    Member 1 has 1,099,511,600 / (100 + v), rounded down; member 2 has 100 / (100 + v) of a 100,000th of it, rounded down twice:
    5 grains from rate 323 on, 4 from 361, 3 from 424, 2 from 501, 1 from 634, none from 901 on. So the answers come in steps."""
    book = pack_book([pack_member(1), pack_member(T1, first=1), pack_member(T1, inhalation_risk=4_000_000_000, first=2)],
                     [pack_feed(1, 0), pack_feed(1, 1)])
    for target, answer in ((2_533, 901), (3_166, 901), (3_167, 634), (3_799, 634), (3_800, 501), (4_432, 501), (4_433, 424),
                           (5_065, 424), (5_066, 361), (5_698, 361), (5_699, 323)):
        yield air(108_108_108, target, book), rate(answer)
    for target in (2_532, 1_266, 1, 0):  # 'close' up to 100,000: no grain is reported, but four may be there
        yield air(108_108_108, target, book), NONE
    yield air(0, 0, book), rate(0)


# ---- Where the rate does nothing -----------------------------------------------------------------


CHOSEN = {(6, 20), (77, 100), (1, 100), (0, 25), (25, 0), (1, 7), (3, 5), (1, 39)}  # years of child and adult


def parents():
    """The gas alone has G at every rate: 0 where the verdict is 'below', none where it is 'above'. Document 01's rows, two
    shifts (R-1) and some splits of the years (R-2), at the lowest target that is 'below' and at the one beneath."""
    given, splits = list(rows()), list(fractions())  # eight jobs a split; the rows on a chain are in `document_rows`
    splits = [job for k, (years, *_) in enumerate(SPLITS) if years in CHOSEN for job in splits[8 * k : 8 * k + 8]]
    for data, line in given[:3] + given[6:] + list(shifts()) + splits:
        yield data, NONE if line == "verdict above" else rate(0)
    for v in (0, 1, 100_000):
        yield air(1_000, 1_610, alone(inhalation_risk=1_000), v=v), rate(0)
        yield air(1_000, 1_609, alone(inhalation_risk=1_000), v=v), NONE
        yield air(1_000, 0, alone(inhalation_risk=1_000), v=v), NONE
        yield air(1_000, 0, alone(), v=v), rate(0)
    # Odd quarters of an hour. Risk with 3 of them in one year and at 1 m3: X and Y are 3. Dose with one in each of the child's
    # years, 1 of 3 and so 33 hundredths: X and Y are 33. 24 * 365 * 4 * 10^8 and 8,760 * 4 * 10^8 are 4 * 8,760 * 10^8, so
    # 'below' is X <= target and Y <= target; for dose ten times the coefficient makes it 4 * 100 * 8,760 * 10^7.
    ways = ((0, "risk", 400_000_000, 3, {"child": (0, 0, 0, 0), "adult": (1, 1, 3, 1)}),
            (1, "dose", 4_000_000_000, 33, {"child": (1, 1, 1, 1), "adult": (0, 2, 0, 0)}))
    for kind, name, coefficient, target, groups in ways:
        for c, book in ((24, alone(**{f"inhalation_{name}": coefficient})), (8_760, alone(**{f"submersion_{name}": coefficient}))):
            yield air(c, target, book, kind=kind, **groups), rate(0)
            yield air(c, target - 1, book, kind=kind, **groups), NONE


def nothing():
    """Nothing to weigh: no coefficient, no concentration, no exposure; 0 then, at target 0 too. A target of 0 otherwise."""
    for target in (0, 1_000_000_000):
        for v in (0, 100_000):
            yield air(100, target, daughter(inhalation_risk=0), v=v), rate(0)
            yield air(0, target, daughter(parent=1_000, inhalation_risk=4_000_000_000), v=v), rate(0)
            yield air(100, target, daughter(), child=(0, 6, 96, 10), adult=(350, 20, 0, 20), v=v), rate(0)
    yield air(100, 0, daughter()), NONE
    yield air(1, 0, daughter(1, T=60_000_000_000_000)), NONE
    yield air(100, 0, daughter(), v=100_000), NONE
    yield air(100, 1_000_000_000, daughter()), rate(0)


def wide():
    """Sums that a shorter number would cut down to something that is 'below'. The gas alone, both groups at their limits, so that
    365 * X is 365 * 702,720,000 = 256,492,800,000; the highest target, so that B is 1.43 * 10^35.
    C = 4 * 10^9, h = 301,651: High is 2^128 and 2.5 * 10^32 more. C the same, h = 280,935: the sum before C is 2^96 and a
    300,000th of it more. C = 37 * 10^6, h = 71,919,158: q is 2^64 and 2.1 * 10^12 more."""
    limits = (366, 100, 96, 100)
    for unit, value, h in ((2, 4e6, 301_651), (2, 4e6, 280_935), (1, 1e6, 71_919_158)):
        job = pack_job(unit=unit, value=bits(value), target=1_000_000_000, child=limits, adult=limits)
        yield job + alone(inhalation_risk=h), NONE


# ---- The job's own rate, and its reading ---------------------------------------------------------


def own_rates():
    """The same room with other rates of its own: checked (3) and otherwise ignored, also where it is 'below' by itself."""
    for V, more, answer in ((200, 0, rate(201)), (0, 0, rate(0)), (0, -1, rate(1)), (100_000, 0, NONE)):
        for v in (0, 200, 201, 202, 100_000):
            yield room(V, more, v=v), answer
        for v in (100_001, 131_272, TOP):  # 131,272 is 200 in 16 bits
            yield room(V, more, v=v), refused(3)


def readings():
    """C is rounded up before it counts. h = 3,700,000,000 and C = 2 make a room with V = 100: 2 * 3.7 * 10^9 is
    37 * 200 * 10^6. So C = 2 gives 101, and 1, half of it, meets B at rate 0, capped; C = 3 meets it at V = 200, so 201."""
    book = daughter(inhalation_risk=3_700_000_000)
    for unit, value, uncertainty, answer in (
            (2, 0.0015, 0.0, 101), (2, 0.00101, 0.0, 101), (2, 0.0005, 0.0, 0), (2, 0.0, 0.0011, 101), (2, 0.0004, 0.0004, 101),
            (2, 0.0014, 0.0004, 201), (2, 0.0022, 0.0, 201), (1, 0.05, 0.0, 101), (1, 0.02, 0.0, 0), (1, 0.02, 0.02, 101),
            (1, 0.06, 0.0, 201), (0, 0.00005, 0.0, 101), (0, 0.00002, 0.0, 0), (0, 0.00002, 0.00005, 201)):
        yield pack_job(unit=unit, value=bits(value), uncertainty=bits(uncertainty), target=161_000) + book, rate(answer)
    # No f64 holds 0.002; the nearest lies above it, so C is 3.
    yield pack_job(unit=2, value=bits(0.002), target=161_000) + book, rate(201)
    # Soil gas, times AF: 9.5 mBq make 10, and a tenth of it 1; 10.1 make 11, and a tenth of it 2; 20.5 make 3.
    # Groundwater, times 4.34 AF: with a tenth 0.868, 1.302, 1.736 and 2.17 for 2 to 5 mBq, with a thousandth 0.9982 and 1.00254
    # for 230 and 231; with 0.22 it is 0.9548 for 1 mBq, not 1.1: it is rounded up once, at the end.
    for medium, AF, value, answer in ((1, 100_000, 0.0095, 0), (1, 100_000, 0.0101, 101), (1, 100_000, 0.0205, 201),
                                      (1, 1_000_000, 0.0015, 101), (1, 0, 5.0, 0), (2, 0, 5.0, 0), (2, 100_000, 0.0015, 0),
                                      (2, 100_000, 0.0025, 101), (2, 100_000, 0.0035, 101), (2, 100_000, 0.0045, 201),
                                      (2, 1_000, 0.2295, 0), (2, 1_000, 0.2305, 101), (2, 220_000, 0.0005, 0)):
        yield pack_job(medium=medium, AF=AF, unit=2, value=bits(value), target=161_000) + book, rate(answer)


# ---- Grounds -------------------------------------------------------------------------------------


def job_grounds():
    """Both sides of grounds 1 to 8. The jobs have no coefficient, so those that are accepted have the answer 0."""
    for data, number in [*codes(), *exposures(), *unusable()]:
        yield data, refused(number) if number else rate(0)
    for data, number in concentrations():
        yield data, refused(8) if number == 8 else rate(0)
    # The sum passes the limit by less than 1 mBq, though C is 0.
    for uncertainty, answer in ((0, rate(0)), (1, refused(8))):
        yield pack_job(medium=1, AF=0, value=bits(4e6), uncertainty=uncertainty) + alone(), answer


def book_grounds():
    """Grounds 9 to 18 in one way or several, and both sides of some; with a rate of its own that is refused, 3."""
    for number, book in bad_books():
        yield pack_job(target=1) + book, refused(number)
        yield pack_job(v=100_001) + book, refused(3)
    for second, answer in ((50_000, rate(0)), (50_001, refused(18))):
        members = [pack_member(1), pack_member(T1, first=1), pack_member(T1, first=2)]
        yield air(100, 0, pack_book(members, [pack_feed(50_000, 0), pack_feed(second, 0)])), answer
    # A member that feeds itself where the shares out of the parent pass 100,000: 17, not 18.
    for from_, answer in ((1, refused(17)), (0, refused(18))):
        feeds = [pack_feed(60_000, 0, 2), pack_feed(1, from_), pack_feed(40_001, 0)]
        yield air(100, 0, pack_book([pack_member(1), pack_member(T1, first=1), pack_member(T1, first=3)], feeds)), answer
    # The longest half-life of a daughter: at rate 1 K is 4.16 T, so G * 4.16 / 5.16 = 0.80617 G.
    longest = daughter(T=60_000_000_000_000)
    for target, answer in ((1_610, rate(0)), (1_298, rate(1)), (1_297, rate(2))):
        yield air(1, target, longest), answer
    yield air(1, 1_610, daughter(T=60_000_000_000_001)), refused(13)
    yield air(1, 161_000, daughter(inhalation_risk=4_000_000_000)), rate(3_901)  # 4,000 times h, so V is 3,900
    yield air(1, 1_610, daughter(inhalation_risk=4_000_000_000)), NONE  # V would be 399,900
    yield air(1, 1_610, daughter(inhalation_risk=4_000_000_001)), refused(13)


def rate_first():
    """The job's own rate is checked third: after 1 and 2, before everything else."""
    yield room(200, v=100_001)[:47], refused(1)
    yield room(200, v=100_001, kind=2), refused(2)
    yield room(200, v=100_001, zero=1), refused(2)
    yield air(300, 1_000_000_001, daughter(), v=100_001), refused(3)
    yield room(200, v=100_001, AF=999_999), refused(3)
    yield room(200, v=100_001, child=(367, 6, 96, 10)), refused(3)
    yield room(200, v=100_001, uncertainty=1 << 63), refused(3)
    yield room(200, v=100_001, uncertainty=bits(1e300)), refused(3)
    yield room(200, v=100_001)[:48], refused(3)
    yield room(200, v=100_001)[:60], refused(3)
    yield room(200, v=100_001) + b"\0", refused(3)
    yield air(300, 1, daughter(100_001), v=100_001), refused(3)
    yield air(300, 1, daughter(100_001), v=100_000), refused(14)
    yield room(200, v=100_000) + b"\0", refused(11)


def edges():
    """(the job, the text of `fan` without its line feed)"""
    for part in (rooms, from_half, half_lives, document_rows, dose, with_parent, several_members, many_feeds, thin, parents,
                 nothing, wide, own_rates, readings, job_grounds, book_grounds, rate_first):
        yield from part()


if __name__ == "__main__":
    print(__doc__)
