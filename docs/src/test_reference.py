"""Every row of document 01, restated in quarter hours and with the dose of document 02 (R-1, R-2), and its worked output,
against the reference; R-2's share over every accepted pair of years;
that a job in whole hours, restated in quarters, keeps its verdict, its level and its refusal;
R-3's nine characters of a factor against a search through everything that can be printed;
R-5's minutes by hand, without rounding, until nothing changes any more, and over a change of rate;
R-6's lowest rate by hand, at both ends and with other rates in the job;
R-8's marks by hand and point by point, the form of an entry byte by byte, and two lines of document 000;
and R-9's runs by hand, place by place, and cut short at every place.

    test_reference.py
"""

import bisect
import itertools
import math
import pathlib
import re
import struct

import draws
import reference as ref
from packing import bits, pack_book, pack_feed, pack_job, pack_member
from plain_help import answer_help
from recorded import MARKS, RATES, read_cases
from tally import run_tests, say_passed

T1 = 2_495_329_851_600  # the document's T'
G = 1_099_511_627_776


def one_feed_book(T=T1, share=100_000, h=0):
    return pack_book([pack_member(1), pack_member(T, inhalation_risk=h, first=1)], [pack_feed(share, 0)])


def parent_book(h=0, dose=0):
    return pack_book([pack_member(1, inhalation_risk=h, inhalation_dose=dose)], [])


def field(text, name):
    """The value of one line of the program's text."""
    return dict(line.split(" ", 1) for line in text.splitlines())[name]


def screened(book, C, target, v=0, kind=0):
    """The text for a residential job with the given C: C / 1,000 Bq/m3 must be exact as an f64."""
    assert (C / 1000) * 1000 == C
    job = pack_job(v=v, kind=kind, unit=2, target=target, value=bits(C / 1000)) + book
    ref.check(job)
    text = ref.answer(job)
    assert field(text, "concentration") == str(C)
    return text


def test_constants():
    assert ref.G == G == 2**40
    assert ref.K == 693_147_181 * 36 * 10**13 // 10**9


def test_balance():
    book = one_feed_book()
    assert ref.factor_call(0, book, 2) == [G, G]
    assert ref.factor_call(100, book, 2) == [G, 549_755_813_888]
    assert ref.factor_call(200, book, 2) == [G, 366_503_875_925]
    assert ref.factor_call(0, one_feed_book(share=33_333), 2) == [G, 366_500_210_886]
    branched = pack_book(
        [pack_member(1)] + [pack_member(T1, first=k) for k in (1, 2, 3)],
        [pack_feed(50_000, 0), pack_feed(50_000, 0), pack_feed(100_000, 1, 4), pack_feed(100_000, 2)],
    )
    assert ref.factor_call(0, branched, 4) == [G, G // 2, G // 2, G]
    assert ref.factor_call(100, branched, 4) == [G, G // 4, G // 4, G // 4]


def shares(groups):
    return [ref.share_of_years(g, groups) for g in groups]


def test_exposure():
    """Risk has the years; dose has 23 and 77 hundredths of them, or all: 336,000 * 23 + 672,000 * 77, and 480,000 * 100."""
    home, work = ref.RESIDENTIAL, ref.WORKER
    assert (ref.X(home), ref.Y(home), ref.Z(home)) == (15_456_000, 873_600, 26)
    assert (ref.X(work), ref.Y(work), ref.Z(work)) == (12_000_000, 200_000, 25)
    assert (ref.dose_X(home), ref.dose_Y(home), shares(home)) == (59_472_000, 3_360_000, [23, 77])
    assert (ref.dose_X(work), ref.dose_Y(work), shares(work)) == (48_000_000, 800_000, [0, 100])
    # The guide's air breathed in a year, in m3: X is in hundredths of the years and has 96 quarters to the day of IRA.
    assert ref.dose_X(home) == 6_195 * 100 * 96


def test_share():
    """R-2's share from its meaning: within a half of 100 * ED / Z, and the upper of the two wholes where it is a half away.

    The two shares add up to 100, or to 101 where both are halves. No pair gives 99: the two unrounded shares add up to 100, so
    either one goes down by as much as the other goes up, or both are halves, and halves go up.
    """
    sums = {}
    for child, adult in itertools.product(range(101), repeat=2):
        if child + adult == 0:
            continue  # ground 6
        groups = ref.Group(350, child, 96, 10), ref.Group(350, adult, 96, 20)
        exact = [ref.Fraction(100 * years, child + adult) for years in (child, adult)]
        for years, number, share in zip((child, adult), exact, shares(groups)):
            assert isinstance(share, int) and 2 * abs(share - number) <= 1
            assert 2 * abs(share - number) < 1 or share > number
            assert (share == 0) == (years == 0)
        total = sum(shares(groups))
        assert total == (101 if all(number.denominator == 2 for number in exact) else 100), (child, adult)
        sums[total] = sums.get(total, 0) + 1
        if shares(groups) == exact:  # nothing rounded: document 01's dose as it was
            assert ref.dose_X(groups) * ref.Z(groups) == 100 * ref.X(groups)
            assert ref.dose_Y(groups) * ref.Z(groups) == 100 * ref.Y(groups)
    assert sums == {100: 10_084, 101: 116}


def test_reading():
    assert ref.converted(bits(4.0), 0) == 148_000
    assert ref.converted(bits(0.5), 1) == 19
    assert ref.indoors(ref.converted(bits(100.0), 0), ref.GROUNDWATER, 1_000) == 16_058
    assert ref.indoors(148_000, ref.SOIL_GAS, 30_000) == 4_440
    assert ref.converted(1, 2) == 1  # the smallest subnormal is above 0
    assert ref.converted(0, 2) == 0


def test_working():
    assert ref.micro_working_levels(148_000, 400_000, 1_000) == 16_000
    assert ref.micro_working_levels(148_000, None, 1_000) is None


def test_verdict():
    parent = parent_book(h=1_000)
    text = screened(parent, 37_000, 1_610)
    assert (field(text, "verdict"), field(text, "level")) == ("below", "37000")
    assert field(screened(parent, 37_000, 1_609), "verdict") == "above"
    chain = one_feed_book(h=1_000)
    for target, expected in ((1_610, "close"), (1_611, "below"), (1_609, "above")):
        assert field(screened(chain, 111_000, target, v=200), "verdict") == expected
    dose = parent_book(dose=1_000)
    text = screened(dose, 370_000, 6_195, kind=1)
    assert (field(text, "verdict"), field(text, "level")) == ("below", "370000")
    assert field(screened(dose, 370_000, 6_194, kind=1), "verdict") == "above"


def test_limits():
    book = one_feed_book()
    assert isinstance(ref.factor_call(100_000, book, 2), list)
    assert ref.factor_call(100_001, book, 2) == 3
    assert ref.answer(pack_job(v=100_001) + book) == "refused 3\n"
    assert ref.answer(pack_job(v=100_000) + book).startswith("factor 0 ")

    def two_out(second):
        members = [pack_member(1), pack_member(T1, first=1), pack_member(T1, first=2)]
        return pack_book(members, [pack_feed(60_000, 0), pack_feed(second, 0)])

    assert isinstance(ref.factor_call(0, two_out(40_000), 3), list)
    assert ref.factor_call(0, two_out(40_001), 3) == 18


def test_room():
    book = one_feed_book()
    assert ref.factor_call(0, book, 1) == 19
    assert len(ref.factor_call(0, book, 99)) == 2
    assert ref.factor_call(0, b"", 0) == 9


def test_worked_output():
    job = pack_job(unit=0, target=1_610, value=bits(1.0)) + parent_book(h=1_000)
    assert ref.answer(job) == (
        "factor 0 1099511627776\n"
        "concentration 37000\n"
        "verdict below\n"
        "level 37000\n"
        "equilibrium none\n"
        "working none\n"
    )
    ref.check(job)


def test_f64_bits():
    """The exact value by hand, from sign, exponent and fraction, agrees with the library's."""
    for number in (5e-324, 2.2250738585072014e-308, 0.1, 1.0, 4.0, 108_108.1, math.nextafter(1.0, 2.0), 1e300):
        raw = bits(number)
        exponent, fraction = raw >> 52, raw & (1 << 52) - 1
        whole = fraction if exponent == 0 else fraction + (1 << 52)
        power = max(exponent, 1) - 1075
        exact = ref.Fraction(whole) * ref.Fraction(2) ** power
        assert ref.converted(raw, 0) == math.ceil(exact * 37_000)
    for text in ("nan", "-nan", "inf", "-inf", "-0.0", "-1"):
        raw = bits(math.copysign(float(text.lstrip("-")), -1 if text.startswith("-") else 1))
        assert not ref.is_reading(raw)
    assert struct.calcsize("<IBBBBIIQQ") + 16 == 48


# ---- Whole hours: document 01 as it stood, and for dose R-2 without the quarters ------------------


def years_or_shares(job, groups):
    """What stands for each group's years: for risk ED; for dose R-2's share, one more where half of Z or more is left over."""
    years = [ED for _, ED, _, _ in groups]
    if job.kind == 0:
        return years
    divided = [divmod(100 * ED, sum(years)) for ED in years]
    return [whole if rest * 2 < sum(years) else whole + 1 for whole, rest in divided]


def sums_in_hours(job, groups, book):
    """What C is multiplied by in Low and in High; the balance has no exposure in it and is the reference's."""
    X = Y = 0
    for (EF, _, ET, IRA), years in zip(groups, years_or_shares(job, groups)):
        X += EF * ET * IRA * years
        Y += EF * ET * years
    low = high = 0
    for i, factor in enumerate(ref.reported_factors(job.v, book)):
        _, h, s, dose_h, dose_s, _ = book.members[i]
        q = 365 * X * h + Y * s if job.kind == 0 else 365 * X * dose_h + Y * dose_s
        low += q * factor
        high += q * min(factor + 2 * i, G)
    return low, high


def B_in_hours(job, target):
    return target * 37 * 8_760 * 10**8 * G if job.kind == 0 else target * 100 * 37 * 8_760 * 10**7 * G


def lines_in_hours(low, high, B, C):
    """The two lines that the verdict and the level make."""
    verdict = "below" if C * high <= B else "above" if C * low > B else "close"
    level = 4_000_000_000 if high == 0 else min(4_000_000_000, B // high)
    return f"verdict {verdict}\nlevel {level}\n"


def refused_in_hours(groups):
    """Ground 6 as it stood."""
    over = any(EF > 366 or ED > 100 or ET > 24 or IRA > 100 for EF, ED, ET, IRA in groups)
    return over or sum(ED for _, ED, _, _ in groups) == 0


def in_quarters(group):
    EF, ED, ET, IRA = group
    return EF, ED, 4 * ET, IRA


def random_hours(rng):
    drawn = (rng.between(0, 366), rng.between(1, 100), rng.between(0, 24), rng.between(0, 100))
    named = ((350, 6, 24, 10), (350, 20, 24, 20), (250, 25, 8, 60), (366, 100, 24, 100), (1, 1, 1, 1))
    return rng.one_of(named + (drawn, drawn, drawn))


def random_in_hours(rng):
    """A good case and its two groups in whole hours; the case itself is restated in quarters."""
    make = rng.one_of((draws.random_case, draws.thin_case, draws.halved_case, draws.parent_case))
    case = make(rng)
    groups = rng.one_of(((0, 0, 0, 0), random_hours(rng))), random_hours(rng)
    if rng.between(0, 3) == 0:  # shares that are halves
        groups = [(EF, ED, ET, IRA) for (EF, _, ET, IRA), ED in zip(groups, rng.one_of(draws.HALVES))]
    case.job["child"], case.job["adult"] = map(in_quarters, groups)
    return case, groups


def targets_in_hours(rng, low, high, one, C):
    """About where Low and High meet B in whole hours, where that is a target at all; and one drawn at large."""
    edges = {C * side // one + step for side in (low, high) for step in (-1, 0, 1)}
    return sorted(target for target in edges | {rng.spread(0, 10**9)} if 0 <= target <= 10**9)


def test_whole_hours_unchanged():
    """Whole hours restated in quarters: 4 times ET and 4 times B leave each verdict and each level as it was.

    For risk that is what document 01's formulas give. For dose they no longer hold: there it is what R-2's formulas give with
    ET in whole hours and B without the 4.
    """
    rng = draws.Random(0x5175617274657273)
    seen = {}
    while sum(seen.values()) < 4_000:
        case, groups = random_in_hours(rng)
        job, C, book = ref.read_all(case.data())
        low, high = sums_in_hours(job, groups, book)
        for target in targets_in_hours(rng, low, high, B_in_hours(job, 1), C):
            case.job["target"] = target
            lines = lines_in_hours(low, high, B_in_hours(job, target), C)
            assert lines in ref.answer(case.data()), (groups, target, lines)
            outcome = job.kind, lines.split()[1]
            seen[outcome] = seen.get(outcome, 0) + 1
    assert all(seen.get((kind, verdict), 0) >= 100 for kind in (0, 1) for verdict in ("below", "close", "above")), seen


def test_refusal_unchanged():
    """Ground 6 on whole hours is ground 6 on four times as many quarters, in either group."""
    refused = 0
    for ET in range(31):
        child, adult = (350, 6, ET, 10), (350, 20, ET, 20)
        for groups in ((child, (350, 20, 24, 20)), ((350, 6, 24, 10), adult), ((0, 0, 0, 0), (250, 25, ET, 60))):
            restated = dict(zip(("child", "adult"), map(in_quarters, groups)))
            text = ref.answer(pack_job(**restated) + parent_book())
            assert (text == "refused 6\n") == refused_in_hours(groups) == (ET > 24), groups
            refused += text.startswith("refused")
    assert refused == 3 * 6  # 25 to 30 hours


# ---- Entries of a table, against all that can be printed -----------------------------------

# Every d.dddE-ee and d.dddE+00 with first digit 1 to 9 and an exponent down to -15, by its value times 10^18, in rising order.
FORMS = {d * 10 ** (15 - e): f"{d // 1000}.{d % 1000:03d}E{'-' if e else '+'}{e:02d}"
         for e in range(15, -1, -1) for d in range(1000, 10_000)}
VALUES = list(FORMS)
NINE = re.compile(r"[1-9]\.\d{3}E(\+00|-(0[1-9]|[1-9]\d))|0\.000E\+00")


def nearest(x):
    """The printable numbers nearest to x / G, x above 0: one, or the two that it stands half way between. None is nearer than the
    last one below x / G and the first one not below it."""
    place = bisect.bisect_left(VALUES, ref.rounded_up(x * 10**18, G))
    distance = {value: abs(value * G - x * 10**18) for value in VALUES[place - 1 : place + 1]}
    least = min(distance.values())
    return [value for value in distance if distance[value] == least]


def halves():
    """Every factor that is half way between two neighbours of all that can be printed."""
    middles = [ref.Fraction((low + high) * G, 2 * 10**18) for low, high in itertools.pairwise(VALUES)]
    return [int(x) for x in middles if x.denominator == 1 and x <= G]


def check_entries(numbers):
    """The nearest, and the higher of two; nine characters; and never falling where the factor rises."""
    last = 0
    for x in sorted(numbers):
        entry = ref.entry(x)
        assert len(entry) == 9 and NINE.fullmatch(entry), (x, entry)
        value = nearest(x)[-1] if x > 0 else 0
        assert entry == (FORMS[value] if x > 0 else "0.000E+00"), (x, entry)
        assert last <= value
        last = value


def test_forms():
    """All different and in order, so that a number has one form; and one form fits each factor but the 18 halves."""
    assert len(VALUES) == 16 * 9_000 and VALUES == sorted(VALUES)
    found = halves()
    assert found == [G // 128, G // 64, 3 * G // 64, 5 * G // 64] + [k * G // 32 for k in range(5, 32, 2)]
    for x in found:
        low, high = nearest(x)
        assert ref.entry(x) == FORMS[high] == ref.entry(x + 1) and ref.entry(x - 1) == FORMS[low]


def test_entry_at_both_ends():
    check_entries(range(20_001))
    check_entries(range(G - 20_000, G + 1))


def test_entry_at_boundaries():
    """About each power of ten, where the exponent changes before it, the next entry after it, and each half."""
    shares = [ref.Fraction(part, 100_000 * 10**e) for e in range(14) for part in (99_985, 99_995, 100_000, 100_050, 100_100)]
    near = {math.floor(share * G) + step for share in shares for step in range(-40, 41)}
    near |= {x + step for x in halves() for step in range(-40, 41)}
    check_entries(x for x in near if 0 <= x <= G)


def test_entry_at_large():
    """Drawn at large, and on both sides of the middle of two neighbours drawn at large."""
    rng = draws.Random(0x456E7472696573)
    drawn = {rng.spread(0, G) for _ in range(4_000)}
    for _ in range(4_000):
        place = bisect.bisect(VALUES, rng.spread(1, G) * 10**18 // G)
        middle = (VALUES[place - 1] + VALUES[place]) * G // (2 * 10**18)
        drawn |= {middle, middle + 1}
    check_entries(x for x in drawn if x <= G)


def test_entry_by_hand():
    for x, entry in ((0, "0.000E+00"), (1, "9.095E-13"), (2, "1.819E-12"), (G - 1, "1.000E+00"), (G, "1.000E+00"),
                     (G * 9_997 // 10_000, "9.997E-01"), (G * 99_996 // 100_000, "1.000E+00"), (G // 3, "3.333E-01")):
        assert ref.entry(x) == entry


# ---- Rooms that open at eight (R-5) --------------------------------------------------------------

EXAMPLES = pathlib.Path(__file__).resolve().parents[2] / "examples"
GASES = ("radon", "thoron", "actinon")


def example_book(gas):
    return ref.read_book((EXAMPLES / f"{gas}.book").read_bytes())


def random_book(rng, n):
    return ref.read_book(draws.random_case(rng, n).data()[48:])


def line_book(*half_lives):
    """Each member fed wholly by the one before."""
    members = [pack_member(1)] + [pack_member(T, first=k + 1) for k, T in enumerate(half_lives)]
    return ref.read_book(pack_book(members, [pack_feed(100_000, k) for k in range(len(half_lives))]))


def test_minutes_by_hand():
    """One daughter with T', for which K is 100 T': a minute goes from x to (6,000 x + 100 G) / (6,100 + v)."""
    assert ref.K == 100 * T1
    book = one_feed_book()
    for v in (0, 1, 18, 60, 100, 300, 6_700, 99_999, 100_000):
        one = 100 * G // (6_100 + v)
        two = (6_000 * one + 100 * G) // (6_100 + v)
        three = (6_000 * two + 100 * G) // (6_100 + v)
        for minutes, grains in ((1, one), (2, two), (3, three)):
            assert ref.opening_call([v, minutes], book, 2) == [G, grains]
        assert ref.opening_call([v, 1, v, 1, v, 1], book, 2) == [G, three]
    assert ref.opening_call([0, 1], book, 2) == [G, 18_024_780_783]
    # (60 x + G) / 64 at rate 300, (60 x + G) / 128 at 6,700; the second of two in a line has its F from the same minute.
    assert ref.opening_call([300, 1, 6_700, 1], book, 2) == [G, 31 * 2**29]
    assert ref.opening_call([6_700, 1, 300, 1], book, 2) == [G, 47 * 2**29]
    assert ref.opening_factors([(300, 1)], line_book(T1, T1)) == [G, 2**34, 2**28]
    assert ref.opening_factors([(300, 2)], line_book(T1, T1)) == [G, 31 * 2**30, 23 * 2**25]
    # The parent is G always, whatever its half-life.
    assert ref.opening_call([100_000, 1_440] * 32, pack_book([pack_member(1)], []), 1) == [G]


def test_minutes_without_rounding():
    """The same daughter's exact minutes are steady * (1 - (6,000 / (6,100 + v))^k). A minute loses less than a grain and keeps
    6,000 / (6,100 + v) of what was lost before, so never are k grains missing after k minutes, nor (6,100 + v) / (100 + v)."""
    for v in (0, 18, 100, 1_000, 100_000):
        kept, steady = ref.Fraction(6_000, 6_100 + v), ref.Fraction(100 * G, 100 + v)
        factors, power = ref.shut_room(line_book(T1)), ref.Fraction(1)
        for minute in range(1, 301):
            factors, power = ref.minute_later(v, line_book(T1), factors), power * kept
            missing = steady * (1 - power) - factors[1]
            assert 0 <= missing < min(minute, 1 / (1 - kept))


def test_promise():
    """At one rate, over every minute there is: until nothing changes, which is for ever."""
    rng = draws.Random(0x4D696E75746573)
    books = [example_book(gas) for gas in GASES] + [random_book(rng, n) for n in (1, 2, 3, 4, 5, 6, 16)]
    for book in books + [line_book(1, 1, 1), line_book(60_000_000_000_000, 1, 60_000_000_000_000)]:
        for v in (0, 1, 18, 60, 100, 1_000, 100_000, rng.spread(0, 100_000)):
            assert ref.check_minutes(v, book, 100_000) is not None


def most_missing(v, book):
    """For each member the grains that can be missing from the exact steady factor once nothing changes: less than these, but
    for member 0. At rest x = (6,000 T x + K F) / (K + (6,000 + v) T) rounded down, so K F < (x + 1) * (K + v T) + 6,000 T,
    and x is less than 1 + 6,000 T / (K + v T) below F K / (K + v T). F has its own missing grains, and one for its rounding."""
    most = [0]
    for i in range(1, book.n):
        T = book.members[i].T
        flow = sum(feed.share * most[feed.from_] for feed in book.feeds_into[i])
        most.append(1 + ref.Fraction(6_000 * T + ref.K * (1 + ref.Fraction(flow, 100_000)), ref.K + v * T))
    return most


def test_at_rest():
    """Nothing changes any more near the steady factors, never above the reported ones either, and seldom at them: each minute
    is rounded down. (F of this minute is at most F of the balance, and a minute cannot pass F K / (K + v T) from below.)
    Of thoron at rate 0 up to 1,011 grains stay missing, a billionth of G, and it takes 19,878 minutes."""
    seen = {}
    for gas in GASES:
        book = example_book(gas)
        for v in (0, 18, 60, 100, 1_000, 100_000):
            rest = ref.check_minutes(v, book, 60_000)
            factors = ref.minutes_later(v, rest, book, ref.shut_room(book))
            reported, exact = ref.reported_factors(v, book), ref.exact_factors(v, book)
            assert all(x <= most for x, most in zip(factors, reported))
            missing = [most * G - x for x, most in zip(factors, exact)]
            assert missing[0] == 0
            assert all(0 <= less < most for less, most in zip(missing[1:], most_missing(v, book)[1:]))
            seen[gas, v] = rest, max(most - x for x, most in zip(factors, reported))
    assert seen["radon", 0] == (1_011, 76) and seen["radon", 18] == (908, 61)
    assert seen["thoron", 0] == (19_878, 1_011) and seen["actinon", 0] == (1_290, 65)
    assert [seen[gas, 100_000] for gas in GASES] == [(9, 0), (7, 0), (9, 0)]


def test_not_reached():
    """Where the promise stops: the steady factor is a limit, which rounding can keep out of reach for ever."""
    for T, below in ((1, 1), (T1, 60)):  # T' stops where (6,000 x + 100 G) / 6,100 is less than x + 1: at G - 60
        book = line_book(T)
        rest = ref.check_minutes(0, book, 10_000)
        assert ref.minutes_later(0, rest, book, ref.shut_room(book)) == [G, G - below]
        assert ref.reported_factors(0, book) == [G, G]


def test_change_of_rate():
    """What the promise does not say: over a change of rate a factor may fall, and stand above the steady factor of its rate.
    It speaks of one fixed rate from the shut room on."""
    book = line_book(60_000_000_000_000)
    shut = ref.opening_factors([(0, 1_440)], book)
    aired = ref.opening_factors([(0, 1_440), (100_000, 1)], book)
    assert aired[1] < shut[1] and aired[1] > 100 * ref.reported_factors(100_000, book)[1]
    # Nor does a rate's return bring back its factors.
    again = ref.opening_factors([(0, 1_440), (100_000, 1), (0, 1)], book)
    assert aired[1] < again[1] < shut[1]


def test_periods_joined():
    """One rate in two periods is one period; and a list of periods lies between its lowest rate and its highest, minute for
    minute: less air in a minute never gives a factor that is lower then or later."""
    rng = draws.Random(0x506572696F6473)
    for _ in range(150):
        book = random_book(rng, rng.between(2, 6))
        periods = [(draws.random_rate(rng), rng.between(1, 40)) for _ in range(rng.between(2, 5))]
        v, minutes = periods[0]
        cut = rng.between(1, minutes)
        in_two = [(v, cut), (v, minutes - cut)] if cut < minutes else [(v, cut)]
        factors = ref.opening_factors(periods, book)
        assert ref.opening_factors(in_two + periods[1:], book) == factors
        total = sum(minutes for _, minutes in periods)
        least = ref.opening_factors([(max(v for v, _ in periods), total)], book)
        most = ref.opening_factors([(min(v for v, _ in periods), total)], book)
        assert all(a <= x <= b <= G for a, x, b in zip(least, factors, most))


def test_opening_refusals():
    """Each part of R-5's sentence on 3 and 22, and their places: 3, 22, the book's, 19."""
    book = one_feed_book()
    call = ref.opening_call
    assert call([100_000, 1], book, 2) == [G, 1_036_297_481] and call([100_001, 1], book, 2) == 3
    assert call([0, 1, 0], book, 2) == call([0, 1, 100_000], book, 2) == 22  # odd
    assert call([0, 1, 100_001], book, 2) == call([100_001], book, 2) == 3  # an unpaired last number is a rate
    assert call([], book, 2) == call([0, 1] * 33, book, 2) == 22  # count
    assert isinstance(call([0, 1] * 32, book, 2), list)
    assert call([0, 0], book, 2) == call([0, 1_441], book, 2) == 22  # length
    assert isinstance(call([0, 1_440], book, 2), list)
    assert call([0, 100_001], book, 2) == 22  # minutes are no rate
    assert call([0, 0, 100_001, 1], book, 2) == call([0, 1] * 32 + [100_001, 1], book, 2) == 3
    assert call([0, 0], b"", 0) == 22 and call([0, 1], b"", 0) == 9
    assert call([0, 1], book, 1) == 19 and call([0, 0], book, 1) == 22 and len(call([0, 1], book, 20)) == 2


def test_opening_text():
    """What `opening` writes: for periods, and at one rate for every so many minutes."""
    book = one_feed_book()
    assert ref.opening_lines([300, 2], book) == "factor 0 1099511627776\nfactor 1 33285996544\n"
    assert ref.opening_lines([300, 0], book) == "refused 22\n" and ref.opening_lines([100_001], b"") == "refused 3\n"
    lines = ref.opening_every([300, 5], 2, ref.read_book(book))  # (1 - (15/16)^2) / 4 and (1 - (15/16)^4) / 4
    assert lines == "2 1.000E+00 3.027E-02\n4 1.000E+00 5.688E-02\n"
    assert ref.opening_every([300, 1], 1, ref.read_book(book)) == "1 1.000E+00 1.563E-02\n"  # a 64th: a half, which goes up
    assert ref.opening_every([300, 4], 5, ref.read_book(book)) == ""
    two = ref.opening_every([300, 1, 300, 4], 2, ref.read_book(book))  # a period that is cut in two leaves the same minutes
    assert two == lines
    changed = ref.opening_every([300, 1, 0, 1], 2, ref.read_book(book))  # the second minute is counted on, at its own rate
    assert changed.startswith("2 ") and changed != lines.splitlines(keepends=True)[0]
    assert len(ref.opening_every([18, 1_440], 60, example_book("radon")).splitlines()) == 24


# ---- How much fan is enough (R-6) ----------------------------------------------------------------


def fanned(book, c, target, v=0):
    """The text of `fan` for a residential risk and c pCi/m3, so that C is 37 c."""
    job = pack_job(v=v, unit=1, value=bits(float(c)), target=target) + book
    text = ref.fan_answer(job)
    ref.check_lowest(job, text)
    return text


def test_lowest_rows():
    """Document 01's chain of T' at C = 111,000: 1,610 * 3 * (factor + 2, at most G) against target * G, and the factor is
    100 G / (100 + v), rounded down. So the sides meet where 100 + v is 483,000 / target; there the verdict is 'close'."""
    chain = one_feed_book(h=1_000)
    for target, rate in ((1_610, 201), (1_611, 200), (1_609, 201), (2_415, 101), (2_416, 100), (4_829, 1), (6, 80_401), (5, 96_501)):
        assert fanned(chain, 3_000, target, v=200) == f"rate {rate}\n", target
    assert fanned(chain, 3_000, 4_830) == "rate 0\n"  # the factor is G, and High is capped there
    assert fanned(chain, 3_000, 4) == "rate none\n"  # 100 + v would be 120,750
    for target, verdict in ((1_610, "close"), (1_609, "above"), (1_611, "below")):
        assert field(screened(chain, 111_000, target, v=200), "verdict") == verdict


def test_lowest_at_both_ends():
    """With h = 1,000,000 and c = 100 + V the sides meet at V for target 161,000. 'close' there, so that V + 1 is the answer; one
    more makes V the answer, after 'above'."""
    chain = one_feed_book(h=1_000_000)
    for V in (1, 2, 99, 1_000, 99_998, 99_999):
        assert fanned(chain, 100 + V, 161_000) == f"rate {V + 1}\n"
        assert fanned(chain, 100 + V, 161_001) == f"rate {V}\n"
        assert fanned(chain, 100 + V, 160_999) == f"rate {V + 1}\n"
    assert fanned(chain, 100_100, 161_000) == "rate none\n"  # 100,000 is 'close'
    assert fanned(chain, 100_100, 160_999) == "rate none\n"  # 100,000 is 'above'
    assert fanned(chain, 100_100, 161_001) == "rate 100000\n"
    half = one_feed_book(share=50_000, h=1_000_000)
    assert fanned(half, 100, 80_500) == "rate 1\n"  # 0 is 'close': half of G, and 2 grains more
    assert fanned(half, 100, 80_501) == "rate 0\n" and fanned(half, 100, 80_499) == "rate 1\n"


def test_lowest_without_daughters():
    """The parent's factor does not depend on the rate: 0, or none."""
    parent = parent_book(h=1_000)
    assert fanned(parent, 1_000, 1_610) == "rate 0\n" and fanned(parent, 1_000, 1_609) == "rate none\n"
    assert fanned(parent_book(), 1_000, 0) == fanned(parent, 0, 0) == "rate 0\n"
    assert fanned(parent, 1_000, 0) == "rate none\n"


def test_lowest_ignores_own_rate():
    """The job's own rate is checked (3, in its usual place) and otherwise ignored."""
    chain = one_feed_book(h=1_000)
    for v in (0, 199, 200, 201, 202, 99_999, 100_000):
        assert fanned(chain, 3_000, 1_610, v=v) == "rate 201\n"
    for v in (100_001, (1 << 32) - 1):
        assert fanned(chain, 3_000, 1_610, v=v) == "refused 3\n"
        assert ref.fan_answer(pack_job(v=v, target=10**9 + 1)) == "refused 3\n"
        assert ref.fan_answer(pack_job(v=v, kind=2)) == "refused 2\n"
    assert ref.fan_answer(pack_job(v=100_000)) == "refused 9\n" and ref.fan_answer(b"") == "refused 1\n"


def test_halves():
    """The halves against the definition, on any rates in rising order, and on short lists of them."""
    rng = draws.Random(0x48616C766573)
    for _ in range(150):
        job, C, book = ref.read_all(draws.random_case(rng, rng.between(1, 5)).data())
        job = job._replace(target=C * ref.high_sum(job._replace(v=rng.spread(0, 300)), book) // ref.B(job._replace(target=1)))
        start, length = rng.spread(0, 300), rng.between(0, 60)
        for rates in (range(start, start + length), range(300), range(0, 100_001, 1_000)):
            assert ref.first_below_by_halves(rates, job, book, C) == ref.first_below(rates, job, book, C)


# ---- Tables from elsewhere (R-8) -----------------------------------------------------------------

EXAMPLES = pathlib.Path(__file__).resolve().parents[2] / "examples"


def marked(book, *lines):
    """The words of the text: how many are right, close and wrong, and where the first wrong one is."""
    text = "".join(line + "\n" for line in lines).encode("ascii")
    ref.check_marks(text, book)
    return [line.split(" ", 1)[1] for line in ref.marks_answer(text, book).splitlines()]


def test_marks_by_hand():
    """G / 2 at rate 100. At 6,300 it is 2^34 grains, which end the half units of 1.562E-02 and 1.563E-02; the interval goes on
    for two grains."""
    chain = one_feed_book()
    for entry, words in (("5.000E-01", ["2", "0", "0", "none"]), ("4.999E-01", ["1", "0", "1", "1 1"]),
                         ("5.001E-01", ["1", "0", "1", "1 1"]), ("0.000E+00", ["1", "0", "1", "1 1"])):
        assert marked(chain, f"100 1.000E+00 {entry}") == words
    for entry, words in (("1.561E-02", ["1", "0", "1", "1 1"]), ("1.562E-02", ["1", "1", "0", "none"]),
                         ("1.563E-02", ["2", "0", "0", "none"]), ("1.564E-02", ["1", "0", "1", "1 1"])):
        assert marked(chain, f"6300 1.000E+00 {entry}") == words
    assert marked(chain, "100 1.000E+00 5.000E-01", "200 9.999E+00 5.000E-01") == ["2", "0", "2", "2 0"]


def test_marks_of_actinon():
    """Table A-1 of document 000 at 0.1 and 0.18 per hour. Worked elsewhere: six right, six wrong, Po-215 at 0.1 the first."""
    lines = ("10 1.000E+00 9.968E-01 9.201E-01 9.154E-01 9.023E-01 2.500E-03",
             "18 1.000E+00 1.000E+00 8.648E-01 8.569E-01 8.371E-01 2.400E-03")
    assert marked((EXAMPLES / "actinon.book").read_bytes(), *lines) == ["6", "0", "6", "1 1"]


def test_marks_point_by_point():
    """Every half unit with ends at quarters of a grain, up to 5 grains, and every interval of whole grains among them: the mark
    is what a look at every eighth of a grain says."""
    for least, most in itertools.combinations([ref.Fraction(k, 4) for k in range(21)], 2):
        printed = ref.Printed((least + most) / 2 / G, (most - least) / G)
        for low, high in itertools.combinations_with_replacement(range(6), 2):
            inside = [least <= ref.Fraction(k, 8) <= most for k in range(8 * low, 8 * high + 1)]
            word = "right" if all(inside) else "close" if any(inside) else "wrong"
            assert ref.mark(printed, low, high) == word, (least, most, low, high)


def test_form_of_entries():
    """Each byte of some entries replaced by each of the 256: what is accepted is d.dddE-dd, d.dddE+00 or zero, of that value."""
    for entry in (b"1.000E+00", b"0.000E+00", b"9.999E-01", b"5.078E-10", b"1.234E-99"):
        for at, byte in itertools.product(range(9), range(256)):
            word = entry[:at] + bytes([byte]) + entry[at + 1 :]
            try:
                printed = ref.read_entry(word)
            except ref.Refused as refusal:
                assert refusal.number == 24 and not NINE.fullmatch(word.decode("latin-1")), word
            else:
                text = word.decode("ascii")
                assert NINE.fullmatch(text) and printed.share == ref.Fraction(text), word
                assert printed.unit == ref.Fraction(1, 1_000 * 10 ** int(text[-2:])), word


def test_rates_of_a_text():
    """What is accepted is how R-3 writes a rate of up to 100,000, and nothing else that Python takes for a number."""
    for v in (*range(1_200), 9_999, 10_000, 65_536, 99_999, 100_000):
        assert ref.read_rate(str(v).encode()) == v
    for word in (b"", b"00", b"01", b"+1", b"-1", b"-0", b" 1", b"1 ", b"1_0", b"1.0", b"1e2", b"100001", b"9" * 5_000):
        assert marked(parent_book(), word.decode() + " 1.000E+00") == ["24"], word


def test_form_of_texts():
    """The recorded tables, those with a good book, against the whole form in one expression."""
    entry = rb"( ([1-9]\.[0-9]{3}E(\+00|-(0[1-9]|[1-9][0-9]))|0\.000E\+00))"
    met = {True: 0, False: 0}
    for body, said in read_cases(MARKS):
        text, book = MARKS.unpack(body)
        if not said.startswith("refused") or said == "refused 24\n":
            form = rb"((0|[1-9][0-9]{0,4}|100000)" + entry + b"{%d}" % book[0] + rb"\n){1,200}"
            assert bool(re.fullmatch(form, text)) == (not said.startswith("refused")), text
            met[said.startswith("refused")] += 1
    assert min(met.values()) > 150, met


def test_own_tables():
    """Nothing that R-3 writes for the same book is wrong."""
    rng = draws.Random(0x4F776E)
    for _ in range(120):
        case = rng.one_of((draws.random_case, draws.thin_case, draws.capped_case))(rng)
        ref.check_own_table([draws.random_rate(rng) for _ in range(3)], draws.book_of(case))
    for chain in ("actinon", "thoron", "radon"):
        table, book = ((EXAMPLES / f"{chain}.{kind}").read_bytes() for kind in ("table", "book"))
        assert ref.marks_answer(table, book).endswith("wrong 0\nfirst none\n")


# ---- Many rates in one run (R-9) -----------------------------------------------------------------


def run_of(rates, book, width, answers, rows):
    """The run, where the lists have this many places."""
    return ref.rates_call(rates, book, width, [7] * answers, [7] * rows)


def test_runs_by_hand():
    """G, G / 2 and G / 3 at rates 0, 100 and 200. Of the lists that are lent nothing changes."""
    chain, half, third = one_feed_book(), 549_755_813_888, 366_503_875_925
    assert run_of([0, 100, 200], chain, 2, 3, 6) == (3, [2, 2, 2], [G, G, G, half, G, third])
    assert run_of([200, 100_001, 0], chain, 3, 4, 9) == (3, [2, -3, 2, 7], [G, third, 7, 7, 7, 7, G, G, 7])
    assert run_of([100, 200, 0], chain, 2, 2, 3) == (2, [2, -19], [G, half, 7])
    assert run_of([100, 100_001], chain[:-1], 2, 2, 4) == (2, [-11, -3], [7, 7, 7, 7])
    assert run_of([], chain, 2, 1, 1) == (0, [7], [7]) and run_of([0], chain, 0, 1, 1) == (1, [-19], [7])
    answers, rows = [1, 2], [3, 4, 5, 6]
    assert ref.rates_call([100], chain, 2, answers, rows) == (1, [2, 2], [G, half, 5, 6])
    assert (answers, rows) == ([1, 2], [3, 4, 5, 6])


def held(place, rates, book, width, answers, rows):
    """What one place of the rows holds, worked out by itself: its rate's factor, or 7."""
    k, i = divmod(place, width) if width > 0 else (len(rates), 0)
    if k >= min(len(rates), len(answers)):
        return 7
    factors = ref.factor_call(rates[k], book, 16)
    fits = isinstance(factors, list) and len(factors) <= min(width, len(rows) - k * width)
    return factors[i] if fits and i < len(factors) else 7


def test_runs_place_by_place():
    """The recorded runs: each answer from its own rate and row alone, and each place of the rows by itself."""
    for body, said in read_cases(RATES):
        rates, book, width, answers, rows = call = RATES.unpack(body)
        count, *places = said.split(":")
        after, filled = ([int(word) for word in words.split()] for words in places)
        assert count == f"run {min(len(rates), len(answers))} " and len(after) == len(answers)
        for k, (v, answer) in enumerate(zip(rates, after)):
            one = ref.factor_call(v, book, max(0, min(width, len(rows) - k * width)))
            assert answer == (-one if isinstance(one, int) else len(one)), (call, k)
        assert set(after[len(rates) :]) <= {7}
        assert filled == [held(place, *call) for place in range(len(rows))], call


def test_runs_cut_short():
    """A run of whole lists, and the same cut short: what is left is the same, but for rows that have lost one of their n
    places."""
    rng = draws.Random(0x437574)
    for _ in range(40):
        book = draws.book_of(draws.random_case(rng, rng.between(1, 4)))
        n, rates = book[0], [rng.one_of((draws.random_rate(rng), 100_001)) for _ in range(4)]
        width = n + rng.between(0, 2)
        _, answers, rows = run_of(rates, book, width, 4, 4 * width)
        for places in range(5):
            assert run_of(rates, book, width, places, 4 * width) == (
                places, answers[:places], rows[: places * width] + [7] * ((4 - places) * width))
        for room in range(4 * width + 1):
            whole = [k * width + n <= room for k in range(4)]
            assert run_of(rates, book, width, 4, room) == (
                4, [answer if fits or answer == -3 else -19 for answer, fits in zip(answers, whole)],
                [x if whole[place // width] else 7 for place, x in enumerate(rows[:room])])


def main():
    answer_help(__doc__)
    say_passed(run_tests(globals()))


if __name__ == "__main__":
    main()
