"""Documents 01 and 02 (R-1 to R-9) in exact whole numbers and fractions: the check from outside.

It follows document 01's order and words, with exposure in quarter hours as R-1 of document 02 has it,
with R-2's shares of the years for dose, R-3's tables, R-5's rooms minute by minute, R-6's lowest rate, R-7's
second set of coefficients, R-8's marks and R-9's many rates (R-4 changed no answer), and has nothing in common with the
proved program.
A job on standard input gives the text of `screen` on standard output, with --fan that of `fan`;
with --check it also asserts, on that job, what demand 3 promises, and with both what R-6 does.

    reference.py [--check] [--fan] < JOB
"""

import re
import struct
import sys
from collections import namedtuple
from fractions import Fraction
from math import floor

from plain_help import answer_help


class Refused(Exception):
    """A ground for refusal; it carries the ground's number."""

    def __init__(self, number):
        super().__init__(number)
        self.number = number


def refuse_if(met, number):
    if met:
        raise Refused(number)


# ---- Book and job -------------------------------------------------------------------------------

# EF in days per year, ED in years, ET in quarter hours per day (0 to 96, R-1), IRA in m3 per day.
Group = namedtuple("Group", "EF ED ET IRA")
Job = namedtuple("Job", "v kind medium unit target AF value uncertainty child adult")
Member = namedtuple("Member", "T inhalation_risk submersion_risk inhalation_dose submersion_dose w")
Feed = namedtuple("Feed", "share from_")
Book = namedtuple("Book", "n W members feeds_into")  # feeds_into[i]: the feeds of member i, in order

RISK, DOSE = 0, 1
INDOOR_AIR, SOIL_GAS, GROUNDWATER = 0, 1, 2
MOST = 4_000_000_000  # the limit of a concentration, of a coefficient and of a weight

RESIDENTIAL = (Group(350, 6, 96, 10), Group(350, 20, 96, 20))
WORKER = (Group(0, 0, 0, 0), Group(250, 25, 32, 60))


# ---- Balance ------------------------------------------------------------------------------------

G = 2**40  # grains in one
K = 249_532_985_160_000  # 0.693147181 times 3.6 * 10^14


def reported_factors(v, book):
    """The factor of each member in grains, rounded down twice."""
    factors = [G]
    for i in range(1, book.n):
        inflow = sum(feed.share * factors[feed.from_] for feed in book.feeds_into[i])
        F = inflow // 100_000
        factors.append(F * K // (K + v * book.members[i].T))
    return factors


def exact_factors(v, book):
    """The same without rounding, as fractions of G."""
    factors = [Fraction(1)]
    for i in range(1, book.n):
        inflow = sum(feed.share * factors[feed.from_] for feed in book.feeds_into[i])
        factors.append(inflow / 100_000 * Fraction(K, K + v * book.members[i].T))
    return factors


def exact_denominators(v, book):
    """For member i the product of 100,000 * (K + v * T) over members 1 to i."""
    products = [1]
    for member in book.members[1:]:
        products.append(products[-1] * 100_000 * (K + v * member.T))
    return products


# ---- Reading ------------------------------------------------------------------------------------

PER_UNIT = {0: 37_000, 1: 37, 2: 1_000}  # mBq/m3 in one pCi/L, pCi/m3, Bq/m3


def rounded_up(numerator, denominator):
    return -(-numerator // denominator)


def is_reading(bits):
    """Not infinite, not a number, nor with its sign bit set (minus zero has it set too)."""
    sign = bits >> 63
    exponent = bits >> 52 & 0x7FF
    return sign == 0 and exponent != 0x7FF


def converted(bits, unit):
    """The smallest whole number of mBq/m3 not below the exact value of the f64."""
    (number,) = struct.unpack("<d", struct.pack("<Q", bits))
    exact = Fraction.from_float(number) * PER_UNIT[unit]
    return rounded_up(exact.numerator, exact.denominator)


def indoors(total, medium, AF):
    """C: the reading carried into indoor air."""
    if medium == SOIL_GAS:
        return rounded_up(total * AF, 1_000_000)
    if medium == GROUNDWATER:
        return rounded_up(total * 434 * AF, 100_000_000)
    return total


def concentration(job):
    """C, or refusal 8."""
    value = converted(job.value, job.unit)
    uncertainty = converted(job.uncertainty, job.unit)
    refuse_if(value > MOST or uncertainty > MOST or value + uncertainty > MOST, 8)
    C = indoors(value + uncertainty, job.medium, job.AF)
    refuse_if(C > MOST, 8)
    return C


# ---- Verdict ------------------------------------------------------------------------------------


def X(groups):
    return sum(g.EF * g.ED * g.ET * g.IRA for g in groups)


def Y(groups):
    return sum(g.EF * g.ED * g.ET for g in groups)


def Z(groups):
    return sum(g.ED for g in groups)


def share_of_years(g, groups):
    """A group's share of the years (R-2): 100 * ED / Z rounded to the nearest whole, halves up."""
    return floor(Fraction(100 * g.ED, Z(groups)) + Fraction(1, 2))


def dose_X(groups):
    """X for dose (R-2); risk keeps its own."""
    return sum(g.EF * g.ET * g.IRA * share_of_years(g, groups) for g in groups)


def dose_Y(groups):
    """Y for dose (R-2); risk keeps its own."""
    return sum(g.EF * g.ET * share_of_years(g, groups) for g in groups)


def q(job, member):
    groups = (job.child, job.adult)
    if job.kind == RISK:
        return 365 * X(groups) * member.inhalation_risk + Y(groups) * member.submersion_risk
    return 365 * dose_X(groups) * member.inhalation_dose + dose_Y(groups) * member.submersion_dose


def B(job):
    """The target. The 4 is R-1's: X and Y count quarter hours, and 8,760 is still the hours of a year.
    The 100 is R-2's, in place of Z: for dose X and Y count hundredths of the years."""
    if job.kind == RISK:
        return 4 * job.target * 37 * 8_760 * 10**8 * G
    return 4 * job.target * 100 * 37 * 8_760 * 10**7 * G


def low_sum(job, book):
    """The sum of q(i) * reported factor; Low is C times this."""
    factors = reported_factors(job.v, book)
    return sum(q(job, member) * f for member, f in zip(book.members, factors))


def high_sum(job, book):
    """The same with 2i added to each factor, capped at G; High is C times this."""
    factors = reported_factors(job.v, book)
    return sum(q(job, book.members[i]) * min(factors[i] + 2 * i, G) for i in range(book.n))


def exact_sum(job, book):
    """The same with exact factors in grains."""
    factors = exact_factors(job.v, book)
    return sum(q(job, member) * f * G for member, f in zip(book.members, factors))


def gap_sum(job, book):
    return sum(2 * i * q(job, book.members[i]) for i in range(book.n))


def verdict(job, book, C):
    if C * high_sum(job, book) <= B(job):
        return "below"
    if C * low_sum(job, book) > B(job):
        return "above"
    return "close"


def screening_level(job, book):
    """The largest whole C from 0 to 4,000,000,000 with C * high_sum <= B."""
    high = high_sum(job, book)
    return MOST if high == 0 else min(MOST, B(job) // high)


# ---- Working levels -----------------------------------------------------------------------------


def weighed(v, book):
    factors = reported_factors(v, book)
    return sum(book.members[i].w * factors[i] for i in range(1, book.n))


def Fm(v, book):
    """The equilibrium factor in millionths, or None."""
    divisor = weighed(0, book)
    return None if divisor == 0 else 1_000_000 * weighed(v, book) // divisor


def micro_working_levels(C, fm, W):
    return None if fm is None else 10 * C * fm // (37_000 * W)


# ---- Grounds for refusal, in checking order ------------------------------------------------------


def check_rate(v):
    refuse_if(v > 100_000, 3)


def group_too_large(g):
    return g.EF > 366 or g.ED > 100 or g.ET > 96 or g.IRA > 100


def read_job(data):
    """The job and C: checks 1 to 8."""
    refuse_if(len(data) < 48, 1)
    v, kind, medium, unit, zero, target, AF, value, uncertainty = struct.unpack_from("<IBBBBIIQQ", data)
    child = Group(*struct.unpack_from("<4H", data, 32))
    adult = Group(*struct.unpack_from("<4H", data, 40))
    job = Job(v, kind, medium, unit, target, AF, value, uncertainty, child, adult)
    refuse_if(kind > 1 or medium > 2 or unit > 2 or zero != 0, 2)
    check_rate(v)
    refuse_if(target > 1_000_000_000, 4)
    refuse_if(AF > 1_000_000 or (medium == INDOOR_AIR and AF != 1_000_000), 5)
    refuse_if(group_too_large(child) or group_too_large(adult) or Z((child, adult)) == 0, 6)
    refuse_if(not is_reading(value) or not is_reading(uncertainty), 7)
    return job, concentration(job)


def read_book(data):
    """The book: checks 9 to 18."""
    refuse_if(len(data) < 8, 9)
    n, m, W, header_zeros = struct.unpack_from("<BBH4s", data)
    refuse_if(not 1 <= n <= 16 or m > 64, 10)
    refuse_if(len(data) != 8 + 32 * n + 8 * m, 11)

    raw_members = [struct.unpack_from("<Q5IB3s", data, 8 + 32 * i) for i in range(n)]
    raw_feeds = [struct.unpack_from("<IBB2s", data, 8 + 32 * n + 8 * k) for k in range(m)]
    members = [Member(*raw[:6]) for raw in raw_members]
    first = [raw[6] for raw in raw_members]
    feeds = {k + 1: Feed(raw[0], raw[1]) for k, raw in enumerate(raw_feeds)}  # feeds count from 1
    next_ = {k + 1: raw[2] for k, raw in enumerate(raw_feeds)}
    zeros = header_zeros + b"".join(raw[7] for raw in raw_members) + b"".join(raw[3] for raw in raw_feeds)

    refuse_if(W == 0 or any(zeros), 12)
    for i, member in enumerate(members):
        longest = 10**15 if i == 0 else 60_000_000_000_000
        refuse_if(not 1 <= member.T <= longest or max(member[1:]) > MOST, 13)
    for feed in feeds.values():
        refuse_if(not 1 <= feed.share <= 100_000 or feed.from_ >= n, 14)
    refuse_if(any(number > m for number in first + list(next_.values())), 14)
    chains = walk(first, next_)
    refuse_if(chains[0] != [] or any(chain == [] for chain in chains[1:]), 16)
    for i, chain in enumerate(chains):
        refuse_if(any(feeds[number].from_ >= i for number in chain), 17)
    for i in range(n):
        refuse_if(sum(feed.share for feed in feeds.values() if feed.from_ == i) > 100_000, 18)
    return Book(n, W, members, [[feeds[number] for number in chain] for chain in chains])


def walk(first, next_):
    """Each member's feed numbers, its first, then along next; refusal 15 if one comes up twice or never."""
    seen = set()
    chains = []
    for number in first:
        chain = []
        while number != 0:
            refuse_if(number in seen, 15)
            seen.add(number)
            chain.append(number)
            number = next_[number]
        chains.append(chain)
    refuse_if(len(seen) < len(next_), 15)
    return chains


def factor_call(v, book_bytes, room):
    """The n numbers that fill the lent list's first places, or the number of the refusal."""
    try:
        check_rate(v)
        book = read_book(book_bytes)
        refuse_if(room < book.n, 19)
    except Refused as refusal:
        return refusal.number
    return reported_factors(v, book)


# ---- Tables for the binder (R-3) -----------------------------------------------------------------


def entry(x):
    """A factor of x grains, 0 to G, in nine characters: its share of G, rounded to the nearest, halves up."""
    if x == 0:
        return "0.000E+00"
    share = Fraction(x, G)
    places = 0  # the first digit counts times 10^-places
    while share < Fraction(1, 10**places):
        places += 1
    thousandths = floor(share * 10**places * 1_000 + Fraction(1, 2))
    if thousandths == 10_000:  # rounded up to ten: 1.000, one place higher
        thousandths, places = 1_000, places - 1
    sign = "+" if places == 0 else "-"
    return f"{thousandths // 1_000}.{thousandths % 1_000:03d}E{sign}{places:02d}"


def table_line(v, book):
    """The rate in hundredths, then each member's reported factor."""
    words = [str(v)] + [entry(x) for x in reported_factors(v, book)]
    return " ".join(words) + "\n"


def table_text(rates, book):
    return "".join(table_line(v, book) for v in rates)


def table_call(rates, book_bytes, room):
    """The text that begins the lent buffer of `room` bytes, or the number of the refusal: checks 3, 9 to 18, 20, 21."""
    try:
        for v in rates:
            check_rate(v)
        book = read_book(book_bytes)
        refuse_if(not 1 <= len(rates) <= 200, 20)
        text = table_text(rates, book)
        refuse_if(len(text) > room, 21)
    except Refused as refusal:
        return refusal.number
    return text


# ---- Rooms that open at eight (R-5) --------------------------------------------------------------


def shut_room(book):
    """Before the first minute: member 0 has G, the others start at 0."""
    return [G] + [0] * (book.n - 1)


def minute_later(v, book, old):
    """The factors one minute later at rate v, in member order; F is formed from this minute's factors, not the old ones."""
    new = [G]
    for i in range(1, book.n):
        T = book.members[i].T
        F = sum(feed.share * new[feed.from_] for feed in book.feeds_into[i]) // 100_000
        new.append((6_000 * T * old[i] + K * F) // (K + (6_000 + v) * T))
    return new


def minutes_later(v, minutes, book, factors):
    """The same minute after minute, at one rate."""
    for _ in range(minutes):
        factors = minute_later(v, book, factors)
    return factors


def opening_factors(periods, book):
    """The factors at the end: each period begins with what the one before it has left."""
    factors = shut_room(book)
    for v, minutes in periods:
        factors = minutes_later(v, minutes, book, factors)
    return factors


def in_turn(numbers):
    """The periods: rate and minutes in turn. An unpaired last number begins no period."""
    return list(zip(numbers[0::2], numbers[1::2]))


def check_periods(numbers):
    """Check 22: the list's length is odd, or the count or the length of periods is out of range."""
    refuse_if(len(numbers) % 2 == 1, 22)
    refuse_if(not 1 <= len(in_turn(numbers)) <= 32, 22)
    refuse_if(any(not 1 <= minutes <= 1_440 for _, minutes in in_turn(numbers)), 22)


def opening_call(numbers, book_bytes, room):
    """The n numbers that fill the lent list's first places, or the number of the refusal: checks 3, 22, 9 to 19."""
    try:
        for rate in numbers[0::2]:  # every second number from the first, so an unpaired last one too
            check_rate(rate)
        check_periods(numbers)
        book = read_book(book_bytes)
        refuse_if(room < book.n, 19)
    except Refused as refusal:
        return refusal.number
    return opening_factors(in_turn(numbers), book)


def opening_lines(numbers, book_bytes):
    """The text that `opening` writes for a list of periods; its own list has room for any book."""
    answered = opening_call(numbers, book_bytes, 16)
    if isinstance(answered, int):
        return f"refused {answered}\n"
    return "".join(f"factor {i} {grains}\n" for i, grains in enumerate(answered))


def minute_line(minute, factors):
    """A line in R-3's form, with the minute in place of the rate."""
    return " ".join((str(minute), *map(entry, factors))) + "\n"


def opening_every(periods, every, book):
    """A line for each minute of the periods that is a multiple of `every`, counted from the shut room on."""
    rates = sum(([v] * minutes for v, minutes in zip(periods[::2], periods[1::2])), [])
    factors, text = shut_room(book), ""
    for minute, v in enumerate(rates, 1):
        factors = minutes_later(v, 1, book, factors)
        if minute % every == 0:
            text += minute_line(minute, factors)
    return text


# ---- The partner's coefficients (R-7) ------------------------------------------------------------

NOT_LENT = b""


def set_in_use(second):
    """Its name: 1 for the book's set, 2 for the second. No bytes means not lent."""
    return 1 if second == NOT_LENT else 2


def read_second(data, n):
    """n groups of five numbers, in the member's order and widths: check 23."""
    refuse_if(len(data) != 20 * n, 23)
    groups = [struct.unpack_from("<5I", data, 20 * i) for i in range(n)]
    refuse_if(any(max(group) > MOST for group in groups), 23)
    return groups


def in_use(book, second):
    """The book with the numbers in use. Half-lives, feeds and W are always its own."""
    if set_in_use(second) == 1:
        return book
    groups = read_second(second, book.n)
    return book._replace(members=[Member(member.T, *group) for member, group in zip(book.members, groups)])


# ---- Tables from elsewhere, and the program `marks` -----------------------------------------

# An entry as printed: its share of G, and the unit of its last place.
Printed = namedtuple("Printed", "share unit")
Mark = namedtuple("Mark", "line member word")  # lines count from 1, members from 0


def read_rate(word):
    """Whole hundredths, 0 to 100,000, in digits without leading zeros."""
    refuse_if(not re.fullmatch(b"0|[1-9][0-9]*", word), 24)
    refuse_if(len(word) > 6 or int(word) > 100_000, 24)
    return int(word)


def read_entry(word):
    """d.dddE-dd or d.dddE+00, first digit 1 to 9, dd from 01 to 99; zero is 0.000E+00."""
    refuse_if(not re.fullmatch(rb"[1-9][.][0-9]{3}E(-[0-9]{2}|[+]00)|0[.]000E[+]00", word), 24)
    refuse_if(word.endswith(b"-00"), 24)
    places = int(word[7:]) + 3  # of the last digit, after the point
    return Printed(Fraction(int(word[:1] + word[2:5]), 10**places), Fraction(1, 10**places))


def read_line(line, n):
    """The rate, then each of n members' entry, with single spaces between."""
    rate, *words = line.split(b" ")
    refuse_if(len(words) != n, 24)
    return read_rate(rate), [read_entry(word) for word in words]


def read_lines(text, n):
    """1 to 200 lines, each with a line feed last: check 24."""
    *lines, rest = text.split(b"\n")
    refuse_if(rest != b"" or not 1 <= len(lines) <= 200, 24)
    return [read_line(line, n) for line in lines]


def interval(i, x):
    """In grains: from the reported factor x of member i to 2i above it, at most G."""
    return x, min(x + 2 * i, G)


def mark(printed, low, high):
    """The word for an entry, and the interval from low to high: every point of it is within half a unit of the last place,
    ends counted, none is, or some are and some are not."""
    least, most = (printed.share - printed.unit / 2) * G, (printed.share + printed.unit / 2) * G
    if least <= low and high <= most:
        return "right"
    if high < least or most < low:
        return "wrong"
    return "close"


def line_marks(v, entries, book):
    return [mark(printed, *interval(i, x)) for i, (printed, x) in enumerate(zip(entries, reported_factors(v, book)))]


def marks(lines, book):
    """Every entry's mark, in reading order."""
    return [Mark(number, member, word) for number, (v, entries) in enumerate(lines, 1)
            for member, word in enumerate(line_marks(v, entries, book))]


def marks_call(text, book_bytes):
    """The marks, or the number of the refusal: checks 9 to 18, 24."""
    try:
        book = read_book(book_bytes)
        lines = read_lines(text, book.n)
    except Refused as refusal:
        return refusal.number
    return marks(lines, book)


def marks_answer(text, book_bytes):
    """The text that `marks` writes: how many are right, close and wrong, and where the first wrong one is."""
    found = marks_call(text, book_bytes)
    if isinstance(found, int):
        return f"refused {found}\n"
    counts = "".join(f"{word} {sum(one.word == word for one in found)}\n" for word in ("right", "close", "wrong"))
    first = next((f"{one.line} {one.member}" for one in found if one.word == "wrong"), "none")
    return counts + f"first {first}\n"


# ---- Many rates in one run (R-9) -----------------------------------------------------------------


def factors_in(row, v, book_bytes):
    """What the factor call answers for one rate, n or minus the refusal's number, and the row as it leaves it."""
    filled = factor_call(v, book_bytes, len(row))
    if isinstance(filled, int):
        return -filled, row
    return len(filled), filled + row[len(filled) :]


def rates_call(rates, book_bytes, width, answers, rows):
    """How many rates are run, and both lent lists afterwards: for each rate the factor call, to which its row is lent.

    A rate without a place for its answer is not run. That the book is read anew for each rate makes no difference."""
    count = min(len(rates), len(answers))
    answers, rows = list(answers), list(rows)
    for k in range(count):
        row = slice(k * width, (k + 1) * width)  # shorter where the list ends within it, or empty
        answers[k], rows[row] = factors_in(rows[row], rates[k], book_bytes)
    return count, answers, rows


# ---- The program `screen` -----------------------------------------------------------------------


def read_all(job_bytes, second=NOT_LENT):
    """Job, C and the book with the numbers in use: checks 1 to 18, then 23."""
    job, C = read_job(job_bytes)
    return job, C, in_use(read_book(job_bytes[48:]), second)


def told(tell, job_bytes, second):
    """What is told of a job that is accepted with this second set, or the line of the refusal."""
    try:
        job, C, book = read_all(job_bytes, second)
    except Refused as refusal:
        return f"refused {refusal.number}\n"
    return tell(job, book, C)


def report(job, book, C):
    """The lines of an accepted job; the book has the numbers in use."""
    fm = Fm(job.v, book)
    working = micro_working_levels(C, fm, book.W)
    lines = [f"factor {i} {f}" for i, f in enumerate(reported_factors(job.v, book))]
    lines.append(f"concentration {C}")
    lines.append(f"verdict {verdict(job, book, C)}")
    lines.append(f"level {screening_level(job, book)}")
    lines.append(f"equilibrium {'none' if fm is None else fm}")
    lines.append(f"working {'none' if working is None else working}")
    return "".join(line + "\n" for line in lines)


def answer(job_bytes, second=NOT_LENT):
    """The text that `screen` writes, which lends none."""
    return told(report, job_bytes, second)


# ---- How much fan is enough, and the program `fan` -----------------------------------------

RATES = range(100_001)  # 0 to 100,000
FEW = 2_000  # how many rates are looked at one by one, as the definition says


def verdict_at(v, job, book, C):
    """The verdict on the job at the rate v; its own rate plays no part."""
    return verdict(job._replace(v=v), book, C)


def first_below(rates, job, book, C):
    """R-6's definition: the first of the rates, in order, at which the verdict is 'below', or None."""
    for rate in rates:
        if verdict_at(rate, job, book, C) == "below":
            return rate
    return None


def first_below_by_halves(rates, job, book, C):
    """The same for rates in rising order, looking at few of them.

    F * K / (K + v * T), rounded down, never rises with v, and F never rises where the factors that it is formed from do
    not. So no reported factor rises with the rate, nor does High: once 'below', the verdict stays 'below'."""
    before, after = -1, len(rates)  # not 'below' up to place `before`, 'below' from place `after` on
    while after - before > 1:
        place = (before + after) // 2
        if verdict_at(rates[place], job, book, C) == "below":
            after = place
        else:
            before = place
    return rates[after] if after < len(rates) else None


def lowest_rate(job, book, C):
    """The lowest rate from 0 to 100,000 at which the verdict is 'below', or None.

    The first FEW rates are looked at by the definition. Only where none of them will do are the others halved, since all
    100,001 would take seconds here."""
    found = first_below(RATES[:FEW], job, book, C)
    return first_below_by_halves(RATES[FEW:], job, book, C) if found is None else found


def rate_line(job, book, C):
    rate = lowest_rate(job, book, C)
    return f"rate {'none' if rate is None else rate}\n"


def fan_answer(job_bytes, second=NOT_LENT):
    """The text that `fan` writes, which lends none. The job is checked as a whole job is, its own rate too."""
    return told(rate_line, job_bytes, second)


# ---- The program `partner` (R-7) -----------------------------------------------------------------


def partner_answer(second, job_bytes):
    """The text that `partner` writes: the set in use, the report and the lowest rate with it. A refusal names no set."""
    def both(job, book, C):
        return f"set {set_in_use(second)}\n" + report(job, book, C) + rate_line(job, book, C)
    return told(both, job_bytes, second)


# ---- Demand 3, asserted on one job --------------------------------------------------------------


def check_factors(v, book):
    """Reported is never above exact and less than 2i grains below; member 0's two are equal."""
    reported, exact, denominators = reported_factors(v, book), exact_factors(v, book), exact_denominators(v, book)
    assert reported[0] == G and exact[0] == 1
    for i in range(book.n):
        assert (exact[i] * denominators[i]).denominator == 1, "the stated numerator is whole"
        assert reported[i] <= exact[i] * G <= G
        assert i == 0 or exact[i] * G < reported[i] + 2 * i


def check_verdict(job, book, C):
    """'Below' and 'above' are true of the exact quantity; 'close' only within the gap."""
    low, high = C * low_sum(job, book), C * high_sum(job, book)
    exact, gap, target = C * exact_sum(job, book), C * gap_sum(job, book), B(job)
    said = verdict(job, book, C)
    assert low <= exact <= high <= low + gap
    assert max(high, target, low + gap) < 2**192
    assert said != "below" or exact <= target
    assert said != "above" or exact > target
    assert said != "close" or abs(exact - target) < gap
    # The other way about: outside the gap the verdict is the exact one.
    assert said == "above" or exact - target < gap or gap == 0
    assert said == "below" or target - exact < gap or gap == 0


def check_level(job, book):
    level = screening_level(job, book)
    assert verdict(job, book, level) == "below"
    assert level == MOST or verdict(job, book, level + 1) != "below"


def check(job_bytes, second=NOT_LENT):
    """Assert demand 3, with the numbers in use; a refused job promises nothing beyond its number."""
    try:
        job, C, book = read_all(job_bytes, second)
    except Refused:
        return
    check_factors(job.v, book)
    check_factors(0, book)
    check_verdict(job, book, C)
    check_level(job, book)


# ---- R-5's promise, asserted at one rate ---------------------------------------------------------


def check_minutes(v, book, minutes):
    """At one fixed rate no factor is lower than the minute before or higher than the exact steady one.

    The answer is the minute after which nothing changes, so that all later ones are checked with it, or None if it
    does not come within the minutes given."""
    steady = [x * G for x in exact_factors(v, book)]
    before = shut_room(book)
    for minute in range(1, minutes + 1):
        now = minute_later(v, book, before)
        assert now[0] == G
        assert all(old <= new for old, new in zip(before, now)), minute
        assert all(new <= most for new, most in zip(now, steady)), minute
        if now == before:
            return minute - 1
        before = now
    return None


# ---- R-6's promise, asserted on one job ----------------------------------------------------------


def with_rate(v, job_bytes):
    """The same job with another rate of its own."""
    return struct.pack("<I", v) + job_bytes[4:]


def some_rates(count):
    """Some of the rates 0 to count - 1: both ends and what lies between at even distances."""
    return sorted({place * (count - 1) // 12 for place in range(13)} | {max(count - 2, 0)}) if count > 0 else []


def check_lowest(job_bytes, text, second=NOT_LENT):
    """Assert R-6 of a job and of what `fan` has printed for it. Run at the answer the job prints 'below'; every lower rate gives
    another verdict, at 'none' every rate up to 100,000; and the job's own rate alters nothing. A refusal is that of `screen`.
    With a second set it is the same, with its numbers."""
    if text.startswith("refused"):
        assert text == answer(job_bytes, second)
        return
    rate = None if text == "rate none\n" else int(text.split()[1])
    assert rate is None or 0 <= rate <= 100_000 and text == f"rate {rate}\n"
    assert rate is None or "\nverdict below\n" in answer(with_rate(rate, job_bytes), second)
    for v in some_rates(100_001 if rate is None else rate):
        assert "\nverdict below\n" not in answer(with_rate(v, job_bytes), second), v
    for v in {0, 100_000, rate or 0}:
        job, C, book = read_all(with_rate(v, job_bytes), second)
        assert first_below_by_halves(RATES, job, book, C) == rate, v


# ---- R-8's promise, asserted on one table --------------------------------------------------------


def check_marks(text, book_bytes):
    """A right entry is within half a unit of its last place of the exact factor, and a wrong one isn't."""
    found = marks_call(text, book_bytes)
    if isinstance(found, int):
        return
    book = read_book(book_bytes)
    lines = read_lines(text, book.n)
    exact = [exact_factors(v, book) for v, _ in lines]
    for line, member, word in found:
        printed = lines[line - 1][1][member]
        within = abs(exact[line - 1][member] - printed.share) <= printed.unit / 2
        assert within or word != "right", (line, member)
        assert not within or word != "wrong", (line, member)


def check_own_table(rates, book_bytes):
    """Nothing that R-3 writes for the same book is ever marked wrong."""
    text = table_text(rates, read_book(book_bytes)).encode("ascii")
    assert marks_answer(text, book_bytes).endswith("\nwrong 0\nfirst none\n")
    check_marks(text, book_bytes)


def main():
    answer_help(__doc__)
    words = sys.argv[1:]
    if len(set(words)) < len(words) or not set(words) <= {"--check", "--fan"}:
        sys.exit("usage: reference.py [--check] [--fan] < JOB")
    job_bytes = sys.stdin.buffer.read()
    text = fan_answer(job_bytes) if "--fan" in words else answer(job_bytes)
    if "--check" in words:
        check(job_bytes)
    if "--check" in words and "--fan" in words:
        check_lowest(job_bytes, text)
    sys.stdout.write(text)


if __name__ == "__main__":
    main()
