"""Recorded tables (document 02, R-3): calls typed and from a fixed seed, and the reference's answer to each.
make_recorded.py writes them.

The count of every outcome is made too, that of entries by exponent, and that of entries which were exactly half way
between two.
"""

from math import ceil, floor

import draws
import reference as ref
import table_edges
from damage import damaged_book, damaged_twice
from draws import book_of, capped_case, random_case, thin_case
from recorded import TABLE
from recorder import Recorder, outcomes
from small_books import falling, split

FAR_TOO_MUCH = 65_536  # bytes of a buffer


# ---- Good tables ---------------------------------------------------------------------------------


def random_rate(rng):
    return rng.one_of((draws.random_rate(rng), rng.between(0, 10 ** rng.between(1, 5))))


def random_rates(rng, most):
    """Rates of every length, in any order; now and then one comes again."""
    rates = [random_rate(rng) for _ in range(rng.between(1, most))]
    return rates + [rates[0]] * (rng.between(0, 5) == 0)


def spare_room(rng):
    return rng.one_of((0, 0, 0, 1, 1, 2, rng.between(3, 40)))


def enough(rng, rates, book):
    """The call with room for its text, and now and then a little more."""
    return rates, book, len(ref.table_text(rates, ref.read_book(book))) + spare_room(rng)


def random_tables(rng):
    made = [enough(rng, random_rates(rng, 8), book_of(random_case(rng))) for _ in range(70)]
    made += [enough(rng, random_rates(rng, 4), book_of(random_case(rng, n))) for n in range(1, 17)]
    made += [enough(rng, random_rates(rng, 4), book_of(random_case(rng, n, 64))) for n in (2, 5, 16)]
    made += [enough(rng, random_rates(rng, 6), book_of(thin_case(rng))) for _ in range(16)]
    made += [enough(rng, random_rates(rng, 6), book_of(capped_case(rng))) for _ in range(8)]
    return made


def long_tables(rng):
    """Many rates: 199 and 200 of them, the longest text that there is, and far more room than is needed."""
    made = [enough(rng, [rng.between(0, 100_000) for _ in range(count)], book_of(random_case(rng, n)))
            for count, n in ((199, 2), (200, 3), (200, 1), (120, 6), (60, 16))]
    widest = book_of(random_case(rng, 16, 64))
    made.append(([100_000] * 200, widest, 200 * (6 + 16 * 10 + 1)))
    made.append((random_rates(rng, 9), book_of(random_case(rng, 4)), FAR_TOO_MUCH))
    made.append((random_rates(rng, 9), book_of(random_case(rng, 5)), 10_000))
    return made


def near_boundary(rng, x):
    """The last whole number of grains below, or the first not below, some half way between two entries near x."""
    power = next(k for k in range(14) if x * 10**k >= ref.G)
    boundary = (floor(ref.Fraction(x * 10 ** (power + 3), ref.G)) + ref.Fraction(1, 2)) * ref.Fraction(ref.G, 10 ** (power + 3))
    return rng.one_of((floor(boundary), ceil(boundary)))


def boundary_grains(rng):
    """A falling list of up to 15 factors near such boundaries, none less than a 24th of the one before."""
    grains, x = [], ref.G
    for _ in range(15):
        below = near_boundary(rng, max(1, x * 10 // rng.between(12, 180)))
        if 0 < below < x and below * 24 > x:
            grains.append(below)
            x = below
    return grains


def boundary_tables(rng):
    """Entries close to their boundaries at rate 100, and the lines of other rates besides."""
    made = []
    for k in range(30):
        rates = rng.shuffled([100] + random_rates(rng, 3) * (k % 3 == 0))
        made.append(enough(rng, rates, falling(*boundary_grains(rng))))
    return made


def share_tables(rng):
    """The parent's shares at rate 0, with a 5 as the fifth digit: the exact factor is a half, the reported one a little less."""
    made = []
    for _ in range(12):
        shares = [10 * rng.between(1_000, 1_900) + 5 for _ in range(rng.between(1, 5))]
        made.append(enough(rng, [0], split(*shares)))
    return made


# ---- Refused tables ------------------------------------------------------------------------------


def short_tables(rng):
    """Good but for the room: one byte too little, one line, or nearly all of it."""
    made = []
    for _ in range(14):
        rates, book = random_rates(rng, 8), book_of(random_case(rng))
        length = len(ref.table_text(rates, ref.read_book(book)))
        made.append((rates, book, rng.one_of((length - 1, length - 1, length - 11, rng.between(0, length - 1)))))
    return made


def damaged_tables(rng):
    """Every ground of the book, in two ways with good rates, then in one with a wrong number of rates."""
    made = []
    for ground in range(9, 19):
        for rates in (random_rates(rng, 5), random_rates(rng, 5), []):
            book = damaged_book(rng, ground)
            made.append((rates, book, rng.one_of((0, 5, rng.between(0, 120)))))
    return made


def two_ground_tables(rng):
    """Neighbouring grounds of the book in one book, with 20 besides; and a rate out of range with each."""
    made = []
    for ground in range(9, 18):
        made.append(([], damaged_twice(rng, ground), 40))
        if ground % 3 == 0:
            rates = rng.shuffled(random_rates(rng, 5) + [rng.between(100_001, (1 << 32) - 1)])
            made.append((rates, damaged_twice(rng, ground), 40))
    return made


# ---- Out -----------------------------------------------------------------------------------------


def drawn_tables(rng):
    made = random_tables(rng) + long_tables(rng) + boundary_tables(rng) + share_tables(rng)
    return made + short_tables(rng) + damaged_tables(rng) + two_ground_tables(rng)


def exponents(answers):
    """How many entries have each exponent; zero is counted by itself."""
    entries = [word for answer in answers if isinstance(answer, str) for word in answer.split() if "." in word]
    counts = {"0.000E+00": entries.count("0.000E+00")}
    for ending in ["E+00"] + [f"E-{k:02d}" for k in range(1, 14)]:
        counts[ending] = sum(word.endswith(ending) and word != "0.000E+00" for word in entries)
    return counts


def is_half(x):
    """Is the share of G exactly half way between two numbers of four digits?"""
    power = next(k for k in range(14) if x * 10**k >= ref.G)
    return (ref.Fraction(x, ref.G) * 10 ** (power + 3)).denominator == 2


def halves(tables, answers):
    """How many entries are exact halves, and how many different ones."""
    seen = []
    for (rates, book, _), answer in zip(tables, answers):
        if isinstance(answer, str):
            seen += [x for v in rates for x in ref.reported_factors(v, ref.read_book(book)) if x > 0 and is_half(x)]
    return {"halves": len(seen), "different halves": len(set(seen))}


def sorts(tables, answers):
    return outcomes(answers, "written", (3, *range(9, 19), 20, 21)) | exponents(answers) | halves(tables, answers)


def check(tables, answers):
    assert halves(tables, answers)["different halves"] == 18


RECORDER = Recorder(kind=TABLE, least=3, sorts=sorts, typed=table_edges.edges, drawn=drawn_tables, seed=0x5461626C65733A33,
                    check=check)


if __name__ == "__main__":
    print(__doc__)
