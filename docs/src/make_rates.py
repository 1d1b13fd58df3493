"""Recorded runs of many rates (document 02, R-9): typed and from a fixed seed, and the reference's answer to each.
make_recorded.py writes them.

The count of every outcome is made too (rates_sorts.py).
"""

import rates_edges
from damage import damaged_book, damaged_twice
from draws import book_of, capped_case, random_case, random_rate, thin_case
from rates_sorts import sorts
from recorded import RATES, lent
from recorder import Recorder
from small_books import TOP

# ---- Runs of good books --------------------------------------------------------------------------


def some_rates(rng, most=5):
    """In any order; now and then one comes again, or is too high."""
    rates = [random_rate(rng) for _ in range(rng.between(1, most))]
    if rng.between(0, 3) == 0:
        rates.append(rng.one_of(rates))
    if rng.between(0, 3) == 0:
        rates[rng.between(0, len(rates) - 1)] = rng.one_of((100_001, rng.between(100_001, TOP)))
    return rates


def whole(rates, book, width):
    """The call with a place for every answer and every row."""
    return rates, book, width, lent(len(rates)), lent(len(rates) * width)


def some_book(rng):
    return book_of(random_case(rng, rng.one_of((1, 2, 2, 3, 3, 4))))


def some_width(rng, n):
    return n + rng.one_of((0, 0, 0, 1, 2, rng.between(3, 9)))


def enough(rng, book, most=5):
    """Rows of n places or more, all of them there."""
    return whole(some_rates(rng, most), book, some_width(rng, book[0]))


def random_runs(rng):
    made = [enough(rng, some_book(rng)) for _ in range(20)]
    made += [enough(rng, book_of(random_case(rng, n)), 2) for n in (5, 6, 8, 11, 15)]
    made += [enough(rng, book_of(random_case(rng, 16, m)), 3) for m in (15, 64)]
    return made + [enough(rng, book_of(draw(rng))) for draw in (thin_case, capped_case) for _ in range(4)]


def cut_runs(rng):
    """The list of the rows ends anywhere, most of the time within a row or where one begins."""
    made = []
    for _ in range(24):
        book = some_book(rng)
        n, rates = book[0], some_rates(rng)
        width = n + rng.one_of((0, 1, 2, 3))
        start = width * rng.between(0, len(rates) - 1)
        there = rng.one_of((start, start + n - 1, start + n, start + width - 1, rng.between(0, width * len(rates))))
        made.append((rates, book, width, lent(len(rates)), lent(there)))
    return made


def narrow_runs(rng):
    """Rows of fewer than n places, none at all among them."""
    made = []
    for k in range(6):
        book = some_book(rng)
        made.append(whole(some_rates(rng), book, 0 if k % 3 == 0 else rng.between(0, book[0] - 1)))
    return made


def other_lists(rng):
    """Fewer answers than rates or more, and rows past the last; now and then no rate at all."""
    made = []
    for k in range(16):
        rates, book, width, answers, rows = enough(rng, some_book(rng))
        room = rng.between(0, len(rates) - 1) if k % 2 else len(rates) + rng.between(1, 4)
        over = rng.one_of((0, 1, width, rng.between(0, 2 * width)))
        made.append((rates if k % 8 else [], book, width, lent(room), rows + lent(over)))
    return made


def long_runs(rng):
    """Many rates in tens, as a portfolio has them, and rows for all but some of them."""
    made = []
    for count in (120, 150):
        book = book_of(random_case(rng, 2))
        rates = [rng.between(0, 10_050) * 10 for _ in range(count)]
        made.append((rates, book, 2, lent(count), lent(2 * count - rng.between(4, 90))))
    return made


# ---- Runs of refused books -----------------------------------------------------------------------


def damaged_runs(rng):
    """Every ground of the book with rates of every sort, with rows enough and with any lists."""
    made = []
    for ground in range(9, 19):
        made.append(whole(some_rates(rng), damaged_book(rng, ground), 3))
        rates, book, width = some_rates(rng), damaged_book(rng, ground), rng.between(0, 4)
        made.append((rates, book, width, lent(rng.between(1, 6)), lent(rng.between(0, 9))))
    return made


def two_ground_runs(rng):
    """Neighbouring grounds of the book in one book, with 3 and 19 besides."""
    return [whole([random_rate(rng), 100_001], damaged_twice(rng, ground), rng.between(0, 2))
            for ground in range(9, 18)]


# ---- Out -----------------------------------------------------------------------------------------


def drawn_runs(rng):
    made = random_runs(rng) + cut_runs(rng) + narrow_runs(rng) + other_lists(rng) + long_runs(rng)
    return made + damaged_runs(rng) + two_ground_runs(rng)


RECORDER = Recorder(kind=RATES, least=5, sorts=sorts, typed=rates_edges.edges, drawn=drawn_runs, seed=0x52617465733A39)


if __name__ == "__main__":
    print(__doc__)
