"""Runs at many rates: every place of the lent lists against the recorded runs and the reference, the lists that Python gives against
the factor call, and what Python takes for rates.

    JELMORAND_SO=target/libjelmorand.so python3 bindings/python/test_rate_lists.py
"""

import ctypes
import random
import unittest

from answers import recorded_bodies

import jelmorand
import recorded
import reference
from jelmorand import Refused, factors_at_rates
from jelmorand._library import LIBRARY
from packing import pack_book, pack_feed, pack_member

GRAINS = 1 << 40
BOOK = pack_book([pack_member(1), pack_member(2_495_329_851_600, first=1)], [pack_feed(100_000, 0)])
WIDTHS = (0, 1, 2, 3, 16, 16, 17, 2**61 + 1, 2**63, 2**64 - 1)


def lent_run(rates, book, width, answers, rows):
    """How many rates were run, and both lists after a call that was lent these."""
    listed = (ctypes.c_uint32 * len(rates))(*rates)
    answered, places = (ctypes.c_int64 * len(answers))(*answers), (ctypes.c_uint64 * len(rows))(*rows)
    lists = (answered, len(answers), places, len(rows))
    count = LIBRARY.jelmorand_factors_at_rates(listed, len(listed), book, len(book), width, *lists)
    return count, list(answered), list(places)


def text_of(count, answers, rows):
    """The line that the program `recorded` writes."""
    return " ".join(map(str, ["run", count, ":", *answers, ":", *rows])) + "\n"


def any_run(chance, book):
    """A few rates, one in six of them too high, beside the book; mostly as many answers, and rows of any width."""
    rates = [chance.choice((0, 18, 100, 6_000, 100_000, chance.choice((100_001, 2**32 - 1)))) for _ in range(chance.randint(0, 6))]
    width, answers = chance.choice(WIDTHS), chance.choice((len(rates), len(rates), chance.randint(0, 8)))
    rows = chance.choice((len(rates) * min(width, 17), chance.randint(0, 100)))
    return rates, book, width, [7] * answers, [7] * rows


def shown(row):
    """What stands for one rate, a refusal by its number."""
    return row.number if isinstance(row, Refused) else row


class Lent(unittest.TestCase):
    def test_recorded_answers(self):
        for body, text in recorded.read_cases(recorded.RATES):
            self.assertEqual(text_of(*lent_run(*recorded.RATES.unpack(body))), text, body)

    def test_reference(self):
        """Random lists with every recorded book: every answer and every place."""
        chance = random.Random(7)
        for job in recorded_bodies():
            run = any_run(chance, job[48:])
            self.assertEqual(lent_run(*run), reference.rates_call(*run), run)

    def test_narrow_and_missing_rows(self):
        """The last row that has places left has room for two factors, and not for one."""
        for room, answers in ((6, [2, 2]), (5, [2, 2]), (4, [2, -19]), (3, [2, -19]), (2, [2, -19]), (1, [-19, -19]), (0, [-19, -19])):
            rows = [GRAINS, GRAINS, 7, GRAINS, GRAINS // 2, 7][:room]
            rows = [place if answers[k // 3] == 2 else 7 for k, place in enumerate(rows)]
            self.assertEqual(lent_run([0, 100], BOOK, 3, [7] * 2, [7] * room), (2, answers, rows), room)

    def test_wide_rows(self):
        """The first row is the whole list. The others are missing, also where a multiple of the width is a small number."""
        for width in (60, 61, 2**32, 2**61, 2**62, 2**63, 2**64 // 3 + 1, 2**64 - 2, 2**64 - 1):
            left = lent_run([0] * 9, BOOK, width, [7] * 9, [7] * 60)
            self.assertEqual(left, (9, [2] + [-19] * 8, [GRAINS] * 2 + [7] * 58), width)

    def test_counts(self):
        for rates in range(4):
            for answers in range(4):
                count = min(rates, answers)
                expected = (count, [2] * count + [7] * (answers - count), [GRAINS] * 2 * count + [7] * (8 - 2 * count))
                self.assertEqual(lent_run([0] * rates, BOOK, 2, [7] * answers, [7] * 8), expected)


class Lists(unittest.TestCase):
    def test_rows(self):
        rows = [[GRAINS, GRAINS], [GRAINS, 549_755_813_888], [GRAINS, 366_503_875_925]]
        self.assertEqual(factors_at_rates([0, 100, 200], BOOK), rows)
        self.assertEqual(factors_at_rates([200, 0, 200], BOOK), [rows[2], rows[0], rows[2]])

    def test_recorded_books(self):
        """Every recorded book at several rates: for each rate the list, or the refusal's number."""
        rates = [0, 100_001, 18, 100_000]
        for job in recorded_bodies():
            expected = [reference.factor_call(v, job[48:], jelmorand.MAX_MEMBERS) for v in rates]
            self.assertEqual(list(map(shown, factors_at_rates(rates, job[48:]))), expected)

    def test_rates_out_of_range(self):
        """One that is too high is refused in its place, and the others have their factors."""
        for v in (100_001, 2**32 - 1, 2**32, 2**64 + 18):
            first, second, third = factors_at_rates([0, v, 100], BOOK)
            self.assertEqual((first, second.number, third), ([GRAINS, GRAINS], 3, [GRAINS, GRAINS // 2]))
            self.assertEqual(str(second), "refused 3: the rate exceeds 100,000")

    def test_refused_books(self):
        for book, number in ((b"", 9), (BOOK[:-1], 11), (BOOK + b"\0", 11)):
            self.assertEqual(list(map(shown, factors_at_rates([0, 100_001, 100], book))), [number, 3, number])

    def test_negative_rates(self):
        for rates in ([-1], [0, -1], [100_001, -(2**32)]):
            with self.assertRaisesRegex(ValueError, "a rate is a whole number"):
                factors_at_rates(rates, BOOK)

    def test_no_rates(self):
        for book in (BOOK, b""):
            self.assertEqual(factors_at_rates([], book), [])

    def test_ten_thousand_rates(self):
        members = [pack_member(60_000_000_000 + i, first=i) for i in range(jelmorand.MAX_MEMBERS)]
        book = pack_book(members, [pack_feed(100_000, i) for i in range(jelmorand.MAX_MEMBERS - 1)])
        rates = range(0, 100_000, 10)
        self.assertEqual(factors_at_rates(rates, book), [jelmorand.factors(v, book) for v in rates])

    def test_kinds_of_lists(self):
        rows = factors_at_rates([0, 100, 200], BOOK)
        for rates in ((0, 100, 200), range(0, 300, 100), iter([0, 100, 200])):
            self.assertEqual(factors_at_rates(rates, BOOK), rows)
        for wrong in (100, "100", None, [1.5], [0, "0"]):
            with self.assertRaises(TypeError):
                factors_at_rates(wrong, BOOK)

    def test_kinds_of_bytes(self):
        for kind in (bytearray, memoryview):
            self.assertEqual(factors_at_rates([100], kind(BOOK)), factors_at_rates([100], BOOK))
        for wrong in (8, "book", None, [1, 0]):
            with self.assertRaisesRegex(TypeError, "book is bytes, not"):
                factors_at_rates([100], wrong)


if __name__ == "__main__":
    unittest.main()
