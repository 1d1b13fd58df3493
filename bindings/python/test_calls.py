"""The calls from Python against the recorded cases, tables and lowest rates, the reference, the stored examples, the page and document
01's rows.

    JELMORAND_SO=target/libjelmorand.so python3 bindings/python/test_calls.py
"""

import array
import ctypes
import fractions
import random
import struct
import unittest

from answers import ROOT, expected_figures, lent_figures, rate_text, recorded_answers, recorded_bodies, text_of

import jelmorand
from jelmorand import _library, _limits
import recorded
import reference
from packing import bits, pack_book, pack_feed, pack_job, pack_member

GRAINS = 1 << 40
BOOK = jelmorand.CoefficientSet.BOOK


def recorded_tables():
    """(rates, book, room) of each recorded table."""
    return [recorded.table_call(body) for body in recorded_bodies(recorded.TABLE)]


def any_numbers(chance):
    """Rate and minutes of one to four short periods; one list in three has a number changed or its last left out."""
    periods = []
    for _ in range(chance.randint(1, 4)):
        periods += [chance.choice((0, 18, 6_000, 100_000)), chance.randint(1, 4)]
    if chance.randrange(6) == 0:
        periods.pop()
    if chance.randrange(6) == 0:
        periods[chance.randrange(len(periods))] = chance.choice((0, 1_441, 100_001, 2**32 - 1))
    return periods


def screened(job):
    try:
        return text_of(jelmorand.screen(job))
    except jelmorand.Refused as refused:
        return f"refused {refused.number}\n"


class Whole:
    """A number that is no int, and counts as one."""

    def __init__(self, number):
        self.number = number

    def __index__(self):
        return self.number


class Factors(unittest.TestCase):
    BOOK = pack_book([pack_member(1), pack_member(2_495_329_851_600, first=1)], [pack_feed(100_000, 0)])

    def test_rows(self):
        for v, factor in ((0, GRAINS), (100, 549_755_813_888), (200, 366_503_875_925)):
            self.assertEqual(jelmorand.factors(v, self.BOOK), [GRAINS, factor])

    def test_recorded_books(self):
        """Every recorded book at several rates: the list, or the refusal's number."""
        for job in recorded_bodies():
            for v in (0, 18, 100_001):
                expected = reference.factor_call(v, job[48:], jelmorand.MAX_MEMBERS)
                try:
                    answer = jelmorand.factors(v, job[48:])
                except jelmorand.Refused as refused:
                    answer = refused.number
                self.assertEqual(answer, expected)

    def test_rates_out_of_range(self):
        for v in (100_001, 2**32 - 1, 2**32, 2**64 + 18):
            with self.assertRaises(jelmorand.Refused) as caught:
                jelmorand.factors(v, self.BOOK)
            self.assertEqual(caught.exception.number, 3)
        with self.assertRaises(ValueError):
            jelmorand.factors(-1, self.BOOK)

    def test_kinds_of_bytes(self):
        backwards = memoryview(self.BOOK[::-1])[::-1]
        for book in (bytearray(self.BOOK), memoryview(self.BOOK), array.array("I", self.BOOK), backwards):
            self.assertEqual(jelmorand.factors(100, book), jelmorand.factors(100, self.BOOK))
        for wrong in (8, "book", None, [1, 0]):
            with self.assertRaises(TypeError):
                jelmorand.factors(100, wrong)

    def test_kinds_of_rates(self):
        """A rate of 0.18 per hour is not rate 0, and what counts as a whole number is taken."""
        for wrong in (0.18, 18.0, "18", None, fractions.Fraction(18)):
            with self.assertRaisesRegex(TypeError, "a rate is a whole number of hundredths of an air change per hour"):
                jelmorand.factors(wrong, self.BOOK)
        self.assertEqual(jelmorand.factors(Whole(100), self.BOOK), jelmorand.factors(100, self.BOOK))


def lent_factors_after(numbers, book, room):
    """The answer, and the whole list, every place of which was 7 before the call; rate and minutes in turn."""
    listed = (ctypes.c_uint32 * len(numbers))(*numbers)
    places = (ctypes.c_uint64 * room)(*[7] * room)
    answer = _library.LIBRARY.jelmorand_factors_after(listed, len(listed), book, len(book), places, room)
    return answer, list(places)


def expected_after(numbers, book, room):
    """The same by the reference."""
    answer = reference.opening_call(numbers, book, room)
    if isinstance(answer, int):
        return -answer, [7] * room
    return len(answer), answer + [7] * (room - len(answer))


def paired(numbers):
    return list(zip(numbers[::2], numbers[1::2]))


class FactorsAfter(unittest.TestCase):
    BOOK = Factors.BOOK

    def refused(self, periods, book):
        with self.assertRaises(jelmorand.Refused) as caught:
            jelmorand.factors_after(periods, book)
        return caught.exception.number

    def test_rows(self):
        """At rate 300 the member keeps 60 of 64 parts each minute and gains one of the parent's, at 6,700 the same of 128."""
        for periods, factor in (([(300, 1)], 2**34), ([(300, 2)], 31 * 2**30)):
            self.assertEqual(jelmorand.factors_after(periods, self.BOOK), [GRAINS, factor])
        for periods, factor in (([(300, 1), (6_700, 1)], 31 * 2**29), ([(6_700, 1), (300, 1)], 47 * 2**29)):
            self.assertEqual(jelmorand.factors_after(periods, self.BOOK), [GRAINS, factor])

    def test_recorded_books(self):
        """Every recorded book after several lists of periods, good and refused, in lists with room and without: every place."""
        lists = ([18, 2, 100_000, 1, 0, 2], [0, 1, 100_001], [0, 1, 100_000], [0, 0], [])
        for count, job in enumerate(recorded_bodies()):
            for numbers in lists:
                for room in (20, count % 17):
                    self.assertEqual(lent_factors_after(numbers, job[48:], room), expected_after(numbers, job[48:], room))

    def test_reference(self):
        """Random numbers with every recorded book, a last one without its minutes among them: every place."""
        chance = random.Random(5)
        for job in recorded_bodies():
            numbers, room = any_numbers(chance), chance.randint(0, 20)
            self.assertEqual(lent_factors_after(numbers, job[48:], room), expected_after(numbers, job[48:], room))

    def test_pairs(self):
        """The same in pairs: the list, or the refusal's number."""
        chance = random.Random(6)
        for job in recorded_bodies():
            periods = paired(any_numbers(chance))
            try:
                answer = jelmorand.factors_after(periods, job[48:])
            except jelmorand.Refused as refused:
                answer = refused.number
            numbers = [number for period in periods for number in period]
            self.assertEqual(answer, reference.opening_call(numbers, job[48:], jelmorand.MAX_MEMBERS))

    def test_longest(self):
        """The most periods of the most minutes: a room at one rate comes near the steady factor, from below."""
        periods = [(100, jelmorand.MAX_MINUTES)] * jelmorand.MAX_PERIODS
        numbers = [100, jelmorand.MAX_MINUTES] * jelmorand.MAX_PERIODS
        steady = jelmorand.factors(100, self.BOOK)[1]
        self.assertEqual(jelmorand.factors_after(periods, self.BOOK), reference.opening_call(numbers, self.BOOK, 2))
        self.assertTrue(steady - 100 < jelmorand.factors_after(periods, self.BOOK)[1] <= steady)

    def test_periods_out_of_range(self):
        for periods in ([], [(0, 0)], [(0, 1_441)], [(0, 2**32)], [(0, 2**64 + 1)], [(0, 1), (100_000, 0)], [(0, 1)] * 33):
            self.assertEqual(self.refused(periods, self.BOOK), 22)
            self.assertEqual(self.refused(periods, b""), 22)
        self.assertEqual(self.refused([(0, 1)] * 32, b""), 9)

    def test_rates_out_of_range(self):
        for rate in (100_001, 2**32 - 1, 2**32, 2**64 + 18):
            for periods in ([(rate, 1)], [(0, 1), (rate, 0)], [(0, 0), (rate, 1)], [(0, 1)] * 40 + [(rate, 1)]):
                self.assertEqual(self.refused(periods, self.BOOK), 3)

    def test_negative_numbers(self):
        with self.assertRaisesRegex(ValueError, "-1 is given, and a rate is a whole number"):
            jelmorand.factors_after([(-1, 1)], self.BOOK)
        with self.assertRaisesRegex(ValueError, "-1 is given, and a number of minutes is a whole number, not below 0"):
            jelmorand.factors_after([(0, -1)], self.BOOK)

    def test_kinds_of_lists(self):
        factors = jelmorand.factors_after([(0, 480), (200, 60)], self.BOOK)
        for periods in (((0, 480), (200, 60)), iter([(0, 480), (200, 60)]), [[0, 480], [200, 60]]):
            self.assertEqual(jelmorand.factors_after(periods, self.BOOK), factors)
        for wrong in (100, "100", None, [(1.5, 1)], [(1, 1.5)], [("1", "1")]):
            with self.assertRaises(TypeError):
                jelmorand.factors_after(wrong, self.BOOK)

    def test_what_is_no_pair(self):
        """Rate and minutes in turn, as the library takes them, are no pairs."""
        for wrong in ([0, 480, 200, 60], [(0,)], [(0, 480, 200)], [()], [None]):
            with self.assertRaisesRegex(TypeError, "a period is a rate and its minutes"):
                jelmorand.factors_after(wrong, self.BOOK)

    def test_kinds_of_bytes(self):
        for kind in (bytearray, memoryview):
            self.assertEqual(jelmorand.factors_after([(100, 9)], kind(self.BOOK)), jelmorand.factors_after([(100, 9)], self.BOOK))
        for wrong in (8, "book", None, [1, 0]):
            with self.assertRaises(TypeError):
                jelmorand.factors_after([(100, 9)], wrong)


def lent_table(rates, book, room):
    """What is recorded of a table: the answer, and the whole buffer, every byte of which was # before the call."""
    buffer = ctypes.create_string_buffer(b"#" * room, room)
    listed = (ctypes.c_uint32 * len(rates))(*rates)
    answer = _library.LIBRARY.jelmorand_table(listed, len(listed), book, len(book), buffer, room)
    return f"{'written' if answer >= 0 else 'refused'} {abs(answer)}\n{buffer.raw.decode('ascii')}\n"


class Tables(unittest.TestCase):
    BOOK = Factors.BOOK

    def refused(self, rates, book):
        with self.assertRaises(jelmorand.Refused) as caught:
            jelmorand.table(rates, book)
        return caught.exception.number

    def test_rows(self):
        text = "0 1.000E+00 1.000E+00\n100 1.000E+00 5.000E-01\n200 1.000E+00 3.333E-01\n"
        self.assertEqual(jelmorand.table([0, 100, 200], self.BOOK), text)

    def test_recorded_tables(self):
        texts = [lent_table(*table) for table in recorded_tables()]
        self.assertEqual(texts, recorded_answers(recorded.TABLE))

    def test_reference(self):
        """Every recorded list of rates and book with room enough: the text, or the refusal's number."""
        for rates, book, _ in recorded_tables():
            expected = reference.table_call(rates, book, jelmorand.TABLE_ROOM)
            try:
                answer = jelmorand.table(rates, book)
            except jelmorand.Refused as refused:
                answer = refused.number
            self.assertEqual(answer, expected)

    def test_longest(self):
        members = [pack_member(1, first=i) for i in range(jelmorand.MAX_MEMBERS)]
        book = pack_book(members, [pack_feed(100_000, i) for i in range(jelmorand.MAX_MEMBERS - 1)])
        self.assertEqual(len(jelmorand.table([100_000] * jelmorand.MAX_RATES, book)), jelmorand.TABLE_ROOM)

    def test_number_of_rates(self):
        for count in (0, jelmorand.MAX_RATES + 1):
            self.assertEqual(self.refused([0] * count, self.BOOK), 20)

    def test_rates_out_of_range(self):
        for v in (100_001, 2**32 - 1, 2**32, 2**64 + 18):
            for rates in ([v], [v, 0], [0, v]):
                self.assertEqual(self.refused(rates, self.BOOK), 3)
        for rates in ([-1], [0, -1], [100_001, -(2**32)]):
            with self.assertRaisesRegex(ValueError, "a rate is a whole number"):
                jelmorand.table(rates, self.BOOK)

    def test_kinds_of_lists(self):
        text = jelmorand.table([0, 100, 200], self.BOOK)
        for rates in ((0, 100, 200), range(0, 300, 100), iter([0, 100, 200])):
            self.assertEqual(jelmorand.table(rates, self.BOOK), text)
        for wrong in (100, "100", None, [1.5]):
            with self.assertRaises(TypeError):
                jelmorand.table(wrong, self.BOOK)

    def test_kinds_of_bytes(self):
        for kind in (bytearray, memoryview):
            self.assertEqual(jelmorand.table([100], kind(self.BOOK)), jelmorand.table([100], self.BOOK))
        for wrong in (8, "book", None, [1, 0]):
            with self.assertRaises(TypeError):
                jelmorand.table([100], wrong)


class Reports(unittest.TestCase):
    def test_recorded_jobs(self):
        texts = [screened(job) for job in recorded_bodies()]
        self.assertEqual(texts, recorded_answers(recorded.JOB))

    def test_recorded_figures(self):
        """In lists with room and without: every figure and every place, the refused ones too."""
        for count, (job, text) in enumerate(recorded.read_cases(recorded.JOB)):
            for room in (20, count % 17):
                self.assertEqual(lent_figures(job, room), expected_figures(text, room), (room, job))

    def test_examples(self):
        for name in ("radon", "thoron", "actinon"):
            example = ROOT / "examples" / name
            self.assertEqual(jelmorand.report(example.with_suffix(".job").read_bytes()), example.with_suffix(".out").read_text("ascii"))

    def test_parent_alone(self):
        job = pack_job(unit=0, target=1_610, value=bits(1.0)) + pack_book([pack_member(1, inhalation_risk=1_000)], [])
        self.assertEqual(jelmorand.screen(job), jelmorand.Report([GRAINS], 37_000, "below", 37_000, None, BOOK))


def fan_line(job):
    """The line that `fan` writes."""
    try:
        return rate_text(jelmorand.lowest_rate(job))
    except jelmorand.Refused as refused:
        return f"refused {refused.number}\n"


def at_rate(v, job):
    """The job with this rate for its own."""
    return struct.pack("<I", v) + job[4:]


def is_below(v, job):
    return "verdict below\n" in jelmorand.report(at_rate(v, job))


class LowestRates(unittest.TestCase):
    def job(self, target, v=0):
        """At 3.0 pCi/L the member has 100 parts of 100 + v at rate v, so the risk is 483,000 / (100 + v) billionths."""
        members = [pack_member(1), pack_member(2_495_329_851_600, inhalation_risk=1_000, first=1)]
        return pack_job(v=v, unit=0, target=target, value=bits(3.0)) + pack_book(members, [pack_feed(100_000, 0)])

    def refused(self, job):
        with self.assertRaises(jelmorand.Refused) as caught:
            jelmorand.lowest_rate(job)
        return caught.exception.number

    def test_rows(self):
        """Where the risk is just the target, as at rate 200, what rounding may have taken keeps the verdict from 'below'."""
        for target, rate in ((4_830, 0), (4_829, 1), (1_611, 200), (1_610, 201), (5, 96_501), (4, None)):
            self.assertEqual(jelmorand.lowest_rate(self.job(target)), rate)

    def test_recorded_answers(self):
        lines = [fan_line(job) for job in recorded_bodies(recorded.LOWEST)]
        self.assertEqual(lines, recorded_answers(recorded.LOWEST))

    def check_promise(self, job, rate, chance):
        first = _limits.NO_RATE if rate is None else rate
        lower = {0, first - 1, chance.randrange(first)} if first else set()
        self.assertFalse(any(is_below(v, job) for v in lower), (rate, job))
        self.assertTrue(rate is None or is_below(rate, job), (rate, job))

    def test_promise(self):
        """Every recorded job: 'below' at the answer and at no lower rate, whatever the job's own; or the report's refusal."""
        chance = random.Random(6)
        for job in recorded_bodies(recorded.LOWEST) + recorded_bodies():
            line = fan_line(job)
            if line.startswith("refused"):
                self.assertEqual(line, jelmorand.report(job))
                continue
            self.check_promise(job, jelmorand.lowest_rate(job), chance)
            for v in (0, 100_000, chance.randint(0, 100_000)):
                self.assertEqual(fan_line(at_rate(v, job)), line)

    def test_reference(self):
        """Every recorded job by the reference's verdicts, at the answer and at the rate before it."""
        for job in recorded_bodies(recorded.LOWEST):
            try:
                rate = jelmorand.lowest_rate(job)
            except jelmorand.Refused as refused:
                self.assertEqual(f"refused {refused.number}\n", reference.answer(job))
                continue
            last = 100_000 if rate is None else rate - 1
            self.assertTrue(rate is None or "verdict below\n" in reference.answer(at_rate(rate, job)), (rate, job))
            self.assertFalse(last >= 0 and "verdict below\n" in reference.answer(at_rate(last, job)), (rate, job))

    def test_refusals(self):
        self.assertEqual(self.refused(b""), 1)
        self.assertEqual(self.refused(self.job(5)[:48]), 9)
        for v in (100_001, 2**32 - 1):
            self.assertEqual(self.refused(self.job(5, v)), 3)

    def test_kinds_of_bytes(self):
        for kind in (bytearray, memoryview):
            self.assertEqual(jelmorand.lowest_rate(kind(self.job(5))), jelmorand.lowest_rate(self.job(5)))
        for wrong in (8, "job", None, [1, 0]):
            with self.assertRaises(TypeError):
                jelmorand.lowest_rate(wrong)

if __name__ == "__main__":
    unittest.main()
