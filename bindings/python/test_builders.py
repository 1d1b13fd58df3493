"""Job and Book against the example of docs/FORMAT.md, the stored examples, the recorded bytes and the C header.

    JELMORAND_SO=target/libjelmorand.so python3 bindings/python/test_builders.py
"""

import decimal
import fractions
import pathlib
import re
import struct
import sys
import unittest

ROOT = pathlib.Path(__file__).resolve().parents[2]
sys.path.insert(0, str(ROOT / "docs" / "src"))

import jelmorand
import recorded
import reference
from jelmorand import Book, Coefficients, Group, Job, Kind, Medium, Unit

HEADER = (ROOT / "bindings" / "c" / "jelmorand.h").read_text("ascii")


def job_of(data):
    """A job's values, as the reference reads them."""
    read, _ = reference.read_job(data)
    value, uncertainty = struct.unpack_from("<2d", data, 16)
    codes = (Kind(read.kind), Medium(read.medium), Unit(read.unit))
    exposure = jelmorand.Exposure(Group(*read.child), Group(*read.adult))
    return Job(read.v, *codes, read.target, read.AF, value, uncertainty, exposure)


def put_together(book, feeds):
    """A book of the reference's members and these feeds, each with the member that it feeds."""
    made = Book(book.W)
    for T, *coefficients in book.members:
        names = ("inhalation_risk", "submersion_risk", "inhalation_dose", "submersion_dose", "weight")
        made.member(half_life=T, **dict(zip(names, coefficients)))
    for feed, into in feeds:
        made.feed(feed.share, feed.from_, into)
    return bytes(made)


def by_number(data, book):
    """The feeds in the order of their numbers, each with the member that it feeds."""
    n, m = data[0], data[1]
    chains = reference.walk([data[8 + 32 * i + 28] for i in range(n)], {k + 1: data[8 + 32 * n + 8 * k + 5] for k in range(m)})
    fed = {number: (book.feeds_into[i][k], i) for i, chain in enumerate(chains) for k, number in enumerate(chain)}
    return [fed[number] for number in sorted(fed)], all(chain == sorted(chain) for chain in chains)


def page_dumps():
    """The bytes of each dump that docs/FORMAT.md prints: a job with its book, and a second set beside it."""
    page = (ROOT / "docs" / "FORMAT.md").read_text("utf-8")
    dumps = re.findall(r"((?:    [0-9a-f]{8}: .*\n)+)", page)
    return [bytes.fromhex("".join(re.findall(r"    [0-9a-f]{8}: ((?:[0-9a-f]{4} ?)+) ", dump))) for dump in dumps]


def accepted_jobs():
    for data, answer in recorded.read_cases(recorded.JOB):
        if not answer.startswith("refused"):
            yield data


class Jobs(unittest.TestCase):
    def test_format_s_example(self):
        """The bytes that the page prints, from the values that it names."""
        job = Job(rate=0, kind=Kind.RISK, medium=Medium.INDOOR_AIR, unit=Unit.PCI_PER_L, target=1_610, attenuation=1_000_000,
                  value=1.0, uncertainty=0, exposure=jelmorand.RESIDENTIAL)
        book = Book(divisor=1_000)
        book.member(half_life=330_350_400_000_000, inhalation_risk=1_000, submersion_risk=0, inhalation_dose=0, submersion_dose=0, weight=0)
        self.assertEqual(bytes(job) + bytes(book), page_dumps()[0])
        self.assertEqual(jelmorand.screen(bytes(job) + bytes(book)).verdict, "below")

    def test_examples(self):
        for name in ("radon", "thoron", "actinon", "guide", "workroom"):
            data = (ROOT / "examples" / f"{name}.job").read_bytes()
            feeds, _ = by_number(data[48:], reference.read_book(data[48:]))
            self.assertEqual(bytes(job_of(data)) + put_together(reference.read_book(data[48:]), feeds), data)

    def test_recorded_jobs(self):
        for data in accepted_jobs():
            self.assertEqual(bytes(job_of(data)), data[:jelmorand.JOB_LENGTH])

    def test_recorded_books(self):
        """A book whose members take their feeds by number has the same bytes; any other has the same feeds in another order."""
        same = 0
        for data in accepted_jobs():
            book = reference.read_book(data[48:])
            feeds, ascending = by_number(data[48:], book)
            if ascending:
                self.assertEqual(put_together(book, feeds), data[48:])
                same += 1
            in_chains = [(feed, i) for i, chain in enumerate(book.feeds_into) for feed in chain]
            self.assertEqual(reference.read_book(put_together(book, in_chains)), book)
        self.assertGreater(same, 100)

    def values(self, **changed):
        values = dict(rate=18, kind=Kind.RISK, medium=Medium.INDOOR_AIR, unit=Unit.PCI_PER_L, target=1, attenuation=1_000_000, value=4.0,
                      uncertainty=0.4, exposure=jelmorand.WORKER)
        return bytes(Job(**dict(values, **changed)))

    def test_nothing_has_a_default(self):
        with self.assertRaises(TypeError):
            Job(rate=18)
        with self.assertRaises(TypeError):
            Book(1_000).member(half_life=1)

    def test_readings_go_up(self):
        """What no float holds is never rounded down."""
        third = fractions.Fraction(1, 3)
        for exact in (decimal.Decimal("0.3"), decimal.Decimal("0.1"), third, 1 - third, 2**53 + 1, 5):
            made, = struct.unpack_from("<d", self.values(value=exact), 16)
            self.assertGreaterEqual(fractions.Fraction(made), fractions.Fraction(exact))
            self.assertLess(fractions.Fraction(made) - fractions.Fraction(exact), fractions.Fraction(exact) / 2**52)
        for held in (0.3, 4.0, 0.0, float("inf")):
            self.assertEqual(struct.unpack_from("<2d", self.values(value=held, uncertainty=held), 16), (held, held))

    def test_wrong_kinds_of_values(self):
        wrong = (("rate", 0.18), ("kind", 0), ("kind", Medium.SOIL_GAS), ("medium", 1), ("unit", "pCi/L"), ("target", 1e6),
                 ("attenuation", 0.03), ("value", "4.0"), ("value", None), ("uncertainty", b"0"), ("exposure", None),
                 ("exposure", (350, 20)), ("exposure", (Group(0, 0, 0, 0), Group(250, 25, 7.75, 60))))
        for name, value in wrong:
            with self.assertRaises(TypeError, msg=(name, value)):
                self.values(**{name: value})

    def test_numbers_that_are_too_large(self):
        """They are refused as the largest that their bytes hold."""
        worker = jelmorand.WORKER
        book = bytes(Book(1_000))
        wrong = (("rate", 2**32 + 18, 3), ("target", 2**32, 4), ("attenuation", 2**40, 5),
                 ("exposure", worker._replace(adult=Group(2**16, 25, 32, 60)), 6))
        for name, value, number in wrong:
            with self.assertRaises(jelmorand.Refused) as caught:
                jelmorand.screen(self.values(**{name: value}) + book)
            self.assertEqual(caught.exception.number, number)
        with self.assertRaises(ValueError):
            self.values(target=-1)


class Books(unittest.TestCase):
    def book(self, members, weight=0):
        made = Book(1_000)
        for _ in range(members):
            made.member(half_life=1, inhalation_risk=0, submersion_risk=0, inhalation_dose=0, submersion_dose=0, weight=weight)
        return made

    def refused(self, book):
        with self.assertRaises(jelmorand.Refused) as caught:
            jelmorand.factors(0, bytes(book))
        return caught.exception.number

    def test_too_many(self):
        """Also where the byte of a count could hold what is left of it."""
        for members in (0, 17, 255, 256, 257, 272):
            self.assertEqual(self.refused(self.book(members)), 10)
        for feeds in (65, 255, 256, 257):
            made = self.book(2)
            for _ in range(feeds):
                made.feed(1, 0, 1)
            self.assertEqual(self.refused(made), 10)

    def test_members_that_are_not_there(self):
        for source, into in ((0, 2), (2, 1), (-1, 1), (0, -1), (None, 1), ("0", 1)):
            with self.assertRaisesRegex(ValueError, "is no member of the book, which has 2"):
                self.book(2).feed(1, source, into)

    def test_refusals_are_left_to_the_library(self):
        self.assertEqual(self.refused(self.book(2)), 16)
        self.assertEqual(self.refused(self.book(1, weight=2**32)), 13)
        backwards = self.book(3)
        for source, into in ((2, 1), (0, 2)):
            backwards.feed(1, source, into)
        self.assertEqual(self.refused(backwards), 17)

    def test_wrong_kinds_of_numbers(self):
        with self.assertRaises(TypeError):
            Book(1_000.0)
        with self.assertRaises(TypeError):
            self.book(1, weight=0.5)
        with self.assertRaises(TypeError):
            self.book(2).feed(0.5, 0, 1)


class SecondSets(unittest.TestCase):
    NUMBERS = dict(inhalation_risk=150, submersion_risk=10, inhalation_dose=3, submersion_dose=2, weight=1)

    def test_format_s_example(self):
        """The bytes that the page prints beside its job, and what they make of it."""
        job, second = page_dumps()
        self.assertEqual(bytes(Coefficients(2_000, 0, 0, 0, 0)), second)
        report = jelmorand.screen_with(job, second)
        self.assertEqual((report.set, report.verdict, report.level), (jelmorand.CoefficientSet.SECOND, "above", 18_500))
        self.assertIsNone(jelmorand.lowest_rate_with(job, second).rate)

    def test_recorded_books(self):
        """The book's own numbers, which are byte for byte in it."""
        for data in accepted_jobs():
            members = reference.read_book(data[48:]).members
            own = b"".join(bytes(Coefficients(*coefficients)) for _, *coefficients in members)
            places = (48 + 8 + 32 * i + 8 for i in range(len(members)))
            self.assertEqual(own, b"".join(data[at : at + jelmorand.COEFFICIENTS_LENGTH] for at in places))

    def test_order(self):
        """By name each number stands in its place."""
        made = bytes(Coefficients(**dict(reversed(self.NUMBERS.items()))))
        self.assertEqual(struct.unpack("<5I", made), tuple(self.NUMBERS.values()))

    def test_nothing_has_a_default(self):
        for name in self.NUMBERS:
            with self.assertRaises(TypeError, msg=name):
                Coefficients(**{other: number for other, number in self.NUMBERS.items() if other != name})

    def test_wrong_numbers(self):
        for name in self.NUMBERS:
            for wrong in (0.5, "1", None):
                with self.assertRaises(TypeError, msg=(name, wrong)):
                    bytes(Coefficients(**dict(self.NUMBERS, **{name: wrong})))
            with self.assertRaises(ValueError):
                bytes(Coefficients(**dict(self.NUMBERS, **{name: -1})))

    def test_numbers_that_are_too_large(self):
        """They are refused, also where their bytes could hold what is left of them."""
        data = (ROOT / "examples" / "radon.job").read_bytes()
        own = [bytes(Coefficients(*coefficients)) for _, *coefficients in reference.read_book(data[48:]).members]
        for name in self.NUMBERS:
            for number in (4_000_000_001, 2**32, 2**64 + 1):
                last = bytes(Coefficients(**dict(self.NUMBERS, **{name: number})))
                with self.assertRaises(jelmorand.Refused) as caught:
                    jelmorand.screen_with(data, b"".join(own[:-1]) + last)
                self.assertEqual(caught.exception.number, 23)


class Names(unittest.TestCase):
    def test_values_are_the_header_s(self):
        for named in (Kind, Medium, Unit):
            listed = ", ".join(f"JELMORAND_{one.name} = {one.value}" for one in named)
            self.assertIn(f"enum jelmorand_{named.__name__.lower()} {{ {listed} }};", HEADER)

    def test_length_is_the_header_s(self):
        self.assertIn(f"#define JELMORAND_JOB_LENGTH {jelmorand.JOB_LENGTH}\n", HEADER)

    def test_exposures_are_the_header_s(self):
        for name in ("RESIDENTIAL", "WORKER"):
            child, adult = getattr(jelmorand, name)
            self.assertIn(f"#define JELMORAND_{name} {{{', '.join(map(str, child + adult))}}}\n", HEADER)


if __name__ == "__main__":
    unittest.main()
