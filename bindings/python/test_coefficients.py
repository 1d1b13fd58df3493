"""Jobs and lowest rates with a second set of coefficients: against the reference and the recorded cases, and against the job whose book
has the set written over its own numbers.

    JELMORAND_SO=target/libjelmorand.so python3 bindings/python/test_coefficients.py
"""

import array
import ctypes
import random
import struct
import unittest

from answers import ROOT, expected_figures, lent_figures, rate_text, recorded_answers, recorded_bodies, text_of

import jelmorand
import recorded
import reference
from jelmorand import CoefficientSet
from jelmorand._library import LIBRARY

MOST = 4_000_000_000


def places(job):
    """Where each member's five numbers are in a job that is accepted."""
    return [slice(64 + 32 * i, 84 + 32 * i) for i in range(job[48])]


def own_set(job):
    return b"".join(job[place] for place in places(job))


def written_over(job, second):
    """The job with the second set in its book for the book's own numbers."""
    changed = bytearray(job)
    for i, place in enumerate(places(job)):
        changed[place] = second[20 * i : 20 * i + 20]
    return bytes(changed)


def any_set(chance, job):
    """The book's own numbers, with one of them changed, all of them or none."""
    numbers = list(struct.unpack(f"<{5 * job[48]}I", own_set(job)))
    at = chance.randrange(len(numbers))
    numbers[at] = chance.choice((numbers[at], max(numbers[at] - 1, 0), min(numbers[at] + 1, MOST), 0, MOST, chance.randint(0, MOST)))
    if chance.randrange(4) == 0:
        numbers = [chance.randint(0, 10 ** chance.randint(0, 9)) for _ in numbers]
    return struct.pack(f"<{len(numbers)}I", *numbers)


def too_large(job, at):
    """The book's own numbers, one of which is one too large."""
    second = bytearray(own_set(job))
    struct.pack_into("<I", second, 4 * at, MOST + 1)
    return bytes(second)


def lent_with(job, second, room):
    """What `lent_figures` has of the call with a second set, and the number of the set, which was 7 before it."""
    in_use = ctypes.c_uint32(7)
    beside = (second, len(second), ctypes.byref(in_use))
    return (*lent_figures(job, room, LIBRARY.jelmorand_screen_with, beside), in_use.value)


def lent_rate(job, second):
    """The answer of the call for the lowest rate, and the number of the set, which was 7 before it."""
    in_use = ctypes.c_uint32(7)
    return LIBRARY.jelmorand_lowest_rate_with(job, len(job), second, len(second), ctypes.byref(in_use)), in_use.value


def told(call, job, second):
    """The answer, or the number of the refusal."""
    try:
        return call(job, second)
    except jelmorand.Refused as refused:
        return refused.number


def answered(job, second):
    """What the program `partner` writes. Both calls must refuse alike, and name one set."""
    report, lowest = (told(call, job, second) for call in (jelmorand.screen_with, jelmorand.lowest_rate_with))
    if isinstance(report, int):
        assert lowest == report, (lowest, report, second, job)
        return f"refused {report}\n"
    assert lowest.set is report.set, (lowest, report, second, job)
    return f"set {report.set.value}\n" + text_of(report) + rate_text(lowest.rate)


class Recorded(unittest.TestCase):
    def accepted(self):
        return [job for job, text in recorded.read_cases(recorded.JOB) if not text.startswith("refused")]

    def test_recorded_answers(self):
        """The recorded second sets, those of no bytes not lent."""
        calls = [recorded.PARTNER.unpack(body) for body in recorded_bodies(recorded.PARTNER)]
        self.assertEqual([answered(job, second or None) for second, job in calls], recorded_answers(recorded.PARTNER))

    def test_not_lent(self):
        """Every recorded job without a second set, in lists with room and without: the figures and places that it has, and set 1."""
        for count, (job, text) in enumerate(recorded.read_cases(recorded.JOB)):
            for room in (20, count % 17):
                expected = expected_figures(text, room)
                self.assertEqual(lent_with(job, b"", room), (*expected, 1 if expected[0] > 0 else 7), (room, job))

    def test_rates_not_lent(self):
        """Both calls for a lowest rate agree where no set is lent."""
        for job in recorded_bodies(recorded.LOWEST):
            answer, in_use = lent_rate(job, b"")
            self.assertEqual((answer, in_use), (LIBRARY.jelmorand_lowest_rate(job, len(job)), 7 if answer < 0 else 1), job)

    def test_reference(self):
        """Every accepted recorded job with a second set: what the reference says of the job with it written over the book's."""
        chance, turned = random.Random(7), {True: 0, False: 0}
        for count, job in enumerate(self.accepted()):
            second = any_set(chance, job)
            text = reference.answer(written_over(job, second))
            for room in (20, count % 17):
                expected = expected_figures(text, room)
                self.assertEqual(lent_with(job, second, room), (*expected, 2 if expected[0] > 0 else 7), (room, second, job))
            below = "verdict below\n" in text
            turned[below] += below is not ("verdict below\n" in reference.answer(job))
        self.assertTrue(all(turned.values()), turned)

    def test_written_over(self):
        """Of the recorded jobs for a lowest rate: that of the job with the second set written over the book's."""
        chance = random.Random(8)
        for job in recorded_bodies(recorded.LOWEST):
            if LIBRARY.jelmorand_lowest_rate(job, len(job)) >= 0:
                second = any_set(chance, job)
                changed = written_over(job, second)
                self.assertEqual(lent_rate(job, second), (LIBRARY.jelmorand_lowest_rate(changed, len(changed)), 2), (second, job))

    def test_equal_set(self):
        for job in self.accepted():
            self.assertEqual(lent_with(job, own_set(job), 20), (*lent_with(job, b"", 20)[:3], 2))
            self.assertEqual(lent_rate(job, own_set(job)), (lent_rate(job, b"")[0], 2))

    def test_refused_jobs(self):
        """A wrong second set is told after all that is wrong with the job, and nothing is written."""
        for job, text in recorded.read_cases(recorded.JOB):
            number = int(text.split()[1]) if text.startswith("refused") else 23
            for second in (b"\0", b"\xff" * 400):
                self.assertEqual(lent_with(job, second, 20), (-number, [7] * 6, [7] * 20, 7), job)
                self.assertEqual(lent_rate(job, second), (-number, 7), job)


class Radon(unittest.TestCase):
    """The stored example, whose book has eight members."""

    JOB = (ROOT / "examples" / "radon.job").read_bytes()

    def check_refused(self, second):
        for call in (jelmorand.screen_with, jelmorand.lowest_rate_with):
            with self.assertRaises(jelmorand.Refused) as caught:
                call(self.JOB, second)
            self.assertEqual(caught.exception.number, 23, second)
        self.assertEqual(lent_with(self.JOB, second or b"\0", 8), (-23, [7] * 6, [7] * 8, 7))
        self.assertEqual(lent_rate(self.JOB, second or b"\0"), (-23, 7))

    def test_lengths(self):
        """A set of no bytes is one too: it is not that none is lent."""
        own = own_set(self.JOB)
        for second in (b"", own[:1], own[:20], own[:-20], own[:-4], own[:-1], own + b"\0", own + bytes(4), own + bytes(20), own * 2):
            self.check_refused(second)
        self.assertIs(jelmorand.screen_with(self.JOB, own).set, CoefficientSet.SECOND)

    def test_numbers(self):
        for at in range(5 * 8):
            self.check_refused(too_large(self.JOB, at))
            most = bytearray(own_set(self.JOB))
            struct.pack_into("<I", most, 4 * at, MOST)
            self.assertEqual(lent_with(self.JOB, bytes(most), 8)[::3], (8, 2))

    def test_list_too_short(self):
        """The length of the list is looked at last."""
        self.assertEqual(lent_with(self.JOB, own_set(self.JOB), 7), (-19, [7] * 6, [7] * 7, 7))
        self.assertEqual(lent_with(self.JOB, too_large(self.JOB, 0), 7), (-23, [7] * 6, [7] * 7, 7))

    def test_answers(self):
        """Without coefficients every room is 'below' and no fan is needed."""
        own, none = jelmorand.screen(self.JOB), bytes(20 * 8)
        report = jelmorand.screen_with(self.JOB, none)
        self.assertEqual((own.set, own.verdict), (CoefficientSet.BOOK, "above"))
        self.assertEqual((report.set, report.verdict, report.level, report.working), (CoefficientSet.SECOND, "below", MOST, None))
        self.assertEqual((report.factors, report.concentration), (own.factors, own.concentration))
        self.assertEqual(jelmorand.lowest_rate_with(self.JOB, none), jelmorand.LowestRate(0, CoefficientSet.SECOND))
        self.assertEqual(jelmorand.lowest_rate_with(self.JOB, None), jelmorand.LowestRate(None, CoefficientSet.BOOK))
        self.assertEqual(jelmorand.screen_with(self.JOB, None), own)

    def test_kinds_of_bytes(self):
        own = own_set(self.JOB)
        for kind in (bytearray, memoryview, lambda data: array.array("I", data)):
            self.assertEqual(jelmorand.screen_with(self.JOB, kind(own)), jelmorand.screen_with(self.JOB, own))
            self.assertEqual(jelmorand.lowest_rate_with(self.JOB, kind(own)), jelmorand.lowest_rate_with(self.JOB, own))
        for wrong in (160, "set", [own], list(own), jelmorand.Coefficients(1, 1, 1, 1, 1)):
            for call in (jelmorand.screen_with, jelmorand.lowest_rate_with):
                with self.assertRaisesRegex(TypeError, "a second set of coefficients is bytes, not"):
                    call(self.JOB, wrong)


if __name__ == "__main__":
    unittest.main()
