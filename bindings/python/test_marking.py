"""The marks of a table: against the recorded cases and the reference, on tables that the library writes and changes of them, and what
Python takes for a table.

    JELMORAND_SO=target/libjelmorand.so python3 bindings/python/test_marking.py
"""

import array
import ctypes
import random
import unittest

from answers import recorded_answers, recorded_bodies

import jelmorand
import recorded
import reference
from jelmorand import Marks, Place
from jelmorand._library import LIBRARY
from packing import pack_book, pack_feed, pack_member

BOOK = pack_book([pack_member(1), pack_member(2_495_329_851_600, first=1)], [pack_feed(100_000, 0)])
TABLE = "0 1.000E+00 1.000E+00\n100 1.000E+00 5.000E-01\n200 1.000E+00 3.333E-01\n"


def marked(text, book):
    """What the program `marks` writes."""
    try:
        marks = jelmorand.marks(text, book)
    except jelmorand.Refused as refused:
        return f"refused {refused.number}\n"
    first = "none" if marks.first is None else f"{marks.first.line} {marks.first.member}"
    return f"right {marks.right}\nclose {marks.close}\nwrong {marks.wrong}\nfirst {first}\n"


def lent_marks(text, book):
    """The answer, and the five numbers, each of which was 7 before the call."""
    numbers = (ctypes.c_uint64 * 5)(*[7] * 5)
    return LIBRARY.jelmorand_marks(text, len(text), book, len(book), numbers), list(numbers)


def expected_marks(answer):
    """The same by what the program writes."""
    words = answer.split()
    if words[0] == "refused":
        return -int(words[1]), [7] * 5
    counts = [int(word) for word in words[1:6:2]]
    return sum(counts), counts + ([0, 0] if words[7] == "none" else [int(word) for word in words[7:]])


def changed(chance, text):
    """The text with a byte changed, left out or put in, or two of its lines changed for each other."""
    data, byte = bytearray(text), chance.choice(b"0123456789 .E+-\n\r")
    at = chance.randrange(len(data))
    way = chance.randrange(6)
    if way < 3:
        data[at] = chance.choice(b"0123456789") if chr(data[at]).isdigit() else byte
    elif way == 3:
        del data[at]
    elif way == 4:
        data.insert(at, byte)
    else:
        lines = data.splitlines(keepends=True)
        chance.shuffle(lines)
        data = b"".join(lines)
    return bytes(data)


class Recorded(unittest.TestCase):
    def own_tables(self):
        """The rates and the book of each recorded table that is accepted, and its text."""
        for body in recorded_bodies(recorded.TABLE):
            rates, book, _ = recorded.table_call(body)
            text = reference.table_call(rates, book, jelmorand.TABLE_ROOM)
            if isinstance(text, str):
                yield rates, book, text

    def test_recorded_answers(self):
        calls = [recorded.MARKS.unpack(body) for body in recorded_bodies(recorded.MARKS)]
        self.assertEqual([marked(*call) for call in calls], recorded_answers(recorded.MARKS))

    def test_lent_marks(self):
        """Every number that is lent, and what a refusal leaves of them."""
        for body, answer in recorded.read_cases(recorded.MARKS):
            self.assertEqual(lent_marks(*recorded.MARKS.unpack(body)), expected_marks(answer), body)

    def test_own_tables(self):
        """Every entry of a table that the library writes is marked, and none is wrong."""
        for rates, book, text in self.own_tables():
            marks = jelmorand.marks(text, book)
            self.assertEqual((marks.right + marks.close, marks.wrong, marks.first), (len(rates) * book[0], 0, None), (rates, book))

    def test_reference(self):
        """The same tables with a change or more."""
        chance, met = random.Random(9), set()
        for rates, book, text in self.own_tables():
            for _ in range(max(1, 8 // len(rates))):
                other = changed(chance, text.encode("ascii"))
                answer = marked(other, book)
                self.assertEqual(answer, reference.marks_answer(other, book), (other, book))
                met.add(answer.split()[0] if answer.startswith("refused") else answer.endswith("none\n"))
        self.assertEqual(met, {"refused", True, False})


class Tables(unittest.TestCase):
    def refused(self, text, book=BOOK):
        with self.assertRaises(jelmorand.Refused) as caught:
            jelmorand.marks(text, book)
        return caught.exception.number

    def test_rows(self):
        self.assertEqual(jelmorand.marks(TABLE, BOOK), Marks(right=6, close=0, wrong=0, first=None))
        self.assertEqual(jelmorand.marks(jelmorand.table([0, 100, 200], BOOK), BOOK), jelmorand.marks(TABLE, BOOK))

    def test_first_wrong_entry(self):
        """In reading order: the line from 1, the member from 0."""
        for text, wrong, first in (
            (TABLE.replace("5.000E-01", "5.001E-01"), 1, Place(line=2, member=1)),
            (TABLE.replace("5.000E-01", "5.001E-01").replace("3.333", "3.334"), 2, (2, 1)),
            (TABLE.replace("200 1.000E+00", "200 9.999E-01"), 1, (3, 0)),
            (TABLE.replace("0 1.000E+00 1.000E+00", "0 1.000E-01 1.000E-01", 1), 2, (1, 0)),
        ):
            self.assertEqual(jelmorand.marks(text, BOOK), Marks(6 - wrong, 0, wrong, first))

    def test_close_entry(self):
        """At rate 540 the factor is just 5 parts of 32, where one entry ends and the next one begins."""
        self.assertEqual(jelmorand.marks("540 1.000E+00 1.562E-01\n", BOOK), Marks(1, 1, 0, None))
        self.assertEqual(jelmorand.marks("540 1.000E+00 1.563E-01\n", BOOK), Marks(2, 0, 0, None))

    def test_texts_not_of_the_form(self):
        changes = (TABLE.replace("\n", "\r\n"), TABLE.replace(" ", "  "), TABLE[:22] * 201)
        for text in ("", "\n", TABLE[:-1], TABLE + "\n", TABLE + "\0", *changes):
            self.assertEqual(self.refused(text), 24, text)

    def test_rates_not_of_the_form(self):
        for rate in ("100001", "0100", "-1", "+100", "0.18", str(2**32 + 100), str(2**64 + 100)):
            self.assertEqual(self.refused(TABLE.replace("\n100 ", f"\n{rate} ")), 24, rate)

    def test_entries_not_of_the_form(self):
        for entry in ("5.000E-00", "5.000E+05", "0.500E+00", "0.000E-05", "5.000e-01", "0.5"):
            self.assertEqual(self.refused(TABLE.replace("5.000E-01", entry)), 24, entry)

    def test_characters(self):
        """Those that are no ASCII are of no table, a digit of another script and a lone surrogate among them."""
        for other in ("\N{NO-BREAK SPACE}", "\N{FULLWIDTH DIGIT ONE}", "\N{ARABIC-INDIC DIGIT ONE}", "é", "\ufeff", "\ud800"):
            self.assertEqual(self.refused(other + TABLE), 24)
            self.assertEqual(self.refused(TABLE.replace(" ", other, 1)), 24)
            self.assertEqual(self.refused(TABLE.replace("1", other, 1)), 24)

    def test_longest(self):
        members = [pack_member(1, first=i) for i in range(jelmorand.MAX_MEMBERS)]
        book = pack_book(members, [pack_feed(100_000, i) for i in range(jelmorand.MAX_MEMBERS - 1)])
        text = jelmorand.table([100_000] * jelmorand.MAX_RATES, book)
        marks = jelmorand.marks(text, book)
        self.assertEqual((len(text), marks.right + marks.close), (jelmorand.TABLE_ROOM, jelmorand.MAX_RATES * jelmorand.MAX_MEMBERS))
        for longer in (text + "\n", text + text[:167], text * 2, text * 30):
            self.assertEqual(self.refused(longer, book), 24)

    def test_order(self):
        """The book is looked at first, and no rate is refused with 3."""
        for text in (TABLE, "", "100001 1.000E+00 1.000E+00\n"):
            self.assertEqual((self.refused(text, b""), self.refused(text, BOOK[:-1])), (9, 11))

    def test_kinds_of_text(self):
        marks = jelmorand.marks(TABLE, BOOK)
        for kind in (bytes, bytearray, memoryview, lambda data: array.array("B", data)):
            self.assertEqual(jelmorand.marks(kind(TABLE.encode("ascii")), BOOK), marks)
        for wrong in (100, None, [TABLE], TABLE.splitlines(), 0.5):
            with self.assertRaisesRegex(TypeError, "a table is a str or bytes, not"):
                jelmorand.marks(wrong, BOOK)

    def test_kinds_of_books(self):
        for kind in (bytearray, memoryview):
            self.assertEqual(jelmorand.marks(TABLE, kind(BOOK)), jelmorand.marks(TABLE, BOOK))
        for wrong in (8, "book", None, [1, 0]):
            with self.assertRaisesRegex(TypeError, "book is bytes, not"):
                jelmorand.marks(TABLE, wrong)


if __name__ == "__main__":
    unittest.main()
