"""What the proved program `marks` says of a table by a book, and every wrong entry of the table, found by it alone."""

import os
import re
from concurrent.futures import ThreadPoolExecutor
from typing import NamedTuple, Optional

from .programs import STANDARD_INPUT, asked, in_memory, matched
from .tool import Failure

MARKS = re.compile(
    r"right (?P<right>\d+)\n"
    r"close (?P<close>\d+)\n"
    r"wrong (?P<wrong>\d+)\n"
    r"first (?P<first>none|(?P<line>\d+) (?P<member>\d+))\n"
)
AMISS = "marks does not agree with itself, so nothing is shown"


class Marks(NamedTuple):
    right: int
    close: int
    wrong: int
    first: Optional[tuple]  # the line, from 1, and the member of the first wrong entry; None where none is wrong

    def counts(self):
        return self[:3]


def marks_of(text):
    parts = matched("marks", MARKS, text)
    first = None if parts["first"] == "none" else (int(parts["line"]), int(parts["member"]))
    marks = Marks(*(int(parts[word]) for word in ("right", "close", "wrong")), first)
    if (marks.wrong == 0) != (first is None):
        raise Failure(AMISS)
    return marks


def marked(table, lent):
    """The lines that `marks` writes of a table by the book in an open file."""
    return asked("marks", table, f"/dev/fd/{lent}", STANDARD_INPUT, lent=[lent])


def marked_alone(table, book):
    """The same by the bytes of a book."""
    with in_memory(book) as lent:
        return marked(table, lent)


def wrong_entries(lines, own, book, total):
    """The members with a wrong entry, of each line. The runs must come to what the one over the whole text says."""
    with in_memory(book) as lent:
        pool = ThreadPoolExecutor(os.cpu_count())
        try:
            found = list(pool.map(lambda line, by_book: wrong_in(line, by_book, lent), lines, own))
        finally:
            pool.shutdown(cancel_futures=True)
    sums = [sum(counts) for counts in zip(*(marks.counts() for marks, _ in found))]
    first = next(((number, members[0]) for number, (_, members) in enumerate(found, 1) if members), None)
    if Marks(*sums, first) != total:
        raise Failure(AMISS)
    return [members for _, members in found]


def wrong_in(line, own, lent):
    """The marks of one line, and its members with a wrong entry. The first wrong entry gives way to the book's own, which is
    never wrong, and the line is marked again, until none is wrong."""
    words, members = list(line), []
    marks = at_first = marks_of(marked(text_of_line(words), lent))
    while marks.first:
        member = marks.first[1]
        if marks.first[0] != 1 or not (members or [-1])[-1] < member < len(own) - 1:
            raise Failure(AMISS)
        members.append(member)
        words[1 + member] = own[1 + member]
        marks = marks_of(marked(text_of_line(words), lent))
    if len(members) != at_first.wrong:
        raise Failure(AMISS)
    return at_first, members


def text_of_line(words):
    return f"{' '.join(words)}\n".encode()
