"""The five programs that read one kind of recorded case each are run on the same cases as `recorded`, each in its own form.

    test_forms.py

In `cases` and `fan_cases` a job's length (u16) stands before it. In `edges`, `table_cases` and `opening_cases` the book's
length (u16) stands in a head of eight bytes, before the numbers and the book. The answers are the same bytes.
"""

import struct

import recorded
from plain_help import answer_help
from tally import run_tests, say_passed

CRATES = recorded.CRATE.parent


def with_length(body):
    return struct.pack("<H", len(body)) + body


def factors_form(body):
    head, book = body[:6], body[6:]
    return head + struct.pack("<H", len(book)) + book


def table_form(body):
    _, book, _ = recorded.TABLE.unpack(body)
    return body[:6] + struct.pack("<H", len(book)) + body[6:]


def opening_form(body):
    _, book, _ = recorded.OPENING.unpack(body)
    return body[:4] + struct.pack("<HH", len(book), 0) + body[4:]


def holds_the_cases(crate, kind, form):
    """The program's two files are the recorded cases of this kind, in its form, and their answers."""
    cases = recorded.read_cases(kind)
    assert (CRATES / crate / "stdin").read_bytes() == b"".join(form(body) for body, _ in cases), crate
    assert (CRATES / crate / "stdout").read_text(encoding="ascii") == "".join(answer for _, answer in cases), crate


def test_cases():
    holds_the_cases("cases", recorded.JOB, with_length)


def test_fan_cases():
    holds_the_cases("fan_cases", recorded.LOWEST, with_length)


def test_edges():
    holds_the_cases("edges", recorded.FACTORS, factors_form)


def test_table_cases():
    holds_the_cases("table_cases", recorded.TABLE, table_form)


def test_opening_cases():
    holds_the_cases("opening_cases", recorded.OPENING, opening_form)


def main():
    answer_help(__doc__)
    say_passed(run_tests(globals()))


if __name__ == "__main__":
    main()
