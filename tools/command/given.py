"""What the command is given: a text or the bytes of a job or a book, told apart by what is in them, not by the name."""

import contextlib
import os
from typing import NamedTuple

from textform.decode import JOB, decode, is_book
from textform.encode import all_bytes
from textform.files import UTF_16, is_bytes, text_of
from textform.hours import hours_text, may_be_whole_hours
from textform.said import said_of, without_lines
from textform.text import Text, read_text
from textform.words import Mistake, in_line, placed

from .tool import Failure, read_file

BOOK_ALONE = "is a book alone: a room needs the lines of a job too, rate to adult"
NO_NAMES = "is a job, whose bytes have no names, so no set of coefficients can be matched to its chain: give the room's text"


class Given(NamedTuple):
    """A job or a book as it goes to the programs, and the same bytes read back, which is what is shown of a job."""

    data: bytes
    read: tuple  # the job (None of a book alone) and the book in the bytes; None where they can't be read, or are not asked for
    remarks: list
    said: dict = {}  # the text's own words for each line of the job


def bytes_in(name):
    """All of a file; the line that says why not leaves out its name, which whoever shows it puts before it."""
    try:
        return read_file(name)
    except Failure as failure:
        raise Failure(str(failure).removeprefix(f"{name}: "))


@contextlib.contextmanager
def told_of(name):
    """What is wrong within is told as a failure of this file, with its line where it has one."""
    try:
        yield
    except (Mistake, Failure) as error:
        raise Failure(placed(name, in_line(getattr(error, "line", 0), error)))


def check_no_text(data):
    """Text in UTF-16, or with a zero byte in it, is no job and no book."""
    if is_book(data) or is_book(data[JOB:]):
        return
    kept = data.replace(b"\0", b"").decode(errors="replace")
    if data[:2] in UTF_16 or (kept and all(sign.isprintable() or sign.isspace() for sign in kept) and "\ufffd" not in kept):
        raise Mistake("is text, and not in UTF-8: it has zero bytes; save the file as UTF-8")


# ---- A job --------------------------------------------------------------------------------------


def job_given(name, needs_names=False):
    """The job in a file: a text's, or the bytes as they are, whatever the programs will say of them. Bytes have no names."""
    data = bytes_in(name)
    if not is_bytes(data):
        return text_given(text_of(data))
    check_no_text(data)
    if is_book(data) and not is_book(data[JOB:]):
        raise Failure(BOOK_ALONE)
    if needs_names:
        raise Mistake(NO_NAMES)
    check_text_beside(name, data)
    try:
        read = read_text(decode(data, "job"))
    except Mistake:
        return Given(data, None, [])
    check_hours(read[0], name)
    return Given(data, read, without_lines(said_of(*read)))


def check_text_beside(name, data):
    """A job may be older than its text, or have been written of another: then the text counts, and not the job."""
    text = f"{os.path.splitext(name)[0]}.txt"
    if text == name or not os.path.isfile(text):
        return
    try:
        is_of_text = all_bytes(*read_text(text_of(bytes_in(text)))) == data
    except (Mistake, Failure):
        is_of_text = False
    if not is_of_text:
        raise Mistake(f"is not the job of {text}, which stands beside it: give the text, or encode it again")


def check_hours(job, name):
    """A job in whole hours would be judged on a quarter of them, so one that may be such is not judged."""
    both = job.child.quarter_hours, job.adult.quarter_hours
    if may_be_whole_hours(*both):
        quarters = max(both)
        raise Mistake(
            f"its hours, {hours_text(quarters)} a day, are {quarters} a day if the job was written in whole hours, as jobs used "
            f"to be: write its text by './jelmorand decode {name} OUT', set the hours right in it, and give the text"
        )


def text_given(source):
    job, book = read_text(source)
    if job is None:
        raise Mistake(BOOK_ALONE)
    data = all_bytes(job, book)
    said = {word: " ".join(words) for word, (words, _) in Text(source).fields.items()}
    return Given(data, read_text(decode(data, "job", source)), said_of(job, book), said)


# ---- A book -------------------------------------------------------------------------------------


def book_given(name):
    """The book in a file: a text's, a book's bytes, or those that follow a job."""
    data = bytes_in(name)
    if not is_bytes(data):
        book = read_text(text_of(data))[1]
        return Given(all_bytes(None, book), (None, book), said_of(None, book))
    check_no_text(data)
    is_job = is_book(data[JOB:])
    if is_book(data) and is_job:
        raise Failure("fits a book alone and a job with its book; give its text")
    return Given(data[JOB:] if is_job else data, None, [])


def member_names(given):
    """What a message calls each member of a book that was accepted: bytes have numbers alone."""
    if given.read is None:
        return [f"member {i}" for i in range(given.data[0])]
    book = given.read[1]
    return [book.label(i) for i in range(len(book.members))]
