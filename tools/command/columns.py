"""The columns of a table of rooms: which of a room's lines each of them holds, and which lines the book's text has for all."""

from textform.text import GROUPS, JOB_WORDS, ROOM_WORDS

from .numerals import listed
from .tool import Failure

NAME = "name"
EXPOSURE = ("exposure",) + GROUPS
KEPT = "#"  # starts the name of a column that is only carried along


def columns_of(sheet, name, book_words, book_name):
    """The number of each word's column, and of the name's, in whatever order. One that is wrong or missing is named."""
    at = {}
    for number, said in enumerate(sheet.header):
        word = said.strip().casefold()
        if word in at:
            raise Failure(f"{name}: two columns are named {word}")
        if word in ROOM_WORDS or word == NAME:
            at[word] = number
        elif not word.startswith(KEPT):
            check_empty(sheet, name, number, said)
    check_complete(at, name, book_words, book_name)
    return at


def check_empty(sheet, name, number, said):
    """A column without a name is none, if nothing stands in it."""
    if said.strip():
        known = f"the columns are {listed((NAME, *ROOM_WORDS))}"
        if len(sheet.header) == 1:
            known = f"no comma, semicolon or tab parts the columns; {known}"
        raise Failure(f"{name}: column {said.strip()!r}: {known}; one that is only to be kept has a name that starts with {KEPT}")
    for line, cells in sheet.rows:
        if len(cells) > number and cells[number].strip():
            raise Failure(f"{name}, line {line}: column {number + 1} has no name, and something stands in it")


def check_complete(at, name, book_words, book_name):
    """Every line of a job has its column, or stands in the book's text for all rooms."""
    given = set(at) | set(book_words)
    if "exposure" not in at and set(GROUPS) & set(at):
        given.discard("exposure")
    missing = [word for word in JOB_WORDS if word not in given and not (word in GROUPS and "exposure" in given)]
    if NAME not in at:
        raise Failure(f"{name}: no column for name")
    if set(missing) >= set(GROUPS):
        missing = [word for word in missing if word not in GROUPS] + ["exposure (or child and adult)"]
    if missing:
        raise Failure(f"{name}: no column for {listed(missing)}, and no line in {book_name}")


def is_replaced(word, at):
    """Whether a line of the book's text counts in no room, or in some only, since there is a column for what it says."""
    if word in GROUPS:
        return word in at or "exposure" in at
    return word in at or (word == "exposure" and bool(set(GROUPS) & set(at)))
