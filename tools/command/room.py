"""A row of a table of rooms, with the text of the book, into a room's job. Its cells are read as the lines of a text are."""

import re
from typing import NamedTuple

from textform.encode import all_bytes
from textform.said import said_of
from textform.text import GROUPS, lines_of, read_text, words_of
from textform.words import Mistake, in_line, placed

from .columns import EXPOSURE, NAME
from .numerals import listed

DECIMAL_COMMA = re.compile(r"[0-9],[0-9]")


class Lines:
    """The text of the book, without the lines that a row has in their place."""

    def __init__(self, name, source, words):
        self.name, self.words = name, words  # each word of the job that it has, with its line
        self.lines = lines_of(source)
        self.known = {}

    def said(self, word):
        """A line as it stands, without its comment."""
        return " ".join(words_of(self.lines[self.words[word] - 1]))

    def without(self, words):
        if words not in self.known:
            left_out = {self.words[word] for word in words if word in self.words}
            kept = ("" if number in left_out else line for number, line in enumerate(self.lines, 1))
            self.known[words] = "\n".join(kept)
        return self.known[words]


class Room(NamedTuple):
    data: bytes  # its job
    own: list  # what is said of its cells
    shared: list  # what is said of the text of the book


def room_of(cells, at, book):
    """The room that a row says, or a mistake in the words that a text gets."""
    said = {word: cells[number].strip() for word, number in at.items()}
    check_filled(said, book.words)
    filled = [word for word in said if word != NAME and said[word]]
    replaced = set(said) | (set(EXPOSURE) if "exposure" in filled else {"exposure"} if set(GROUPS) & set(filled) else set())
    source = "\n".join([book.without(frozenset(replaced))] + [f"{word} {said[word]}" for word in filled])
    try:
        job, chain = read_text(source)
    except Mistake as mistake:
        raise Mistake(in_row(mistake, book, [said[word] for word in filled]))
    return Room(all_bytes(job, chain), *parted(said_of(job, chain), len(book.lines)))


def check_filled(said, book_words):
    """An empty cell is told, and never takes what the book's text has for all."""
    for word, cell in said.items():
        if not cell and word not in EXPOSURE:
            raise Mistake("a room without a name" if word == NAME else f"{word}: the cell is empty")
        if "\n" in cell or "\r" in cell:
            raise Mistake(f"{word}: the cell has more than one line")
    columns = [word for word in EXPOSURE if word in said]
    given = [word for word in columns if said[word]]
    if "exposure" in given and len(given) > 1:
        raise Mistake(f"{listed(given)}: exposure gives both groups by name, so leave one of the two out")
    if columns and not given:
        raise Mistake(f"{' or '.join(columns)}: the cell is empty")
    for word in GROUPS:
        if given and "exposure" not in given and word not in given and (word in said or word not in book_words):
            raise Mistake(f"{word}: the cell is empty")


def in_row(mistake, book, cells):
    """A mistake's words. One in the book's text has that place; one in a cell starts with the cell's column already."""
    number = mistake.line - len(book.lines)
    if number <= 0:
        return placed(book.name, in_line(mistake.line, mistake))
    if DECIMAL_COMMA.search(cells[number - 1]):
        return f"{mistake}; a decimal has a point and no comma, such as 4.0"
    return str(mistake)


def parted(remarks, lines):
    """What is said of the cells, and what is said of the text that all rooms have."""
    own = [remark for remark in remarks if remark.line > lines]
    return own, [remark for remark in remarks if remark.line <= lines]
