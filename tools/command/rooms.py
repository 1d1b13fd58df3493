"""`rooms`: many rooms of one book, a table in and a table out (docs/ROOMS.md)."""

from textform.chain import book_of
from textform.files import text_of
from textform.text import KINDS, ROOM_WORDS, Text
from textform.words import Mistake, placed

from .building import make_ready
from .columns import columns_of, is_replaced
from .given import bytes_in, told_of
from .judging import judged_all
from .numerals import listed
from .results import check_new, old_aside, write_results
from .room import Lines
from .sheet import read_sheet
from .summary import summary
from .tool import STOPPED, Failure, Usage, check_files, put
from .verdicts import status


def rooms(words):
    is_forced = words[:1] == ["--force"]
    names = words[1:] if is_forced else words
    check_files(names, 3)
    if len(names) > 3:
        raise Usage
    try:
        return answered(*names, is_forced)
    except (Failure, KeyboardInterrupt) as error:
        aside = old_aside(names[2], names[:2]) if is_forced else None
        raise Failure(f"{str(error) or STOPPED}\n{aside}") if aside else error


def answered(book_name, rooms_name, results_name, is_forced):
    book, sheet = read_book(book_name), read_sheet(rooms_name)
    at = columns_of(sheet, rooms_name, book.words, book_name)
    if not sheet.rows:
        raise Failure(f"{rooms_name}: has no rooms, only the names of the columns")
    check_new(results_name, (book_name, rooms_name), is_forced)
    make_ready(["screen", "fan"])
    found = judged_all(sheet, at, book)
    write_results(results_name, sheet, found, is_forced)
    put("".join(shared_lines(book, at, found)) + summary(found, results_name))
    return status([judged.kind for judged in found])


def read_book(name):
    """The text of the book, with the lines of a job that it has."""
    with told_of(name):
        source = text_of(bytes_in(name))
        text = Text(source)
        check_chain(text)
    return Lines(name, source, {word: line for word, (_, line) in text.fields.items() if word in ROOM_WORDS})


def check_chain(text):
    """A chain that fits no kind of job fits no room."""
    mistakes = []
    for kind in range(len(KINDS)):
        try:
            book_of(text, kind)
        except Mistake as mistake:
            mistakes.append(mistake)
    if len(mistakes) == len(KINDS):
        raise mistakes[0]


def shared_lines(book, at, found):
    """What all rooms have in common: the lines of the book's text that count, those that do not, and what is said of it."""
    common = [word for word in book.words if not is_replaced(word, at)]
    others = [f"line {line}, {word}" for word, line in book.words.items() if is_replaced(word, at)]
    if others:
        yield f"{book.name}: the columns count, and not its {listed(others)}\n"
    if common:
        yield f"{book.name}: the same in every room: {'; '.join(map(book.said, common))}\n"
    if "value" in common:
        line, said = book.words["value"], book.said("value")
        yield f"{book.name}, line {line}: {said}: no column for value, so every room has this reading (warning)\n"
    for remark in dict.fromkeys(remark for judged in found for remark in judged.shared):
        yield f"{placed(book.name, f'{remark.placed()} ({remark.kind})')}\n"
