"""`check`: a table from elsewhere, compared with a book; every wrong entry by name (docs/CHECK.md)."""

from textform.files import is_bytes, text_of
from textform.words import Mistake, placed

from .building import make_ready
from .given import book_given, bytes_in, member_names, told_of
from .marks import marked_alone, marks_of, wrong_entries
from .numerals import count, decimal, listed
from .passing import TABLE
from .printed import looks_printed, reasons
from .programs import STANDARD_INPUT, Refused, asked, matched
from .tool import CLEARED, FAILED, NOT_CLEARED, Failure, Usage, check_files, put, read_file, tell
from .verdicts import ground_in_words

REPORT = "--report"
OF_TABLE = 24  # the ground that the table gives; the others are the book's
ALL_AGREE = "all agree with the book: every entry is proved to be within half a unit, in its last place, of the exact factor"
IS_CLOSE = "neither right nor wrong is proved, since the rounding of the factors leaves both open"


def check(words):
    """The exit status, after the wrong entries and the counts, or after the lines of the program alone."""
    is_report, table_name, book_name = options_of(words)
    book = book_in(book_name)
    table = read_file(table_name, otherwise=", and no table is")
    make_ready(["marks"] if is_report else ["marks", "table"])
    for remark in book.remarks:
        tell(remark.whole(book_name))
    said = marked_alone(table, book.data)
    try:
        marks = marks_of(said)
    except Refused as refused:
        return refuse(refused.ground, table_name, table, book_name, book, said if is_report else "")
    put(said if is_report else in_words(table_name, table, book_name, book, marks))
    return NOT_CLEARED if marks.wrong else CLEARED


def options_of(words):
    """Whether the lines of the program are asked for, and the two files' names."""
    names = [word for word in words if word != REPORT]
    if len(words) - len(names) > 1:
        raise Usage(f"{REPORT} is given twice")
    check_files(names, 2)
    if len(names) > 2:
        raise Usage("one table and one book")
    return len(names) < len(words), *names


def book_in(name):
    """The book in a file. A table in its place is told, since the two are easily exchanged."""
    with told_of(name):
        data = bytes_in(name)
        if not is_bytes(data) and looks_printed(text_of(data)):
            raise Mistake("this looks like a table, and not like a room's text: the table stands first", 1)
        return book_given(name)


def refuse(ground, table_name, table, book_name, book, said):
    """The ground in words, and of a table that has not the form why."""
    put(said)
    if ground != OF_TABLE:
        tell(placed(book_name, ground_in_words(ground)))
        return FAILED
    for reason in reasons(table, member_names(book)):
        tell(placed(table_name, reason))
    tell(placed(table_name, ground_in_words(ground)))
    return FAILED


# ---- In words -----------------------------------------------------------------------------------


def in_words(table_name, table, book_name, book, marks):
    """What was compared, each wrong entry beside the book's own, and how many there are of each."""
    names = member_names(book)
    lines = lines_of(table, len(names), marks)
    head = f"{table_name}: {count(len(lines), 'line')}, {rates_of(lines)}, compared with {book_name}: {listed(names)}\n"
    try:
        return head + "".join(wrong_lines(lines, names, book.data, marks)) + end(marks)
    except Refused as refused:
        raise Failure(f"a part of the table is refused ({refused.ground}), and the whole is not, so nothing is shown")


def lines_of(table, n, marks):
    """The words of each line of a table that was marked, entry by entry."""
    text = table.decode("ascii", errors="replace")
    lines = [line.split(" ") for line in text.split("\n")[:-1]]
    if not TABLE.fullmatch(text) or any(len(line) != 1 + n for line in lines) or sum(marks.counts()) != n * len(lines):
        raise Failure("marks: its answer is not one to this table, so nothing is shown")
    return lines


def rates_of(lines):
    """The lowest rate and the highest, in the unit in which a mistake is seen most easily."""
    rates = [int(line[0]) for line in lines]
    ends = dict.fromkeys(decimal(rate, 2) for rate in (min(rates), max(rates)))
    return f"{' to '.join(ends)} air changes per hour"


def wrong_lines(lines, names, book, marks):
    if not marks.wrong:
        return
    own = own_lines(lines, book)
    for number, (line, by_book, members) in enumerate(zip(lines, own, wrong_entries(lines, own, book, marks)), 1):
        for i in members:
            yield f"line {number}, rate {line[0]}, {names[i]}: {line[1 + i]} is wrong, and by the book it is {by_book[1 + i]}\n"


def own_lines(lines, book):
    """The book's own line for each line's rate."""
    said = asked("table", book, STANDARD_INPUT, *(line[0] for line in lines))
    matched("table", TABLE, said)
    own = [line.split(" ") for line in said.splitlines()]
    if [(line[0], len(line)) for line in own] != [(line[0], len(line)) for line in lines]:
        raise Failure("table: its lines are not those of the rates that it was asked for, so nothing is shown")
    return own


def end(marks):
    """The counts, and what they come to where they do not say it themselves."""
    entries = count(sum(marks.counts()), "entry", "entries")
    counts = f"{entries}: {marks.right:,} right, {marks.close:,} close, {marks.wrong:,} wrong\n"
    if marks.close:
        none = "" if marks.wrong else "none is wrong; "
        return f"{counts}{none}{marks.close:,} close: {IS_CLOSE}\n"
    return counts if marks.wrong else f"{counts}{ALL_AGREE}\n"
