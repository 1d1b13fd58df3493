"""The rooms of a table, each asked of the proved programs, several at once."""

import os
import sys
from concurrent.futures import ThreadPoolExecutor
from typing import NamedTuple, Optional

from textform.remarks import MOST
from textform.said import Line
from textform.words import Mistake

from .columns import NAME
from .numerals import listed
from .programs import Refused, Report, judged
from .room import room_of
from .tool import Failure
from .verdicts import AT_ITS_LARGEST, ground_in_words


class Judged(NamedTuple):
    """What comes of a row: a report and a rate, or why not."""

    line: int
    name: str
    kind: str  # one of verdicts.OUTCOMES
    report: Optional[Report] = None
    rate: Optional[int] = None
    why: str = ""
    own: tuple = ()  # what is said of its cells
    shared: tuple = ()  # what is said of the text of the book

    def remarks(self):
        """What is said of the room: of its cells, and of a level at its largest."""
        at_its_largest = self.report is not None and self.report.level == MOST
        return [*self.own, Line("warning", 0, AT_ITS_LARGEST)] if at_its_largest else list(self.own)


def judged_all(sheet, at, book):
    """A row's outcome each, in the order of the rows; progress is shown on a terminal only."""
    lines = lines_of_names(sheet, at)
    pool = ThreadPoolExecutor(os.cpu_count())
    try:
        found = []
        for outcome in pool.map(lambda row: outcome_of(row, sheet, at, book, lines), sheet.rows):
            found.append(outcome)
            show_progress(len(found), len(sheet.rows))
        return found
    finally:
        pool.shutdown(cancel_futures=True)


def show_progress(done, all_of_them):
    if sys.stderr is not None and sys.stderr.isatty() and (done % 50 == 0 or done == all_of_them):
        end = "\n" if done == all_of_them else ""
        print(f"\r{done:,} of {all_of_them:,} rooms", end=end, file=sys.stderr, flush=True)


def name_in(cells, at):
    number = at[NAME]
    return " ".join(cells[number].split()) if number < len(cells) else ""


def lines_of_names(sheet, at):
    """The lines of each name: two rooms of one name would share a verdict in the eyes of whoever looks one up."""
    lines = {}
    for line, cells in sheet.rows:
        lines.setdefault(name_in(cells, at), []).append(line)
    return lines


def outcome_of(row, sheet, at, book, lines):
    """What comes of one row. Whatever keeps it from an answer, the others go on."""
    line, cells = row
    name = name_in(cells, at)
    try:
        check_row(cells, sheet, lines[name] if name else [line])
        room = room_of(cells, at, book)
    except Mistake as mistake:
        return Judged(line, name, "refused", why=str(mistake))
    said = {"own": tuple(room.own), "shared": tuple(room.shared)}
    try:
        report, rate = judged(room.data)
    except Refused as refused:
        return Judged(line, name, "refused", why=ground_in_words(refused.ground), **said)
    except Failure as failure:
        return Judged(line, name, "unanswered", why=str(failure), **said)
    return Judged(line, name, report.verdict, report, rate, **said)


def check_row(cells, sheet, lines):
    """As many cells as columns, and a name of its own. A spreadsheet may leave out the empty ones at the end."""
    while len(cells) > len(sheet.header) and not cells[-1].strip():
        cells.pop()
    if len(cells) > len(sheet.header):
        comma = "; a decimal has a point and no comma, such as 4.0" if sheet.delimiter == "," else ""
        raise Mistake(f"{len(cells)} cells for {len(sheet.header)} columns{comma}")
    cells += [""] * (len(sheet.header) - len(cells))
    if len(lines) > 1:
        raise Mistake(f"{len(lines)} rooms of this name, in lines {listed([str(line) for line in lines[:10]])}: which is meant?")
