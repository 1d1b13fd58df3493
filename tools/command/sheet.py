"""A table of rooms as spreadsheets write it: UTF-8 with or without a BOM, with commas, semicolons or tabs, any line ends."""

import csv
import io
from typing import NamedTuple

from textform.files import text_of
from textform.words import Mistake, in_line, placed

from .tool import Failure, read_file

LONGEST = 100_000_000  # bytes
DELIMITERS = (";", "\t", ",")
BOM = b"\xef\xbb\xbf"


class Sheet(NamedTuple):
    header: list
    rows: list  # each the line that it starts in, and its cells
    delimiter: str
    ending: str  # of a line
    bom: bytes


def read_sheet(name):
    data = read_file(name, LONGEST, "")
    try:
        text = text_of(data)
    except Mistake as mistake:
        raise Failure(placed(name, in_line(mistake.line, mistake)))
    first_line = (text.lstrip().splitlines() or [""])[0]
    if first_line.startswith("sep="):
        raise Failure(f"{name}: leave out its first line, {first_line}: the first line names the columns")
    delimiter = delimiter_of(first_line)
    rows = [row for row in rows_of(name, text, delimiter) if any(cell.strip() for cell in row[1])]
    if not rows:
        raise Failure(f"{name}: is empty: its first line names the columns")
    ending = "\r\n" if "\r\n" in text else "\n"
    return Sheet(rows[0][1], rows[1:], delimiter, ending, BOM if data.startswith(BOM) else b"")


def delimiter_of(first_line):
    """The names of the columns hold none of the three, so the first that stands among them parts them."""
    return next((mark for mark in DELIMITERS if mark in first_line), ",")


def rows_of(name, text, delimiter):
    """Each row with the line that it starts in. A quotation mark that is never closed would take the other rooms with it."""
    reader = csv.reader(io.StringIO(text, newline=""), delimiter=delimiter, strict=True)
    line = 1
    try:
        for cells in reader:
            yield line, cells
            line = reader.line_num + 1
    except csv.Error as error:
        raise Failure(f"{name}, line {line}: cannot be parted into cells, so look at its quotation marks: {error}")
