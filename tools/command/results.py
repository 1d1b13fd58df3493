"""The table of results: every cell that was given, then what came of the room. The file appears whole, or not at all."""

import csv
import io
import os

from textform.files import set_aside, write_beside

from .numerals import decimal
from .sheet import DELIMITERS
from .tool import Failure

LONGEST_HEADER = 100_000  # bytes
NO_RESULTS = "is there already, and is no table of results"
ANSWERS = ("verdict", "concentration mBq/m3", "level mBq/m3", "lowest rate per hour", "refusal", "warnings")


def check_new(path, others, is_forced):
    """Nothing is overwritten: not without --force, and with it only what is such a table, and none of the others."""
    if is_one_of(path, others):
        raise Failure(f"{path}: is what the rooms are read from; give the results another name")
    why = why_kept(path)
    if why:
        raise Failure(f"{path}: {why}, so not even --force overwrites it; give the results another name")
    if os.path.lexists(path) and not is_forced:
        raise Failure(f"{path}: is there already; --force overwrites it")
    folder = os.path.dirname(os.path.abspath(path))
    if not os.access(folder, os.W_OK):
        raise Failure(f"{path}: the folder {folder} is not there, or nothing can be written in it")


def is_one_of(path, others):
    return any(os.path.exists(path) and os.path.exists(other) and os.path.samefile(path, other) for other in others)


def why_kept(path):
    """Why a file that is there must stay as it is; None where it may be replaced: a table of results, or an empty file."""
    if not os.path.lexists(path):
        return None
    if not os.path.isfile(path):
        return NO_RESULTS  # such as a folder, /dev/stdout, or a link to nowhere
    try:
        with open(path, "rb") as file:
            first = file.readline(LONGEST_HEADER).decode("utf-8-sig", errors="replace").rstrip("\r\n")
    except OSError as error:
        return f"is there already, and cannot be read: {error.strerror or error}"
    if first and not any(first.endswith(mark.join(ANSWERS)) for mark in DELIMITERS):
        return NO_RESULTS
    return None if os.access(path, os.W_OK) and os.stat(path).st_mode & 0o222 else "is read-only"


def old_aside(path, others):
    """The line that says what became of an older table: after a failure it must not be taken for this one's."""
    if is_one_of(path, others) or why_kept(path):
        return None
    return set_aside(path, "these rooms", why_kept)


def results_text(sheet, found):
    out = io.StringIO(newline="")
    table = csv.writer(out, delimiter=sheet.delimiter, lineterminator=sheet.ending)
    table.writerow([*sheet.header, *ANSWERS])
    for (_, cells), judged in zip(sheet.rows, found):
        table.writerow([*cells[: len(sheet.header)], *answers(judged)])
    return out.getvalue()


def answers(judged):
    """The cells after those that were given; the figures are empty where there is no verdict."""
    warnings = "; ".join(f"{remark.kind}: {remark.said}" for remark in judged.remarks())
    if judged.report is None:
        return [judged.kind, "", "", "", judged.why, warnings]
    report = judged.report
    rate = "none" if judged.rate is None else decimal(judged.rate, 2)
    return [judged.kind, report.concentration, report.level, rate, "", warnings]


def write_results(path, sheet, found, is_forced):
    """A table that has appeared since `check_new` is overwritten no more than one that was there."""

    def check():
        if os.path.lexists(path) and not is_forced:
            raise Failure(f"{path}: has appeared meanwhile, so nothing is written; --force overwrites it")

    try:
        write_beside(path, sheet.bom + results_text(sheet, found).encode(), check)
    except OSError as error:
        raise Failure(f"{path}: not written: {error.strerror or error}")
