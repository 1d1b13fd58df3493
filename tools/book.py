#!/usr/bin/env python3
"""Readable text into the bytes of a job with its chain book (or a book alone, or a second set of coefficients), and back.

    book.py encode [--book | --coefficients SET] TEXT OUT
    book.py decode [--job | --book] [--names TEXT] BYTES [OUT]
    book.py explain [NUMBER]
    book.py --help

A convenience: it does no screening. `--help` prints MANUAL.md, the whole manual of the text form.
"""

import os
import pathlib
import sys

from textform.decode import decode
from textform.encode import all_bytes
from textform.files import Failure, Usage, check_replaceable, is_bytes, read_file, read_source, set_aside, write_file, write_new
from textform.grounds import GROUNDS, explained
from textform.remarks import grounds
from textform.said import said_of, said_of_set
from textform.second_set import read_set, set_bytes
from textform.text import read_text
from textform.words import Mistake, in_line, placed, shown

MANUAL = pathlib.Path(__file__).resolve().parent / "MANUAL.md"
USAGE = __doc__[__doc__.index("    book.py") : __doc__.index("\n\nA convenience")]


# ---- Commands -----------------------------------------------------------------------------------


def tell(line):
    """A line to standard error, if there is one."""
    try:
        if sys.stderr is not None:
            print(line, file=sys.stderr, flush=True)
    except OSError:
        pass


def put(text):
    """A text to standard output."""
    try:
        if sys.stdout is None:
            raise OSError(0, "it is closed")
        sys.stdout.write(text)
        sys.stdout.flush()
    except OSError as error:
        quiet_output()
        raise Failure(f"standard output: {error.strerror or error}")


def quiet_output():
    """Nothing more is written to an output that failed, not even at the end of the program."""
    if sys.stdout is not None:
        os.dup2(os.open(os.devnull, os.O_WRONLY), sys.stdout.fileno())


def encode_file(source, out, book_alone=False):
    """The job or the book of a text. Where there is none, an old one does not stay in its place."""
    check_replaceable(source, out)
    try:
        write_encoded(source, out, book_alone)
    except Failure as failure:
        aside = set_aside(out)
        raise Failure(f"{failure}\n{aside}" if aside else str(failure), failure.status)


def write_encoded(source, out, book_alone):
    job, book = within(source, read_text, read_source(source))
    if book_alone:
        job = None
    data = all_bytes(job, book)
    tell_remarks(source, job, book)
    write(write_file, out, data)
    what = "a job with its book" if job else "a book alone"
    if not job and not book_alone:
        what += " (screen asks for a job: its lines are rate to adult)"
    tell(f"{out}: wrote {what}: members {len(book.members)}, feeds {len(book.feeds)}, bytes {len(data):,}")


def encode_set(name, source, out):
    """The bytes of a set for the chain of a text. Nothing tells such bytes from others, so no file is replaced by them."""
    check_new(out, "set")
    second = within(name, read_set, read_source(name))
    job, book = within(source, read_text, read_source(source))
    data = within(name, set_bytes, second, book)
    for line in said_of_set(job, book, second) if job else ():
        tell(line.whole(name))
    write(write_new, out, data)
    tell(f"{out}: wrote the set of {second.name}: members {len(book.members)}, bytes {len(data):,}")


def within(name, call, *arguments):
    """What the call answers; a mistake is one in this file."""
    try:
        return call(*arguments)
    except Mistake as mistake:
        raise Failure(placed(name, in_line(mistake.line, mistake)))


def check_new(out, what):
    if os.path.lexists(out):
        raise Failure(f"{out}: is there already, so it was left as it was; give the {what} another name")


def write(how, out, data):
    try:
        how(out, data)
    except OSError as error:
        raise Failure(f"{out}: not written: {error.strerror or error}")


def tell_remarks(source, job, book):
    for line in said_of(job, book):
        tell(line.whole(source))
    found = grounds(job, book)
    if found:
        decider = "screen" if job else "the factor call"
        tell(f"{source}: {decider} decides, not this tool; expect 'refused {found[0].ground}'")


def decode_options(words):
    """The form, the text that has the names, the bytes, and the file for the text; each but the bytes may be None."""
    form = names = None
    while words and words[0].startswith("--"):
        if words[0] in ("--job", "--book") and form is None:
            form, words = words[0][2:], words[1:]
        elif words[0] == "--names" and names is None and len(words) > 2:
            names, words = words[1], words[2:]
        else:
            break
    if len(words) not in (1, 2) or words[0].startswith("--"):
        raise Usage
    return form, names, words[0], (words + [None])[1]


def decode_file(words):
    form, names, source, out = decode_options(words)
    if out is not None:
        check_new(out, "text")
    data = read_file(source)
    if data and not is_bytes(data):
        raise Failure(f"{source}: is no job and no book: it has no zero byte, so it may be a text already")
    try:
        text = decode(data, form, None if names is None else read_source(names))
    except Mistake as mistake:
        raise Failure(placed(names if mistake.in_names else source, in_line(mistake.line, mistake)))
    if out is None:
        put(text)
        return
    write(write_new, out, text.encode())
    tell(f"{out}: wrote the text of {source}")


def explain(words):
    known = [str(number) for number in GROUNDS]
    if words and words[0] not in known:
        raise Failure(f"explain {shown(words[0])}: the grounds are 1 to {len(GROUNDS)}")
    put("".join(explained(int(number)) for number in words or known))


def run(words):
    if words in (["--help"], ["-h"], ["help"]):
        put(read_source(MANUAL))
    elif words[:2] == ["encode", "--book"] and len(words) == 4:
        encode_file(words[2], words[3], book_alone=True)
    elif words[:2] == ["encode", "--coefficients"] and len(words) == 5:
        encode_set(*words[2:])
    elif words[:1] == ["encode"] and len(words) == 3 and not words[1].startswith("--"):
        encode_file(words[1], words[2])
    elif words[:1] == ["decode"] and len(words) > 1:
        decode_file(words[1:])
    elif words[:1] == ["explain"] and len(words) < 3:
        explain(words[1:])
    else:
        raise Usage


def main():
    try:
        run(sys.argv[1:])
    except Usage as wrong:
        tell(f"usage:\n{USAGE}")
        sys.exit(wrong.status)
    except Failure as failure:
        tell(failure)
        sys.exit(failure.status)


if __name__ == "__main__":
    main()
