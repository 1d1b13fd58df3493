"""Document 000's tables A-1 to A-3 as texts of R-3's form, which R-8 marks.

    convert_tables.py SOURCE FOLDER

SOURCE is document 000's text, which is not kept here. One file a chain is written into FOLDER: actinon.table, thoron.table and
radon.table, with the rates in hundredths and the entries as they are printed. For each, what the reference's `marks` writes of
it with the example's book is printed in one line, and how many of each member's entries are right, close and wrong.
"""

import pathlib
import sys

import reference as ref
from compare_tables import example_book
from plain_help import answer_help
from source_tables import HEADS, read_table

WORDS = ("right", "close", "wrong")


def table_of(rows):
    """The lines; each printed entry must be one of R-3's form."""
    text = "".join(" ".join((str(rate), *entries)) + "\n" for rate, entries in rows).encode("ascii")
    ref.read_lines(text, len(rows[0][1]))
    return text


def counts(found):
    return ", ".join(f"{word} {sum(one.word == word for one in found)}" for word in WORDS)


def report(chain, names, text):
    """The marks against the example's book, altogether and by member."""
    book = example_book(chain)
    ref.check_marks(text, book)
    found, said = ref.marks_call(text, book), ref.marks_answer(text, book)
    print(f"{chain}: " + ", ".join(said.splitlines()))
    for member, name in enumerate(names):
        print(f"  {name}: {counts([one for one in found if one.member == member])}")


def main():
    answer_help(__doc__)
    if len(sys.argv) != 3:
        sys.exit("usage: convert_tables.py SOURCE FOLDER")
    source = pathlib.Path(sys.argv[1]).read_text(encoding="utf-8")
    for chain in HEADS:
        names, rows = read_table(source, chain)
        text = table_of(rows)
        pathlib.Path(sys.argv[2], f"{chain}.table").write_bytes(text)
        report(chain, names, text)


if __name__ == "__main__":
    main()
