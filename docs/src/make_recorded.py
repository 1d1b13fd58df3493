"""Writes the two files of the recorded cases: what the program `recorded` reads, and what it must write.

    make_recorded.py STDIN STDOUT

The cases stand by their kinds, and the same files come out every time. Printed is how many there are of each kind, and
of every sort that its recorder counts.
"""

import sys

import make_cases
import make_edges
import make_lowest
import make_marks
import make_openings
import make_partner
import make_rates
import make_tables
from plain_help import answer_help
from recorded import record
from recorder import make

RECORDERS = [module.RECORDER for module in (make_cases, make_lowest, make_edges, make_tables, make_openings, make_partner,
                                            make_marks, make_rates)]
MOST_BYTES, MOST_TEXT = 1_130_000, 600_000  # the files are kept in the repository


def made_by(recorder):
    """The records and the answers of one kind."""
    made = make(recorder)
    records = b"".join(record(recorder.kind, body) for body in made.bodies)
    print(f"kind {recorder.kind.number}: {len(made.bodies)} cases of {len(records)} bytes")
    for name, count in made.counts.items():
        print(f"{count:5d} {name}")
    return records, "".join(made.texts)


def main():
    answer_help(__doc__)
    if len(sys.argv) != 3:
        sys.exit("usage: make_recorded.py STDIN STDOUT")
    made = [made_by(recorder) for recorder in RECORDERS]
    records, texts = b"".join(records for records, _ in made), "".join(text for _, text in made)
    assert len(records) <= MOST_BYTES and len(texts) <= MOST_TEXT, (len(records), len(texts))
    with open(sys.argv[1], "wb") as out:
        out.write(records)
    with open(sys.argv[2], "w", encoding="ascii", newline="\n") as out:
        out.write(texts)


if __name__ == "__main__":
    main()
