"""The Po-218 column of document 000's radon table A-3, taken out of its text and compared with the reference.

    po218.py extract SOURCE OUT     two columns: rate in hundredths, the factor as printed
    po218.py compare TABLE          every printed factor against the reference
"""

import pathlib
import sys

import reference as ref
from packing import pack_book, pack_feed, pack_member
from plain_help import answer_help
from source_tables import read_table


def column(text):
    """(rate, printed factor) of each row."""
    names, rows = read_table(text, "radon")
    return [(rate, factors[names.index("Po-218")]) for rate, factors in rows]


def compare(rows):
    """The rows that the reference does not give to the printed digits."""
    book = pack_book([pack_member(1), pack_member(186_000_000_000, first=1)], [pack_feed(100_000, 0)])
    differing = []
    for rate, printed in rows:
        factor = ref.factor_call(rate, book, 2)[1]
        ours = ref.entry(factor)
        if ours != printed:
            differing.append((rate, printed, ours, factor / ref.G))
    return differing


def main():
    answer_help(__doc__)
    words = sys.argv[1:]
    if len(words) == 3 and words[0] == "extract":
        rows = column(pathlib.Path(words[1]).read_text(encoding="utf-8"))
        pathlib.Path(words[2]).write_text("".join(f"{rate} {printed}\n" for rate, printed in rows), encoding="ascii")
        print(f"{len(rows)} rows")
    elif len(words) == 2 and words[0] == "compare":
        lines = pathlib.Path(words[1]).read_text(encoding="ascii").splitlines()
        rows = [(int(line.split()[0]), line.split()[1]) for line in lines]
        differing = compare(rows)
        for rate, printed, ours, exact in differing:
            print(f"rate {rate}: printed {printed}, reference {ours} ({exact:.8f})")
        print(f"{len(rows)} rows, {len(rows) - len(differing)} agree to the printed digits")
    else:
        sys.exit(__doc__)


if __name__ == "__main__":
    main()
