"""Document 000's tables A-1 to A-3 against the tables that R-3 writes for the example books, entry by entry.

    compare_tables.py SOURCE [--list]

SOURCE is document 000's text. For each table and column it prints how many entries are the same nine characters and how many are
not. A-1 and A-2 were made from factors already rounded to four decimals; of their entries that differ it prints how many are the
exact factor to four decimals. Last comes how many agree with the exact factor of the chain that 000 itself worked with (see
OWN_SHARES and OWN_HALF_LIVES). With --list each entry that differs is printed too: the rate in hundredths, as printed, as R-3
writes it, and the exact share.
"""

import pathlib
import sys

import reference as ref
from plain_help import answer_help
from source_tables import HEADS, read_table

EXAMPLES = pathlib.Path(__file__).resolve().parents[2] / "examples"
FOUR_DECIMALS = ("actinon", "thoron")

# What 000 worked with where the examples' books have something else: {(from, into): share}. Check 18 refuses radon's.
OWN_SHARES = {"radon": {(1, 2): 100_000, (4, 6): 100_000}, "actinon": {(3, 4): 99_700}, "thoron": {}}
# 0.36 s for Po-215, 0.0001 of an hour: found by trial, as 000 prints 0.001781 s in table C-1 and in its code. With it the later
# columns agree. Po-215's own column has the error of 000's solver in it besides: up to 1 in 100, more than 1 printed as 1.
OWN_HALF_LIVES = {"actinon": {1: 360_000_000}, "thoron": {}, "radon": {}}


def example_book(chain):
    """The bytes of the example's book: the job's first 48 go."""
    return (EXAMPLES / f"{chain}.job").read_bytes()[48:]


def own_book(chain):
    """The example's book with 000's own shares and half-lives; no check is made of it."""
    book, shares, half_lives = ref.read_book(example_book(chain)), OWN_SHARES[chain], OWN_HALF_LIVES[chain]
    members = [member._replace(T=half_lives.get(i, member.T)) for i, member in enumerate(book.members)]
    feeds_into = [[feed._replace(share=shares.get((feed.from_, i), feed.share)) for feed in feeds]
                  for i, feeds in enumerate(book.feeds_into)]
    return book._replace(members=members, feeds_into=feeds_into)


def written(rates, book_bytes):
    """R-3's entries for each rate."""
    text = ref.table_call(rates, book_bytes, 65_536)
    lines = [line.split() for line in text.splitlines()]
    assert [int(line[0]) for line in lines] == rates
    return [line[1:] for line in lines]


def exact_shares(rates, book):
    """The exact factors for each rate; over 1, which only 000's own shares can give, they are 1 as in 000."""
    return [[min(share, ref.Fraction(1)) for share in ref.exact_factors(rate, book)] for rate in rates]


def agrees(chain, printed, share):
    """Is the printed entry the exact share, in the way that 000 rounded it?"""
    if chain in FOUR_DECIMALS:
        return ref.Fraction(printed) == ref.Fraction(ref.floor(share * 10_000 + ref.Fraction(1, 2)), 10_000)
    return printed == ref.entry(share * ref.G)


def columns(chain, text):
    """The members' names, and for each the (rate, printed, ours, exact share, exact share of 000's own chain) of its entries."""
    names, rows = read_table(text, chain)
    rates, printed = [rate for rate, _ in rows], [line for _, line in rows]
    data = example_book(chain)
    tables = printed, written(rates, data), exact_shares(rates, ref.read_book(data)), exact_shares(rates, own_book(chain))
    return names, [[(rate, *(line[i] for line in lines)) for rate, *lines in zip(rates, *tables)] for i in range(len(names))]


def counts(chain, entries):
    """How many entries agree, how many do not, how many of these are the exact share as 000 rounded it, and how many agree with
    000's own chain."""
    same = sum(printed == ours for _, printed, ours, _, _ in entries)
    rounded = sum(printed != ours and agrees(chain, printed, exact) for _, printed, ours, exact, _ in entries)
    own = sum(agrees(chain, printed, share) for _, printed, _, _, share in entries)
    return same, len(entries) - same, rounded, own


def line_of(name, chain, entries):
    same, differ, rounded, own = counts(chain, entries)
    to_four = f", {rounded} of these the exact share to four decimals" if chain in FOUR_DECIMALS else ""
    return f"  {name}: {same} agree, {differ} do not{to_four}; with 000's own chain {own} of {len(entries)} agree"


def report(chain, names, by_column, listed):
    print(f"{HEADS[chain].strip('*').split()[1].strip('.:')}, {chain}")
    for name, entries in zip(names, by_column):
        print(line_of(name, chain, entries))
        for rate, printed, ours, exact, _ in entries * listed:
            if printed != ours:
                print(f"    rate {rate}: printed {printed}, R-3 {ours}, exact {float(exact):.7E}")
    print(line_of("all", chain, sum(by_column, [])))


def main():
    answer_help(__doc__)
    words = [word for word in sys.argv[1:] if word != "--list"]
    if len(words) != 1:
        sys.exit("usage: compare_tables.py SOURCE [--list]")
    text = pathlib.Path(words[0]).read_text(encoding="utf-8")
    for chain in HEADS:
        report(chain, *columns(chain, text), "--list" in sys.argv)


if __name__ == "__main__":
    main()
