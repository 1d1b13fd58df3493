"""The tables A-1 (actinon), A-2 (thoron) and A-3 (radon) of document 000, taken out of its text. The text is not kept here."""

import re
from fractions import Fraction

HEADS = {"actinon": "**Table A-1. Actinon", "thoron": "**Table A-2: Thoron", "radon": "**Table A-3: Radon"}
PRINTED = re.compile(r"\d\.\d{3}E[+-]\d\d\Z")


def hundredths(rate):
    """'0.18' is 18, '0.1' is 10, '900' is 90,000."""
    exact = Fraction(rate) * 100
    assert exact.denominator == 1
    return exact.numerator


def lines_of(text, chain):
    """The table's lines as lists of cells, without the marks of bold print; the next head in bold ends it."""
    start = text.index(HEADS[chain])
    end = text.index("\n**", start)
    return [line.replace("<b>", "").replace("</b>", "").split("\t") for line in text[start:end].splitlines()]


def read_table(text, chain):
    """The members' names, and (rate, printed factors) of each row; the head is printed on both pages of a table."""
    names, rows = [], []
    for first, *cells in lines_of(text, chain):
        if first == "" and cells and cells[0].startswith("Rn-"):
            assert names in ([], cells)
            names = cells
        elif names and len(cells) == len(names) and all(map(PRINTED.match, cells)):
            rows.append((hundredths(first), cells))
    assert [rate for rate, _ in rows] == sorted({rate for rate, _ in rows})
    return names, rows


if __name__ == "__main__":
    print(__doc__)
