"""Tables from elsewhere (document 02, R-8) at the edge of the form, of the counts and of every ground, with the answers typed
here from the documents: the text of `marks`. Where an entry's mark itself is the point, see marks_bands.py.

T' stands for 2,495,329,851,600: a daughter with T', fed wholly, has the factor 100 G / (100 + v), rounded down.
"""

from opening_edges import bad_books
from small_books import T1, branched, daughter, line, parent, split, widest


def text(*lines):
    """A table of these lines."""
    return "".join(f"{line}\n" for line in lines).encode("ascii")


def said(right, close, wrong, first="none"):
    return f"right {right}\nclose {close}\nwrong {wrong}\nfirst {first}\n"


def refused(number):
    return f"refused {number}\n"


ONE = text("0 1.000E+00")
HALF = text("100 1.000E+00 5.000E-01")


# ---- Lines and members ---------------------------------------------------------------------------


def rows():
    """Document 01's rows of the balance. Members 1 and 2 of the branched chain have halves at rate 0, member 3 has G; at 100
    each of them has a quarter."""
    room = daughter(T=T1)
    yield text("0 1.000E+00 1.000E+00", "100 1.000E+00 5.000E-01", "200 1.000E+00 3.333E-01"), room, said(6, 0, 0)
    yield text("200 1.000E+00 3.333E-01", "100 1.000E+00 3.333E-01"), room, said(3, 0, 1, "2 1")
    yield text("100 1.000E+00 3.333E-01", "200 1.000E+00 3.333E-01"), room, said(3, 0, 1, "1 1")
    yield text("0 1.000E+00 3.333E-01"), daughter(33_333), said(2, 0, 0)
    whole, quarter = "0 1.000E+00 5.000E-01 5.000E-01 1.000E+00", "100 1.000E+00 2.500E-01 2.500E-01 2.500E-01"
    yield text(whole, quarter), branched(), said(8, 0, 0)
    yield text(quarter, whole), branched(), said(8, 0, 0)
    yield text("100" + whole[1:], "0" + quarter[3:]), branched(), said(2, 0, 6, "1 1")


def first_wrong():
    """The first in reading order: line by line, and in each the members in turn."""
    good, room = "100 1.000E+00 5.000E-01", daughter(T=T1)
    yield text("100 5.000E-01 1.000E+00"), room, said(0, 0, 2, "1 0")
    yield text("100 1.000E+00 1.000E+00"), room, said(1, 0, 1, "1 1")
    yield text(good, "100 1.001E+00 5.000E-01", good), room, said(5, 0, 1, "2 0")
    yield text(good, good, "100 1.000E+00 5.001E-01"), room, said(5, 0, 1, "3 1")
    yield text(good, "100 1.000E+00 4.999E-01", "100 9.999E-01 5.000E-01"), room, said(4, 0, 2, "2 1")
    yield text(good, "100 9.999E-01 5.000E-01", "100 1.000E+00 4.999E-01"), room, said(4, 0, 2, "2 0")
    quarters = "100 1.000E+00 2.500E-01 2.500E-01 2.500E-01"
    yield text(quarters, "100 1.000E+00 2.500E-01 2.500E-01 2.501E-01",
               "100 1.000E+00 2.499E-01 2.500E-01 2.500E-01"), branched(), said(10, 0, 2, "2 3")
    yield text(quarters.replace("2.5", "3.5"), quarters), branched(), said(5, 0, 3, "1 1")
    yield text(*["0 1.000E+00"] * 11, "0 9.999E-01", "0 1.000E+00", "0 1.001E+00"), parent(), said(12, 0, 2, "12 0")
    yield text("0" + " 1.000E+00" * 9 + " 9.000E-01" + " 1.000E+00" * 6), line(*[100_000] * 15), said(15, 0, 1, "1 9")
    yield text("0" + " 1.000E+00" * 15 + " 0.000E+00"), line(*[100_000] * 15), said(15, 0, 1, "1 15")


def counts_of_lines():
    """1 to 200 lines. A chain of the gas alone has nothing that depends on the rate."""
    for count in (1, 2, 200):
        yield ONE * count, parent(), said(count, 0, 0)
    yield ONE * 201, parent(), refused(24)
    yield b"", parent(), refused(24)
    yield ONE * 199 + text("0 9.000E-01"), parent(), said(199, 0, 1, "200 0")
    yield ONE * 200 + text("0 9.000E-01"), parent(), refused(24)


def longest():
    """16 members and six digits of the rate, 200 times: 33,400 bytes. At T = 1 ns a member loses 441 grains to the air of
    rate 100,000, so that all are 1.000E+00. With a byte more it has the form no more."""
    book, good = line(*[100_000] * 15), "100000" + " 1.000E+00" * 16
    table = text(*[good] * 199, good[:-9] + "9.999E-01")
    assert len(table) == 33_400
    yield table, book, said(3_199, 0, 1, "200 15")
    yield table + b"\n", book, refused(24)


def members():
    """n entries on every line, one too few and one too many, wherever the line stands."""
    room = daughter(T=T1)
    for n, book in ((1, parent()), (2, daughter()), (3, split(1, 1)), (16, line(*[100_000] * 15))):
        for count in sorted({0, n - 1, n + 1, 2 * n} - {n}):
            yield text("0" + " 1.000E+00" * count), book, refused(24)
    short, good, long = "100 1.000E+00", "100 1.000E+00 5.000E-01", "100 1.000E+00 5.000E-01 5.000E-01"
    for lines in ((short, good), (good, short), (long, good), (good, long), (short, long), (long, short)):
        yield text(*lines), room, refused(24)
    yield text("100 1.000E+00", "5.000E-01"), room, refused(24)  # one line made into two
    yield text("100 1.000E+00 100 1.000E+00"), parent(), refused(24)  # and two into one
    yield text("100 100 1.000E+00"), room, refused(24)
    yield text("1.000E+00 5.000E-01"), room, refused(24)
    yield text("5.000E-01 100 1.000E+00"), room, refused(24)


# ---- Rates ---------------------------------------------------------------------------------------


def rates():
    """0 to 100,000 in whole hundredths without leading zeros; a rate out of range is 24, never 3. 100,010 and others would be
    within it in fewer bits or digits."""
    for rate in ("0", "1", "10", "9999", "65536", "99999", "100000"):
        yield text(f"{rate} 1.000E+00"), parent(), said(1, 0, 0)
    for rate in (100_001, 100_010, 165_536, 1_000_000, 1 << 32, 1 << 64, 99999999999999999999, 10**39 - 1, "9" * 2_000):
        yield text(f"{rate} 1.000E+00"), parent(), refused(24)
    for rate in ((1 << 32) + 100, (1 << 64) + 100, (1 << 128) + 100):
        yield text(f"{rate} 1.000E+00 5.000E-01"), daughter(T=T1), refused(24)
    for rate in ("00", "01", "0100", "0100000", "00000000100", "0" * 1_000 + "5"):
        yield text(f"{rate} 1.000E+00"), parent(), refused(24)
    for rate in ("", "+0", "-0", "+100", "1,000", "0.18", "1e2", "0x64", "1_000", "1 000", "1:", "1/"):
        yield text(f"{rate} 1.000E+00"), parent(), refused(24)
    good = "100 1.000E+00"
    for bad in ("100001 1.000E+00", "0100 1.000E+00", "18446744073709551716 1.000E+00"):
        yield text(bad, good), parent(), refused(24)
        yield text(good, bad), parent(), refused(24)
        yield text(good, bad, good), parent(), refused(24)
    # The rates of a table may fall, and come again. T' at 100,000 has G / 1,001, so 1,098,413,214 grains.
    yield text("100000 1.000E+00 9.990E-04", "0 1.000E+00 1.000E+00", "100000 1.000E+00 9.991E-04"), daughter(T=T1), (
        said(5, 0, 1, "3 1"))


# ---- The form of an entry ------------------------------------------------------------------------


def entries():
    """Every text that is nearly an entry's. The gas alone has G, and a table of it nothing else."""
    for entry in ("1.000E-00", "0.000E-00", "1.000E+05", "1.000E+01", "0.000E+01", "0.500E+00", "0.001E+00", "0.968E-01",
                  "0.000E-05", "0.000E-01", "0.000E-99", "1.000e+00", "1,000E+00", "1.000E 00", "1.000E000", "1.0000E+0",
                  "1.000E+0", "1.000E+000", "1.000E-1", "1.000E-001", "10.00E-01", "1.00E+00", "1E+00", "1.000", "+1.000E+00",
                  "-1.00E+00", "-0.00E+00", ".1000E+01", "1.000E+0O", ":.000E+00", "/.000E+00", "1./00E+00", "1.0:0E+00",
                  "1.00/E+00", "1.000E-:0", "1.000E-0:", "1.000E-/1", "1.000E-1/", "1.000E,00", "NaN", "0", "0.9968"):
        yield text(f"0 {entry}"), parent(), refused(24)
    # In the last place and in the first, beside good lines.
    for entry in ("1.000E-00", "0.500E+00", "0.000E-05", "5.000E+05"):
        yield HALF * 2 + text(f"100 1.000E+00 {entry}"), daughter(T=T1), refused(24)
        yield text(f"100 {entry} 5.000E-01") + HALF, daughter(T=T1), refused(24)
    # These have the form, and are wrong of the gas.
    for entry in ("1.001E+00", "9.999E+00", "2.000E+00", "9.999E-01", "1.000E-01", "1.000E-10", "9.999E-99", "1.000E-09",
                  "5.678E-90", "0.000E+00"):
        yield text(f"0 {entry}"), parent(), said(0, 0, 1, "1 0")


def bytes_of():
    """Every byte counts: line ends, blanks, zero bytes, and bytes over 127."""
    good = b"100 1.000E+00 5.000E-01"
    for table in (good, good + b"\r\n", good + b"\r", good + b" \n", b" " + good + b"\n", good + b"\t\n", good + b"\n\n",
                  b"\n" + good + b"\n", b"\n", b"\r\n", b" ", b"100\n", b"100 \n", b"100  \n", b"100",
                  good.replace(b" ", b"  ", 1) + b"\n", good.replace(b" 5", b"  5") + b"\n",
                  good.replace(b" 5", b"\t5") + b"\n", good.replace(b" 5", b",5") + b"\n", good.replace(b" ", b"") + b"\n",
                  good + b"\0", good + b"\n\0", b"\0" + good + b"\n", good.replace(b" 5", b"\0005") + b"\n",
                  b"\xef\xbb\xbf" + good + b"\n", good + b"\n\x1a", good + b"\n ", good.replace(b" 5", b"\xa05") + b"\n",
                  good.replace(b"-", b"\xe2\x88\x92") + b"\n", b"\xb1" + good[1:] + b"\n", good[:-1] + b"\xb1\n", b"\xff",
                  good.replace(b"E", b"\xc5") + b"\n", good + b"\n100"):
        yield table, daughter(T=T1), refused(24)
    yield good + b"\n", daughter(T=T1), said(2, 0, 0)
    two = good + b"\n" + good
    for table in (two, two + b"\r\n", two + b"\n\n", good + b"\r\n" + good + b"\n", good + b"\n\n" + good + b"\n",
                  good + b"\r" + good + b"\n", good + good + b"\n", good + b" " + good + b"\n", two[:-1] + b"\n"):
        yield table, daughter(T=T1), refused(24)
    yield two + b"\n", daughter(T=T1), said(4, 0, 0)


# ---- Grounds -------------------------------------------------------------------------------------


def grounds():
    """Each ground of the book comes before 24, whatever the text; 24 is a good book's alone."""
    for number, book in bad_books():
        yield b"0 1.000E+00", book, refused(number)
    for number, book in dict(bad_books()).items():
        yield ONE, book, refused(number)
        yield text("100001 1.000E+00"), book, refused(number)
    yield ONE * 201, split(50_000, 50_001), refused(18)
    for book in (parent(), daughter(), widest()):
        yield b"", book, refused(24)
    # Two of them: the first in checking order.
    yield HALF, daughter(0, from_=1), refused(14)
    yield HALF, daughter(100_001, W=0), refused(12)
    yield HALF, daughter(T=0, from_=1), refused(13)
    yield text("0100 1.000E+00 5.000E-01"), daughter(100_001, W=0), refused(12)
    # A text that has the form for the count that the book's first byte claims, and the one that its length has.
    yield text("0 1.000E+00 1.000E+00"), b"\2" + parent()[1:], refused(11)
    yield ONE, b"\2" + parent()[1:], refused(11)


def edges():
    """(the table, the book, the text of `marks`)"""
    for part in (rows, first_wrong, counts_of_lines, longest, members, rates, entries, bytes_of, grounds):
        yield from part()


if __name__ == "__main__":
    print(__doc__)
