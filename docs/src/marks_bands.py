"""Entries of tables from elsewhere (document 02, R-8) at the ends of their half units, with the answers typed here from the
documents: the text of `marks`.

Member i with x grains has the interval from x to x + 2i, at most G. The half unit of d.dddE-dd is 0.0005 * 10^-dd of G either
way, that of zero 0.0005. Its ends are whole grains at k/32, k/64 and 1/128 of G (k odd): 10^(dd + 3) has that many twos. T'
stands for 2,495,329,851,600: a daughter with T', fed wholly, has the factor 100 G / (100 + v).
"""

from marks_edges import said, text
from packing import pack_book, pack_feed, pack_member
from small_books import G, LONGEST, T1, daughter, falling, line, parent, split


def at(i, x):
    """Member i has x grains at rate 100, and each member before it one grain less than the one before, from G on."""
    return falling(*(G - k for k in range(1, i)), x)


def lines_of(i, *entries):
    """A line of rate 100 for each entry of member i; the members before it are right."""
    return text(*("100" + " 1.000E+00" * i + f" {entry}" for entry in entries))


def marked(good, *words):
    """The text for so many lines, of which each has `good` right entries and, as the last, one with the typed mark."""
    counts = [words.count(word) for word in ("right", "close", "wrong")]
    first = f"{words.index('wrong') + 1} {good}" if "wrong" in words else "none"
    return said(counts[0] + good * len(words), *counts[1:], first)


# ---- Ends that are whole grains ------------------------------------------------------------------


def thirty_seconds():
    """U is the upper end of one entry and the lower end of the next: 9/32 of G lies between 2.812 and 2.813 tenths."""
    for k, below, above, numbers in ((9, "2.812E-01", "2.813E-01", (1, 2, 15)), (31, "9.687E-01", "9.688E-01", (3,))):
        U = k << 35
        for i in numbers:
            for x, *words in ((U - 2 * i - 1, "right", "wrong"), (U - 2 * i, "right", "close"),
                              (U - 2 * i + 1, "close", "close"), (U, "close", "right"), (U + 1, "wrong", "right")):
                yield lines_of(i, below, above), at(i, x), marked(i, *words)


def smaller_parts():
    """3/64 at member 3, whose interval is six grains long, and 1/128 at member 4: eight."""
    U = 3 * G // 64
    head = "100 1.000E+00 2.500E-01 1.250E-01"
    for x, *words in ((U - 7, "right", "wrong"), (U - 6, "right", "close"), (U, "close", "right"), (U + 1, "wrong", "right")):
        yield text(f"{head} 4.687E-02", f"{head} 4.688E-02"), falling(G // 4, G // 8, x), marked(3, *words)
    U = G // 128
    head = "100 1.000E+00 2.500E-01 6.250E-02 3.125E-02"
    for x, *words in ((U - 9, "right", "wrong"), (U - 8, "right", "close"), (U, "close", "right"), (U + 1, "wrong", "right")):
        yield text(f"{head} 7.812E-03", f"{head} 7.813E-03"), falling(G // 4, G // 16, G // 32, x), marked(4, *words)


def halved():
    """T' in a line halves at rate 100, so that member 6 has 1/64 and member 7 has 1/128. One daughter has these at 6,300 and
    12,700. Shares of the parent are exact 32nds."""
    members = [pack_member(1)] + [pack_member(T1, first=k) for k in range(1, 8)]
    book = pack_book(members, [pack_feed(100_000, k) for k in range(7)])
    head = "100 1.000E+00 5.000E-01 2.500E-01 1.250E-01 6.250E-02 3.125E-02"
    yield text(f"{head} 1.563E-02 7.813E-03"), book, said(8, 0, 0)
    yield text(f"{head} 1.562E-02 7.812E-03"), book, said(6, 2, 0)
    yield text(f"{head} 1.562E-02 7.811E-03"), book, said(6, 1, 1, "1 7")
    yield text(f"{head} 1.564E-02 7.813E-03"), book, said(7, 0, 1, "1 6")
    yield text("6300 1.000E+00 1.562E-02"), daughter(T=T1), said(1, 1, 0)
    yield text("6300 1.000E+00 1.563E-02"), daughter(T=T1), said(2, 0, 0)
    yield text("6301 1.000E+00 1.563E-02", "6299 1.000E+00 1.562E-02"), daughter(T=T1), said(2, 0, 2, "1 1")
    yield text("12700 1.000E+00 7.812E-03", "12700 1.000E+00 7.813E-03"), daughter(T=T1), said(3, 1, 0)
    shares = split(15_625, 21_875, 28_125, 34_375)
    yield text("0 1.000E+00 1.563E-01 2.188E-01 2.813E-01 3.438E-01"), shares, said(5, 0, 0)
    yield text("0 1.000E+00 1.562E-01 2.187E-01 2.812E-01 3.437E-01"), shares, said(1, 4, 0)
    yield text("0 1.000E+00 1.561E-01 2.189E-01 2.813E-01 3.437E-01"), shares, said(2, 1, 2, "1 1")


# ---- Ends within a grain -------------------------------------------------------------------------


def within_a_grain():
    """The half unit of 5.000E-01 is from 549,700,838,306.6112 to 549,810,789,469.3888; that of 1.000E+00 begins at
    1,098,961,871,962.112, which is 0.9995 of G, and that of 1.000E-01 at 109,896,187,196.2112; that of 9.999E-02 ends at
    109,945,665,219.46112."""
    ends = [(1, "5.000E-01", 549_700_838_304, "wrong"), (1, "5.000E-01", 549_700_838_305, "close"),
            (1, "5.000E-01", 549_700_838_306, "close"), (1, "5.000E-01", 549_700_838_307, "right"),
            (1, "5.000E-01", 549_810_789_467, "right"), (1, "5.000E-01", 549_810_789_468, "close"),
            (1, "5.000E-01", 549_810_789_469, "close"), (1, "5.000E-01", 549_810_789_470, "wrong"),
            (2, "5.000E-01", 549_700_838_302, "wrong"), (2, "5.000E-01", 549_700_838_303, "close"),
            (2, "5.000E-01", 549_810_789_465, "right"), (2, "5.000E-01", 549_810_789_466, "close"),
            (1, "1.000E+00", 1_098_961_871_960, "wrong"), (1, "1.000E+00", 1_098_961_871_961, "close"),
            (1, "1.000E+00", 1_098_961_871_962, "close"), (1, "1.000E+00", 1_098_961_871_963, "right"),
            (15, "1.000E+00", 1_098_961_871_932, "wrong"), (15, "1.000E+00", 1_098_961_871_933, "close"),
            (1, "1.000E-01", 109_896_187_194, "wrong"), (1, "1.000E-01", 109_896_187_195, "close"),
            (1, "9.999E-02", 109_945_665_217, "right"), (1, "9.999E-02", 109_945_665_220, "wrong")]
    for i, entry, x, word in ends:
        yield lines_of(i, entry), at(i, x), marked(i, word)


def zero():
    """The half unit of zero ends at 549,755,813.888 grains, which is also 5.000E-04."""
    for x, word in ((549_755_811, "right"), (549_755_812, "close"), (549_755_813, "close"), (549_755_814, "wrong")):
        yield text("100000 1.000E+00 0.000E+00", "100000 1.000E+00 5.000E-04"), falling(x, v=100_000), marked(1, word, "right")
    for x, word in ((549_755_807, "right"), (549_755_808, "close"), (549_755_813, "close"), (549_755_814, "wrong")):
        yield text("100 1.000E+00 5.000E-02 2.500E-03 0.000E+00"), falling(G // 20, G // 400, x), marked(3, word)
    yield text("100000 1.000E+00 0.000E+00"), daughter(T=T1), said(1, 0, 1, "1 1")  # G / 1,001
    yield text("100000 1.000E+00 0.000E+00"), daughter(50_000, T=T1), said(2, 0, 0)  # G / 2,002


def gas_and_cap():
    """The parent's interval is one point, and so is that of a member with G. 1.001E+00 begins at 1.0005 of G."""
    entries = {"1.000E+00": "right", "1.001E+00": "wrong", "9.999E-01": "wrong", "9.995E-01": "wrong", "9.999E+00": "wrong"}
    for entry, word in entries.items():
        yield text(f"18 {entry}"), parent(), marked(0, word)
    for entry, word in list(entries.items())[:3]:
        yield text(f"0 1.000E+00 {entry}"), daughter(), marked(1, word)
        yield text("0" + " 1.000E+00" * 15 + f" {entry}"), line(*[100_000] * 15), marked(15, word)
    # 0.9996 of G at a share of 99,960: 1.000E+00 has its last place in the thousandths, 9.996E-01 in the ten thousandths.
    yield text("0 1.000E+00 1.000E+00"), daughter(99_960), said(2, 0, 0)
    yield text("0 1.000E+00 9.996E-01"), daughter(99_960), said(2, 0, 0)
    yield text("0 1.000E+00 9.997E-01"), daughter(99_960), said(1, 0, 1, "1 1")


# ---- Half units of less than a grain -------------------------------------------------------------


def few_grains():
    """Shares of one: members 1, 2 and 3 have 10,995,116 grains, 109 and 0, up to 10,995,118, 113 and 6. One grain is
    9.094947E-13 of G; a half unit with E-10 is 0.054976 grains, with E-11 0.0054976, with E-12 0.00054976."""
    for entry, word in (("9.912E-11", "wrong"),  # to 108.98909
                        ("9.913E-11", "close"),  # to 109.00009
                        ("9.914E-11", "close"),  # from 109.00009: no whole grain
                        ("1.020E-10", "close"),
                        ("1.028E-10", "close"),  # from 112.97482
                        ("1.029E-10", "wrong"),  # from 113.08478
                        ("1.000E-11", "wrong"), ("0.000E+00", "right")):
        yield text(f"0 1.000E+00 1.000E-05 {entry}"), line(1, 1), marked(2, word)
    for entry, word in (("1.000E-99", "close"), ("9.094E-13", "close"), ("4.000E-12", "close"),
                        ("5.457E-12", "close"),  # from 5.99949
                        ("5.458E-12", "wrong"),  # from 6.00058
                        ("0.000E+00", "right")):
        yield text(f"0 1.000E+00 1.000E-05 9.913E-11 {entry}"), line(1, 1, 1), said(
            *((3, 1, 0) if word == "right" else (2, 2, 0) if word == "close" else (2, 1, 1, "1 3")))
    # F is 10,995,116, and 60,000,000,000,000 ns at rate 100,000 leave 457.25 grains of it: from 457 to 459.
    for entry, word in (("4.155E-10", "wrong"),  # to 456.90206
                        ("4.156E-10", "close"),  # to 457.01201
                        ("4.158E-10", "close"),  # from 457.12196 to 457.23192
                        ("4.170E-10", "close"),
                        ("4.175E-10", "close"),  # from 458.99112
                        ("4.176E-10", "wrong"),  # from 459.10108
                        ("0.000E+00", "right")):
        yield text(f"100000 1.000E+00 {entry}"), daughter(1, T=LONGEST), marked(1, word)


def bands():
    """(the table, the book, the text of `marks`)"""
    for part in (thirty_seconds, smaller_parts, halved, within_a_grain, zero, gas_and_cap, few_grains):
        yield from part()


if __name__ == "__main__":
    print(__doc__)
