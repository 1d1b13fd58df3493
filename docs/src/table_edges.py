"""Tables (document 02, R-3) at the edge of every ground and of every rounding, with the answers typed here from the documents:
the whole text, or the number of the refusal.
"""

from packing import pack_book, pack_feed, pack_member
from small_books import G, T1, TOP, daughter, falling, line, parent, split

HALF = 1 << 35  # an odd number of these, from 5 to 31, is exactly half way between two entries with E-01


# ---- Entries -------------------------------------------------------------------------------------


def rows():
    """Document 01's rows of the balance, as tables."""
    yield [0, 100, 200], daughter(T=T1), ("0 1.000E+00 1.000E+00\n"
                                          "100 1.000E+00 5.000E-01\n"
                                          "200 1.000E+00 3.333E-01\n")
    yield [0], daughter(33_333), "0 1.000E+00 3.333E-01\n"
    branched = pack_book([pack_member(1)] + [pack_member(T1, first=k) for k in (1, 2, 3)],
                         [pack_feed(50_000, 0), pack_feed(50_000, 0), pack_feed(100_000, 1, 4), pack_feed(100_000, 2)])
    yield [100, 0], branched, ("100 1.000E+00 2.500E-01 2.500E-01 2.500E-01\n"
                               "0 1.000E+00 5.000E-01 5.000E-01 1.000E+00\n")


def near_one():
    """Shares of the parent at rate 0. A share of 99,995 leaves the factor a part of a grain below the half, so it goes down."""
    for share, entry in ((100_000, "1.000E+00"), (99_999, "1.000E+00"), (99_996, "1.000E+00"), (99_995, "9.999E-01"),
                         (99_994, "9.999E-01"), (99_985, "9.998E-01"), (99_970, "9.997E-01"), (99_965, "9.996E-01"),
                         (99_960, "9.996E-01"), (99_955, "9.995E-01"), (99_951, "9.995E-01"), (99_949, "9.995E-01"),
                         (99_945, "9.994E-01"), (99_944, "9.994E-01"), (95_000, "9.500E-01"), (10_000, "1.000E-01"),
                         (9_999, "9.999E-02"), (1, "1.000E-05")):
        yield [0], daughter(share), f"0 1.000E+00 {entry}\n"
    # One grain less each time, and about 0.99995 of G, which is 1,099,456,652,194.6 grains.
    yield [100], falling(G - 1, G - 2, G - 3), "100 1.000E+00 1.000E+00 1.000E+00 1.000E+00\n"
    yield [100], falling(1_099_456_652_196, 1_099_456_652_195, 1_099_456_652_194, 1_099_456_652_193), (
        "100 1.000E+00 1.000E+00 1.000E+00 9.999E-01 9.999E-01\n")
    # 0.9997 of G is 1,099,181,774,287.7 grains; 0.99965 is 1,099,126,798,706.3; 0.99945 is 1,098,906,896,380.7.
    yield [100], falling(1_099_181_774_288, 1_099_181_774_287, 1_099_126_798_707, 1_099_126_798_706, 1_098_906_896_381,
                         1_098_906_896_380), (
        "100 1.000E+00 9.997E-01 9.997E-01 9.997E-01 9.996E-01 9.995E-01 9.994E-01\n")


def halves():
    """Every factor that is exactly half way between two entries: 5/32, 7/32 and so on to 31/32, 1/64, 3/64, 5/64 and 1/128.
    Each stands between the grain above it and the grain below it, but for the first two lines."""
    yield [0], split(15_625, 21_875, 28_125, 34_375), "0 1.000E+00 1.563E-01 2.188E-01 2.813E-01 3.438E-01\n"
    yield [100], falling(*(k * HALF for k in range(31, 3, -2))), (
        "100 1.000E+00 9.688E-01 9.063E-01 8.438E-01 7.813E-01 7.188E-01 6.563E-01 5.938E-01 5.313E-01 4.688E-01 4.063E-01 "
        "3.438E-01 2.813E-01 2.188E-01 1.563E-01\n")
    around = lambda *numbers: falling(*(x + step for x in numbers for step in (1, 0, -1)))
    yield [100], around(31 * HALF, 29 * HALF, 27 * HALF, 25 * HALF, 23 * HALF), (
        "100 1.000E+00 9.688E-01 9.688E-01 9.687E-01 9.063E-01 9.063E-01 9.062E-01 8.438E-01 8.438E-01 8.437E-01 "
        "7.813E-01 7.813E-01 7.812E-01 7.188E-01 7.188E-01 7.187E-01\n")
    yield [100], around(21 * HALF, 19 * HALF, 17 * HALF, 15 * HALF, 13 * HALF), (
        "100 1.000E+00 6.563E-01 6.563E-01 6.562E-01 5.938E-01 5.938E-01 5.937E-01 5.313E-01 5.313E-01 5.312E-01 "
        "4.688E-01 4.688E-01 4.687E-01 4.063E-01 4.063E-01 4.062E-01\n")
    yield [100], around(11 * HALF, 9 * HALF, 7 * HALF, 5 * HALF, G * 5 // 64), (
        "100 1.000E+00 3.438E-01 3.438E-01 3.437E-01 2.813E-01 2.813E-01 2.812E-01 2.188E-01 2.188E-01 2.187E-01 "
        "1.563E-01 1.563E-01 1.562E-01 7.813E-02 7.813E-02 7.812E-02\n")
    yield [100], around(G * 3 // 64, G // 64, G // 128), (
        "100 1.000E+00 4.688E-02 4.688E-02 4.687E-02 1.563E-02 1.563E-02 1.562E-02 7.813E-03 7.813E-03 7.812E-03\n")


def powers_of_ten():
    """The last factor below each change of exponent and the first above it: 0.99995 of a power of ten. One power of ten of G
    after another: 109,951,162,777.6 grains and so on."""
    yield [100], falling(109_945_665_220, 109_945_665_219, 10_994_566_522, 10_994_566_521, 1_099_456_653, 1_099_456_652,
                         109_945_666, 109_945_665, 10_994_567, 10_994_566, 1_099_457, 1_099_456), (
        "100 1.000E+00 1.000E-01 9.999E-02 1.000E-02 9.999E-03 1.000E-03 9.999E-04 1.000E-04 9.999E-05 1.000E-05 9.999E-06 "
        "1.000E-06 9.999E-07\n")
    yield [100], falling(50_000_000_000, 3_000_000_000, 200_000_000, 10_000_000, 1_000_000, 109_946, 109_945, 10_995, 10_994,
                         1_100, 1_099, 110, 109, 11, 10), (
        "100 1.000E+00 4.547E-02 2.728E-03 1.819E-04 9.095E-06 9.095E-07 1.000E-07 9.999E-08 1.000E-08 9.999E-09 1.000E-09 "
        "9.995E-10 1.000E-10 9.913E-11 1.000E-11 9.095E-12\n")
    # 1.0005 of a power of ten: 110,006,138,358.9 grains and so on.
    yield [100], falling(110_006_138_359, 110_006_138_358, 11_000_613_836, 11_000_613_835, 1_100_061_384, 1_100_061_383,
                         110_006_139, 110_006_138, 11_000_614, 11_000_613, 1_100_062, 1_100_061, 110_007, 110_006), (
        "100 1.000E+00 1.001E-01 1.000E-01 1.001E-02 1.000E-02 1.001E-03 1.000E-03 1.001E-04 1.000E-04 1.001E-05 1.000E-05 "
        "1.001E-06 1.000E-06 1.001E-07 1.000E-07\n")


def few_grains():
    """Thin shares, and factors of a few grains: one is 9.094947E-13 of G, and none is zero."""
    yield [0], line(1, 1, 1), "0 1.000E+00 1.000E-05 9.913E-11 0.000E+00\n"
    yield [0], line(1, 1, 1_000, 100_000), "0 1.000E+00 1.000E-05 9.913E-11 9.095E-13 9.095E-13\n"
    thin = falling(G // 25, G // 600, G // 14_000, G // 300_000, 160_000, 6_500, 265, 100, 99, 10, 9, 2, 1, 0, v=100)
    yield [100], thin, ("100 1.000E+00 4.000E-02 1.667E-03 7.143E-05 3.333E-06 1.455E-07 5.912E-09 2.410E-10 9.095E-11 9.004E-11 "
                        "9.095E-12 8.185E-12 1.819E-12 9.095E-13 0.000E+00\n")
    low = falling(G // 25, G // 600, G // 14_000, G // 300_000, 160_000, 6_500, 265, 12, 8, 7, 6, 5, 4, 3, v=100)
    yield [100], low, ("100 1.000E+00 4.000E-02 1.667E-03 7.143E-05 3.333E-06 1.455E-07 5.912E-09 2.410E-10 1.091E-11 7.276E-12 "
                       "6.366E-12 5.457E-12 4.547E-12 3.638E-12 2.728E-12\n")


# ---- Rates and their number ----------------------------------------------------------------------


def rates():
    """Rates of one to six digits, in any order, repeated, and both sides of the limit at every place of the list."""
    yield [0], parent(), "0 1.000E+00\n"
    yield [100_000], parent(), "100000 1.000E+00\n"
    yield [9, 10, 99, 100, 999, 1_000, 9_999, 10_000, 99_999, 100_000], parent(), (
        "9 1.000E+00\n10 1.000E+00\n99 1.000E+00\n100 1.000E+00\n999 1.000E+00\n1000 1.000E+00\n9999 1.000E+00\n"
        "10000 1.000E+00\n99999 1.000E+00\n100000 1.000E+00\n")
    yield [200, 100, 0, 100, 200, 200], daughter(T=T1), (
        "200 1.000E+00 3.333E-01\n100 1.000E+00 5.000E-01\n0 1.000E+00 1.000E+00\n100 1.000E+00 5.000E-01\n"
        "200 1.000E+00 3.333E-01\n200 1.000E+00 3.333E-01\n")
    for over in (100_001, 100_002, 1 << 31, TOP):
        yield [over], parent(), 3
    for over in (100_001, TOP):
        yield [over, 0, 1], parent(), 3
        yield [0, over, 1], parent(), 3
        yield [0, 1, over], parent(), 3
    yield [65_536, 65_535], parent(), "65536 1.000E+00\n65535 1.000E+00\n"
    yield [(1 << 16) + 34_465], parent(), 3  # 100,001, which is 34,465 in 16 bits
    yield [0] * 199 + [100_001], parent(), 3
    yield [0] * 100 + [100_001] + [0] * 99, parent(), 3


def counts():
    """Of the rates: 1 to 200."""
    yield [], parent(), 20
    yield [7], parent(), "7 1.000E+00\n"
    yield [7, 7], parent(), "7 1.000E+00\n7 1.000E+00\n"
    yield [0] * 199, parent(), "0 1.000E+00\n" * 199
    yield [0] * 200, parent(), "0 1.000E+00\n" * 200
    yield [0] * 201, parent(), 20
    yield [0] * 255, parent(), 20
    yield [0] * 256, parent(), 20
    yield [0] * 257, parent(), 20
    yield [0] * 300, parent(), 20
    yield [], daughter(), 20
    yield [100_000] * 201, daughter(), 20


def grounds():
    """Grounds 9 to 18, and two or three at once: the first in checking order, 3 of the rates, the book's, then 20."""
    bad = {
        9: [b"", parent()[:7]],
        10: [pack_book([], []), parent()[:8][1:] + b"\0", b"\x11" + parent()[1:], b"\1\x41" + parent()[2:]],
        11: [parent()[:8], parent() + b"\0", daughter()[:-1]],
        12: [parent(W=0), daughter(W=0), daughter(zeros=b"\0\0\0\1")],
        13: [pack_book([pack_member(0)], []), daughter(T=60_000_000_000_001), parent(w=4_000_000_001)],
        14: [daughter(0), daughter(100_001), daughter(from_=2)],
        15: [pack_book([pack_member(1), pack_member(1, first=1)], [pack_feed(1, 0, 1)])],
        16: [pack_book([pack_member(1), pack_member(1)], []), pack_book([pack_member(1, first=1)], [pack_feed(1, 0)])],
        17: [daughter(from_=1)],
        18: [split(50_000, 50_001), split(1, 100_000)],
    }
    for number, books in bad.items():
        for book in books:
            yield [0, 100], book, number
        yield [], books[0], number  # with 20
        yield [100_001], books[0], 3
        yield [100, TOP, 0], books[-1], 3
    yield [0] * 201, bad[9][0], 9
    yield [0] * 201, bad[12][0], 12
    yield [0] * 201, bad[18][0], 18
    yield [0] * 300, bad[18][1], 18
    # 3 with 20: every rate is looked at, however many there are.
    yield [0] * 200 + [100_001], parent(), 3
    yield [100_001] + [0] * 200, parent(), 3
    yield [0] * 100 + [TOP] + [0] * 100, daughter(), 3
    yield [0] * 299 + [100_001], parent(), 3
    yield [0] * 255 + [100_001], b"", 3
    yield [100_001] * 300, bad[18][0], 3


# ---- The lent buffer -----------------------------------------------------------------------------


def rooms():
    """(rates, book, room, answer). The text of the first has 12 bytes, of the second 22 + 24 + 24 = 70."""
    text = "0 1.000E+00 1.000E+00\n100 1.000E+00 5.000E-01\n200 1.000E+00 3.333E-01\n"
    for room in (12, 13, 14, 500, 65_536):
        yield [0], parent(), room, "0 1.000E+00\n"
    for room in (0, 1, 2, 10, 11):
        yield [0], parent(), room, 21
    for room in (70, 71, 72, 140, 4_096):
        yield [0, 100, 200], daughter(T=T1), room, text
    for room in (0, 1, 22, 45, 46, 47, 68, 69):
        yield [0, 100, 200], daughter(T=T1), room, 21
    # A rate's own digits count: 17 bytes for 100,000 against 12 for 0.
    yield [100_000], parent(), 17, "100000 1.000E+00\n"
    yield [100_000], parent(), 16, 21
    yield [10, 9], parent(), 25, "10 1.000E+00\n9 1.000E+00\n"
    yield [10, 9], parent(), 24, 21
    # 200 lines of 12 bytes, and 200 of 17.
    yield [0] * 200, parent(), 2_400, "0 1.000E+00\n" * 200
    yield [0] * 200, parent(), 2_399, 21
    yield [100_000] * 200, parent(), 3_400, "100000 1.000E+00\n" * 200
    yield [100_000] * 200, parent(), 3_399, 21
    # A line of 16 members takes 1 + 16 * 10 + 1 bytes.
    yield [5], line(*[100_000] * 15), 162, "5" + " 1.000E+00" * 16 + "\n"
    yield [5], line(*[100_000] * 15), 161, 21
    # With other grounds: 21 is the last.
    yield [], parent(), 0, 20
    yield [], parent(), 11, 20
    yield [0] * 201, parent(), 0, 20
    yield [0] * 201, parent(), 2_411, 20
    yield [100_001], parent(), 0, 3
    yield [0], b"", 0, 9
    yield [], b"", 0, 9
    yield [0], daughter(from_=1), 0, 17
    yield [0], split(50_000, 50_001), 0, 18
    yield [], split(50_000, 50_001), 0, 18
    yield [0] * 201, split(50_000, 50_001), 5, 18
    yield [100_001], split(50_000, 50_001), 0, 3
    yield [0] * 200 + [100_001], split(50_000, 50_001), 5, 3


def edges():
    """(rates, book, room, answer). Where the room is not the point, a text gets up to three bytes more than it takes, and a
    refusal 30 bytes to 120."""
    for part in (rows, near_one, halves, powers_of_ten, few_grains, rates, counts, grounds):
        for k, (list_, book, answer) in enumerate(part()):
            enough = len(answer) + k % 4 if isinstance(answer, str) else 30 * (k % 4 + 1)
            yield list_, book, enough, answer
    yield from rooms()


if __name__ == "__main__":
    print(__doc__)
