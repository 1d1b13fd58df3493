"""Openings (document 02, R-5) at the edge of every ground, and minutes worked by hand, with the answers typed here from the
documents: the factors at the end, or the number of the refusal.

T' stands for 2,495,329,851,600, for which K is 100 T'. At rate 300 the divisor K + (6,000 + v) * T' is 6,400 T', so in a
minute a member fed wholly by the parent goes from x to (60 x + G) / 64: exact for nine minutes, as G is 2^40. At rate 6,700
it is (60 x + G) / 128, at rate 0 (60 x + G) / 61, at rate 100 (60 x + G) / 62, and at rate 100,000 (60 x + G) / 1,061.
"""

from packing import pack_book, pack_feed, pack_member
from small_books import G, LONGEST, T1, TOP, branched, daughter, fan, parent, split, widest


def line(*half_lives):
    """Each member fed wholly by the one before; the parent has the longest half-life, which changes nothing."""
    members = [pack_member(10**15)] + [pack_member(T, first=k + 1) for k, T in enumerate(half_lives)]
    return pack_book(members, [pack_feed(100_000, k) for k in range(len(half_lives))])


# ---- Minutes worked by hand ----------------------------------------------------------------------


def one_daughter():
    """T', fed wholly. Without rounding a minute k at rate 300 has 1 - (15/16)^k of the steady quarter, so of 2^38."""
    for minutes, grains in ((1, 1 << 34), (2, 31 << 30), (3, 721 << 26), (9, 16**9 - 15**9 << 2), (10, (16**10 - 15**10) // 4)):
        yield [300, minutes], daughter(T=T1), [G, grains]
    yield [0, 1], daughter(T=T1), [G, 18_024_780_783]  # G is 61 times this, and 13
    yield [0, 2], daughter(T=T1), [G, 35_754_073_356]
    yield [100, 1], daughter(T=T1), [G, 17_734_058_512]
    yield [100_000, 1], daughter(T=T1), [G, 1_036_297_481]
    yield [100_000, 2], daughter(T=T1), [G, 1_094_900_543]
    yield [6_700, 1], daughter(T=T1), [G, 1 << 33]
    yield [300, 1], daughter(50_000, T=T1), [G, 1 << 33]
    yield [300, 1], daughter(33_333, T=T1), [G, 5_726_565_795]  # F is 366,500,210,886
    yield [300, 1], daughter(1, T=T1), [G, 171_798]  # F is 10,995,116


def several_members():
    """F is of this minute: the second of a line has something in the first minute already."""
    yield [300, 1], line(T1, T1), [G, 1 << 34, 1 << 28]
    yield [300, 2], line(T1, T1), [G, 31 << 30, 23 << 25]
    yield [300, 1], line(T1, T1, T1), [G, 1 << 34, 1 << 28, 1 << 22]
    yield [300, 1], line(T1, T1, T1, T1, T1, T1, T1), [G, 1 << 34, 1 << 28, 1 << 22, 1 << 16, 1 << 10, 1 << 4, 0]
    yield [300, 1], branched(), [G, 1 << 33, 1 << 33, 1 << 28]
    yield [300, 2], branched(), [G, 31 << 29, 31 << 29, 23 << 25]
    yield [300, 1], fan(64, T1), [G, 10_995_116]  # F is 703,687,441
    yield [300, 2], split(*[6_250] * 15), [G] + [(1 << 36) - 1] * 15  # T is 1, and a 12th of a grain is lost to the air


def half_lives():
    """1 ns: the old factor counts 6,000 in some 2.5 * 10^14. In a minute at rate 0 each member loses 27 grains against the one
    before, since G * 6,000 / (K + 6,000) is 26.4; a minute later one grain, and so for ever: the rest is rounding.
    At rate 100,000 it is 467.1 grains, then 440.6. The longest half-life of a daughter, and of the parent."""
    yield [0, 1], line(1), [G, G - 27]
    for minutes in (2, 3, 60, 1_440):
        yield [0, minutes], line(1), [G, G - 1]
    yield [100_000, 1], line(1), [G, G - 468]
    for minutes in (2, 3, 60, 1_440):
        yield [100_000, minutes], line(1), [G, G - 441]
    yield [0, 1], line(*[1] * 15), [G - 27 * i for i in range(16)]
    yield [0, 2], line(*[1] * 15), [G - i for i in range(16)]
    yield [0, 100, 0, 1], line(*[1] * 15), [G - i for i in range(16)]
    yield [0, 1], line(LONGEST), [G, 761_595_487]
    yield [0, 2], line(LONGEST), [G, 1_522_663_442]
    yield [100_000, 1], line(LONGEST), [G, 43_137_367]
    yield [100_000, 2], line(LONGEST), [G, 45_579_009]
    for T in (1, T1, 10**15):
        for v in (0, 100_000):
            yield [v, 1], pack_book([pack_member(T)], []), [G]
            yield [v, 1_440, v, 1], pack_book([pack_member(T)], []), [G]


def several_periods():
    """Each goes on where the one before stopped, at its own rate."""
    yield [300, 1, 300, 1], daughter(T=T1), [G, 31 << 30]
    yield [300, 1, 300, 2], daughter(T=T1), [G, 721 << 26]
    yield [300, 2, 300, 1], daughter(T=T1), [G, 721 << 26]
    yield [300, 1, 300, 1, 300, 1], daughter(T=T1), [G, 721 << 26]
    yield [300, 1, 6_700, 1], daughter(T=T1), [G, 31 << 29]
    yield [6_700, 1, 300, 1], daughter(T=T1), [G, 47 << 29]
    yield [0, 2, 100_000, 1], daughter(T=T1), [G, 3_058_205_494]  # aired after two minutes shut: the factor falls
    yield [100_000, 1, 0, 1], daughter(T=T1), [G, 19_044_089_780]
    yield [0, 1, 0, 1], daughter(T=T1), [G, 35_754_073_356]
    # At rest in one period, and moved again by the next.
    yield [0, 9, 100_000, 9], line(1), [G, G - 441]
    yield [100_000, 9, 0, 9], line(1), [G, G - 1]
    yield [100_000, 9, 0, 1], line(1), [G, G - 1]
    yield [0, 9, 100_000, 1], line(1), [G, G - 441]


# ---- The list of periods -------------------------------------------------------------------------


def counts():
    """1 to 32 periods; an odd list is none."""
    yield [], parent(), 22
    yield [0], parent(), 22
    yield [0, 1], parent(), [G]
    yield [0, 1, 0], parent(), 22
    yield [0, 1, 0, 1], parent(), [G]
    yield [0, 1] * 31, parent(), [G]
    yield [0, 1] * 31 + [0], parent(), 22
    yield [0, 1] * 32, parent(), [G]
    yield [0, 1] * 32 + [0], parent(), 22
    yield [0, 1] * 33, parent(), 22
    yield [0, 1] * 33 + [0], parent(), 22
    yield [0, 1] * 50, parent(), 22
    yield [300, 1] * 3, daughter(T=T1), [G, 721 << 26]
    yield [0, 1] * 29 + [100_000, 1] * 3, line(1), [G, G - 441]
    yield [0, 1_440] * 32, parent(), [G]
    yield [0, 1_440] * 31 + [0, 1], parent(), [G]
    yield [0, 1_440] * 33, parent(), 22
    yield [], widest(), 22
    yield [0], widest(), 22
    yield [0, 1] * 33, widest(), 22


def lengths():
    """Of a period: 1 to 1,440 minutes, in the first place, between others and in the last."""
    yield [0, 0], parent(), 22
    yield [0, 1], parent(), [G]
    yield [0, 2], parent(), [G]
    yield [0, 1_439], parent(), [G]
    yield [0, 1_440], parent(), [G]
    # 65,537 and 66,976 are 1 and 1,440 in 16 bits; 100,001 and more is no rate here, so 22.
    for over in (1_441, 1_442, 2_880, 65_536, 65_537, 66_976, 100_000, 100_001, 1 << 31, TOP):
        yield [0, over], parent(), 22
    for bad in (0, 1_441, 100_001, TOP):
        yield [0, bad, 0, 1, 0, 1], parent(), 22
        yield [0, 1, 0, bad, 0, 1], parent(), 22
        yield [0, 1, 0, 1, 0, bad], parent(), 22
        yield [0, 1] * 31 + [0, bad], parent(), 22
        yield [0, bad] + [0, 1] * 31, parent(), 22
        yield [300, bad], daughter(T=T1), 22
    yield [100_000, 1_440, 100_000, 1_440], parent(), [G]
    yield [100_000, 0], parent(), 22
    yield [0, 257], line(1), [G, G - 1]  # 1 in 8 bits, which would give G - 27


def rates():
    """3 for each rate, wherever it stands: an unpaired last number is one, minutes are not."""
    yield [100_000, 1], parent(), [G]
    for over in (100_001, 100_002, 131_072, 165_536, 1 << 31, TOP):  # 131,072 is 0 in 16 bits, 165,536 is 34,464
        yield [over, 1], parent(), 3
    yield [(1 << 16) + 34_464, 1], parent(), [G]  # 100,000
    for over in (100_001, TOP):
        yield [over, 1, 0, 1, 0, 1], parent(), 3
        yield [0, 1, over, 1, 0, 1], parent(), 3
        yield [0, 1, 0, 1, over, 1], parent(), 3
        yield [over, 1] + [0, 1] * 31, parent(), 3
        yield [0, 1] * 31 + [over, 1], parent(), 3
        yield [over, 1], widest(), 3
    yield [100_000, 1, 100_000, 1], parent(), [G]
    yield [100_000, 1, 0, 1, 100_000, 1], parent(), [G]
    yield [0, 1] * 31 + [100_000, 1], parent(), [G]
    yield [100_000, 1_440] * 32, parent(), [G]
    # The unpaired last number.
    for length in (0, 1, 2, 31, 32, 33, 49):
        yield [0, 1] * length + [100_000], parent(), 22
        yield [0, 1] * length + [100_001], parent(), 3
        yield [0, 1] * length + [TOP], parent(), 3
    yield [1_440], parent(), 22
    yield [100_001, 1, 0], parent(), 3
    yield [0, 1, 100_001, 1, 0], parent(), 3


def rates_first():
    """3 and 22 at once: 3, whichever stands first, and however many periods there are."""
    for bad in (0, 1_441, 100_001, TOP):
        yield [100_001, bad], parent(), 3
        yield [100_001, 1, 0, bad], parent(), 3
        yield [0, bad, 100_001, 1], parent(), 3
        yield [0, bad, 100_001], parent(), 3
        yield [0, bad, 100_000], parent(), 22
        yield [100_001, bad, 0], parent(), 3
    yield [0, 1] * 32 + [100_001, 1], parent(), 3
    yield [0, 1] * 32 + [100_000, 1], parent(), 22
    yield [100_001, 1] + [0, 1] * 32, parent(), 3
    yield [0, 1] * 16 + [TOP, 1] + [0, 1] * 16, parent(), 3
    yield [0, 1] * 49 + [100_001, 1], parent(), 3
    yield [0, 1] * 49 + [100_000, 1], parent(), 22
    yield [0, 0] * 49 + [100_001, 0], parent(), 3
    yield [TOP] * 100, parent(), 3
    yield [0, TOP] * 50, parent(), 22


# ---- With the book's grounds ---------------------------------------------------------------------


def bad_books():
    """(ground, book): each ground in one way or several."""
    yield 9, b""
    yield 9, parent()[:7]
    yield 10, pack_book([], [])
    yield 10, b"\x11" + parent()[1:]
    yield 10, b"\1\x41" + parent()[2:]
    yield 11, parent()[:8]
    yield 11, parent() + b"\0"
    yield 12, parent(W=0)
    yield 12, daughter(zeros=b"\0\0\0\1")
    yield 13, pack_book([pack_member(0)], [])
    yield 13, pack_book([pack_member(10**15 + 1)], [])
    yield 13, line(0)
    yield 13, line(LONGEST + 1)
    yield 13, parent(w=4_000_000_001)
    yield 14, daughter(0)
    yield 14, daughter(100_001)
    yield 15, pack_book([pack_member(1), pack_member(1, first=1)], [pack_feed(1, 0, 1)])
    yield 16, pack_book([pack_member(1), pack_member(1)], [])
    yield 16, pack_book([pack_member(1, first=1)], [pack_feed(1, 0)])
    yield 17, daughter(from_=1)
    yield 18, split(50_000, 50_001)


def grounds():
    """(numbers, book, room, answer): the book's ground, with room enough and with none; 3 and 22 come before it, 19 after."""
    for number, book in bad_books():
        yield [0, 1], book, 16, number
        yield [300, 2, 100_000, 1_440], book, 2, number
        yield [0, 1], book, 0, number  # with 19
        yield [], book, 4, 22
        yield [0, 1, 0], book, 4, 22
        yield [0, 1] * 33, book, 4, 22
        yield [0, 0], book, 4, 22
        yield [0, 1_441], book, 0, 22  # with 19 too
        yield [100_001, 1], book, 4, 3
        yield [0, 1, 100_001], book, 0, 3  # with 22 and 19 too


# ---- The lent list -------------------------------------------------------------------------------


def rooms():
    """(numbers, book, room, answer): 19 when the list is shorter than n, after all else; what is over stays as it was."""
    for room in (1, 2, 3, 15, 16, 17, 20):
        yield [0, 1], parent(), room, [G]
    yield [0, 1], parent(), 0, 19
    for room in (2, 3, 4, 16, 20):
        yield [300, 2], daughter(T=T1), room, [G, 31 << 30]
    for room in (0, 1):
        yield [300, 2], daughter(T=T1), room, 19
    for room in (16, 17, 20):
        yield [0, 2], line(*[1] * 15), room, [G - i for i in range(16)]
    for room in (0, 1, 8, 14, 15):
        yield [0, 2], line(*[1] * 15), room, 19
    for room in (0, 1, 15):
        yield [0, 1] * 32, widest(), room, 19
        yield [100_001, 1], widest(), room, 3
        yield [0, 1, 100_001], widest(), room, 3
        yield [], widest(), room, 22
        yield [0, 1, 0], widest(), room, 22
        yield [0, 0], widest(), room, 22
        yield [0, 1_441], widest(), room, 22
        yield [0, 1] * 33, widest(), room, 22
    yield [0, 1], split(50_000, 50_001), 2, 18
    yield [0, 1], daughter(from_=1), 1, 17


def edges():
    """(numbers, book, room, answer). Where the room is not the point there is room for the factors and up to three more; a
    refusal gets one place to four."""
    for part in (one_daughter, several_members, half_lives, several_periods, counts, lengths, rates, rates_first):
        for k, (numbers, book, answer) in enumerate(part()):
            enough = len(answer) + k % 4 if isinstance(answer, list) else k % 4 + 1
            yield numbers, book, enough, answer
    yield from grounds()
    yield from rooms()


if __name__ == "__main__":
    print(__doc__)
