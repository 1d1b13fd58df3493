"""Factor calls at both edges of every ground, with the answers typed here from document 01, not computed: the last accepted
value and the first refused one, and cases that meet two grounds at once.
"""

from packing import pack_book, pack_feed, pack_member
from small_books import G, fan, line, split

WHOLE = [G, G]  # the factors of a daughter that is fed wholly, without ventilation
NONE = [0] * 5  # a member's numbers
TWO = [(1, NONE, 0), (1, NONE, 1), (1, NONE, 1)]  # two daughters with one first feed


# ---- Books ---------------------------------------------------------------------------------------


def book(members, feeds, w=1000, zeros=bytes(4)):
    """members: (half-life, five numbers, first feed[, three bytes]); feeds: (share, from, next[, two bytes])."""
    packed = [pack_member(half_life, *five, *rest) for half_life, five, *rest in members]
    return pack_book(packed, [pack_feed(*feed) for feed in feeds], W=w, zeros=zeros)


def parent(half_life=1, five=NONE, w=1000, zeros=bytes(4), spare=bytes(3)):
    return book([(half_life, five, 0, spare)], [], w, zeros)


def pair(share=100000, half_life=1, five=NONE, first=1, origin=0, following=0, spare=bytes(3), feed_spare=bytes(2)):
    """The parent and one daughter, with one feed."""
    return book([(1, NONE, 0), (half_life, five, first, spare)], [(share, origin, following, feed_spare)])


# ---- Calls: what is at the edge, the rate, the length of the lent list, the book, the answer ------


def rates_and_headers():
    """The rate; the book's first bytes, its counts, its length, its divisor and its zero bytes."""
    yield 'rate 100,000', 100000, 1, parent(), [G]
    yield 'rate 100,001', 100001, 1, parent(), 3
    yield 'no bytes', 0, 1, b'', 9
    yield '7 bytes', 0, 1, parent()[:7], 9
    yield '8 bytes pass ground 9', 0, 1, parent()[:8], 11
    yield 'n 0', 0, 1, book([], []), 10
    yield 'n 1', 0, 1, parent(), [G]
    yield 'n 16', 0, 16, line(*[100_000] * 15), [G] * 16
    yield 'n 17', 0, 17, line(*[100_000] * 16), 10
    yield 'm 64', 0, 2, fan(64), [G, 64 * G // 100000]
    yield 'm 65', 0, 2, fan(65), 10
    yield 'one byte less', 0, 2, pair()[:-1], 11
    yield 'one byte more', 0, 2, pair() + b'\0', 11
    yield 'W 0', 0, 1, parent(w=0), 12
    yield 'W 1', 0, 1, parent(w=1), [G]
    yield 'first zero byte of the header', 0, 1, parent(zeros=b'\1\0\0\0'), 12
    yield 'last zero byte of the header', 0, 1, parent(zeros=b'\0\0\0\1'), 12
    yield 'first zero byte of a member', 0, 2, pair(spare=b'\1\0\0'), 12
    yield 'last zero byte of a member', 0, 2, pair(spare=b'\0\0\1'), 12
    yield 'first zero byte of a feed', 0, 2, pair(feed_spare=b'\1\0'), 12
    yield 'last zero byte of a feed', 0, 2, pair(feed_spare=b'\0\1'), 12


def half_lives_and_numbers():
    """Half-lives and the five numbers."""
    yield 'parent T 0', 0, 1, parent(0), 13
    yield 'parent T 10^15', 0, 1, parent(10**15), [G]
    yield 'parent T 10^15 + 1', 0, 1, parent(10**15 + 1), 13
    yield 'daughter T 0', 0, 2, pair(half_life=0), 13
    yield 'daughter T 1', 0, 2, pair(half_life=1), WHOLE
    yield 'daughter T 6 10^13', 0, 2, pair(half_life=60000000000000), WHOLE
    yield 'daughter T 6 10^13 + 1', 0, 2, pair(half_life=60000000000001), 13
    for place in range(5):
        five = [4000000000] * 5
        yield 'number %d at 4 10^9' % place, 0, 2, pair(five=five), WHOLE
        five[place] += 1
        yield 'number %d at 4 10^9 + 1' % place, 0, 2, pair(five=five), 13


def feed_fields():
    """Shares, and where a feed comes from and goes on."""
    yield 'share 0', 0, 2, pair(share=0), 14
    yield 'share 1', 0, 2, pair(share=1), [G, G // 100000]
    yield 'share 100,000', 0, 2, pair(share=100000), WHOLE
    yield 'share 100,001', 0, 2, pair(share=100001), 14
    yield 'from n - 1 passes ground 14', 0, 2, pair(origin=1), 17
    yield 'from n', 0, 2, pair(origin=2), 14
    yield 'first m', 0, 2, pair(first=1), WHOLE
    yield 'first m + 1', 0, 2, pair(first=2), 14
    yield 'next m passes ground 14', 0, 2, pair(following=1), 15
    yield 'next m + 1', 0, 2, pair(following=2), 14


def walks():
    """Feeds that come up twice or never, or in the wrong place, and the shares out of a member."""
    yield 'a feed twice', 0, 3, book(TWO, [(100000, 0, 0)]), 15
    yield 'a feed twice, in two chains', 0, 3, book([(1, NONE, 0), (1, NONE, 1), (1, NONE, 2)], [(1, 0, 2), (1, 0, 0)]), 15
    yield 'a feed never', 0, 2, book([(1, NONE, 0), (1, NONE, 1)], [(1, 0, 0), (1, 0, 0)]), 15
    yield 'each feed once', 0, 2, book([(1, NONE, 0), (1, NONE, 2)], [(40000, 0, 0), (60000, 0, 1)]), WHOLE
    yield 'a ring of feeds', 0, 2, book([(1, NONE, 0), (1, NONE, 1)], [(1, 0, 2), (1, 0, 1)]), 15
    yield 'the parent has a feed', 0, 1, book([(1, NONE, 1)], [(1, 0, 0)]), 16
    yield 'a daughter has none', 0, 2, book([(1, NONE, 0), (1, NONE, 0)], []), 16
    yield 'from the member before', 0, 3, line(100_000, 100_000), [G] * 3
    yield 'from the member itself', 0, 2, pair(origin=1), 17
    yield 'from a later member', 0, 3, book([(1, NONE, 0), (1, NONE, 1), (1, NONE, 2)], [(1, 2, 0), (1, 0, 0)]), 17
    yield 'shares out 100,000', 0, 3, split(50000, 50000), [G, G // 2, G // 2]
    yield 'shares out 100,001', 0, 3, split(50000, 50001), 18
    yield 'shares into one member may pass 100,000', 0, 4, book(
        [(1, NONE, 0), (1, NONE, 1), (1, NONE, 2), (1, NONE, 3)],
        [(50000, 0, 0), (50000, 0, 0), (100000, 1, 4), (100000, 2, 0)]), [G, G // 2, G // 2, G]


def rooms():
    """The length of the lent list."""
    yield 'room n', 0, 2, pair(), WHOLE
    yield 'room n + 3', 0, 5, pair(), WHOLE
    yield 'room n - 1', 0, 1, pair(), 19
    yield 'no room', 0, 0, pair(), 19


def two_grounds():
    """Two grounds at once: the first in checking order."""
    yield '3 and 9', 100001, 1, b'', 3
    yield '10 and 11', 0, 1, parent()[:8][1:] + b'\0', 10
    yield '11 and 12', 0, 1, parent(w=0) + b'\0', 11
    yield '12 and 13', 0, 1, parent(0, w=0), 12
    yield '13 and 14', 0, 2, pair(share=0, half_life=0), 13
    yield '14 and 15', 0, 3, book(TWO, [(0, 0, 0)]), 14
    yield '15 and 16', 0, 2, book([(1, NONE, 1), (1, NONE, 1)], [(1, 0, 0)]), 15
    yield '16 and 17', 0, 1, book([(1, NONE, 1)], [(1, 0, 0)]), 16
    yield '17 and 18', 0, 3, book(
        [(1, NONE, 0), (1, NONE, 1), (1, NONE, 3)], [(100000, 1, 2), (100000, 0, 0), (100000, 1, 0)]), 17
    yield '18 and 19', 0, 0, split(50000, 50001), 18


def edges():
    """(rate, book, room, answer)"""
    for part in (rates_and_headers, half_lives_and_numbers, feed_fields, walks, rooms, two_grounds):
        for _, rate, room, data, answer in part():
            yield rate, data, room, answer


if __name__ == "__main__":
    print(__doc__)
