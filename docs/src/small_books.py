"""Small books for the typed cases, written out from the documents' words, and the numbers that these cases are made of.

They are typed apart from the reference, so that a typed answer does not rest on it.
"""

from packing import pack_book, pack_feed, pack_member

G = 1 << 40
K = 249_532_985_160_000  # 0.693147181 times 3.6 * 10^14
T1 = 2_495_329_851_600  # the document's T': a factor of one half at rate 100
LONGEST = 60_000_000_000_000  # of a daughter; 10^15 of the parent
TOP = (1 << 32) - 1


def parent(W=1_000, **fields):
    return pack_book([pack_member(1, **fields)], [], W=W)


def daughter(share=100_000, T=1, from_=0, **header):
    """The parent and one daughter, with one feed."""
    return pack_book([pack_member(1), pack_member(T, first=1)], [pack_feed(share, from_)], **header)


def split(*shares):
    """A daughter for each share, all fed by the parent."""
    members = [pack_member(1)] + [pack_member(1, first=k + 1) for k in range(len(shares))]
    return pack_book(members, [pack_feed(share, 0) for share in shares])


def line(*shares):
    """Each member fed by the one before, with the shares given."""
    members = [pack_member(1)] + [pack_member(1, first=k + 1) for k in range(len(shares))]
    return pack_book(members, [pack_feed(share, k) for k, share in enumerate(shares)])


def falling(*grains, v=100):
    """A line of members that have these factors, in grains, at rate v: each is fed wholly by the one before, and its half-life
    is the shortest that brings the factor down to the wanted one."""
    half_lives, before = [], G
    for wanted in grains:
        half_lives.append((before * K // (wanted + 1) - K) // v + 1)
        assert 1 <= half_lives[-1] <= 60_000_000_000_000
        assert before * K // (K + v * half_lives[-1]) == wanted
        before = wanted
    members = [pack_member(1)] + [pack_member(T, first=k + 1) for k, T in enumerate(half_lives)]
    return pack_book(members, [pack_feed(100_000, k) for k in range(len(half_lives))])


def branched(T=T1):
    """Members 1 and 2 half each from 0, member 3 wholly from both: 200,000 hundred-thousandths flow into it."""
    return pack_book([pack_member(1)] + [pack_member(T, first=k) for k in (1, 2, 3)],
                     [pack_feed(50_000, 0), pack_feed(50_000, 0), pack_feed(100_000, 1, 4), pack_feed(100_000, 2)])


def fan(m, T=1):
    """One daughter with m feeds of one share each from the parent."""
    feeds = [pack_feed(1, 0, k + 1 if k < m else 0) for k in range(1, m + 1)]
    return pack_book([pack_member(1), pack_member(T, first=1)], feeds)


def widest():
    """16 members and 64 feeds: a line with shares of 40,000, and 49 feeds more of one share each into the last one. It is for
    rates and periods that are refused, and for runs that nobody works by hand."""
    members = [pack_member(10**15)] + [pack_member(T1, first=k) for k in range(1, 16)]
    feeds = [pack_feed(40_000, k) for k in range(14)] + [pack_feed(40_000, 14, 16)]
    return pack_book(members, feeds + [pack_feed(1, k % 15, k + 1 if k < 64 else 0) for k in range(16, 65)])


if __name__ == "__main__":
    print(__doc__)
