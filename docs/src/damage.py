"""Damage to jobs and books: for each ground of a job and of a book the ways to meet it, alone or with another."""

import math

import reference as ref
from draws import COEFFICIENTS, Random, largest_reading, random_case
from packing import bits
from small_books import LONGEST, TOP

# ---- The ways ------------------------------------------------------------------------------------


def cut_to(low, high):
    """Cut short; a second cut cannot make the job longer again."""
    def damage(case, rng):
        case.length = min(len(case.data()), rng.between(low, high))
    return damage


def with_length(change):
    def damage(case, rng):
        if case.length is None:
            case.length = len(case.data()) + change
    return damage


def in_job(**changes):
    return lambda case, rng: case.job.update(changes)


def in_header(**changes):
    return lambda case, rng: case.header.update(changes)


def in_group(name, place, number):
    def damage(case, rng):
        group = list(case.job[name])
        group[place] = number
        case.job[name] = tuple(group)
    return damage


def in_member(i, **changes):
    return lambda case, rng: case.members[i].update(changes)


def in_feed(**changes):
    return lambda case, rng: rng.one_of(case.feeds).update(changes)


def in_reading(*choices):
    """Each bad reading as the value, then as the uncertainty."""
    return [in_job(**{name: raw}) for raw in choices for name in ("value", "uncertainty")]


def past_count(place):
    """A first or a next one above the count of feeds."""
    def damage(case, rng):
        if place == "first":
            case.members[rng.between(0, 2)]["first"] = len(case.feeds) + 1
        else:
            rng.one_of(case.feeds)["next_"] = len(case.feeds) + 1
    return damage


def from_past_count(case, rng):
    rng.one_of(case.feeds)["from_"] = len(case.members)


def two_firsts(case, rng):
    case.members[2]["first"] = case.members[1]["first"]


def own_next(case, rng):
    number = rng.between(1, len(case.feeds))
    case.feeds[number - 1]["next_"] = number


def back_to_first(case, rng):
    """The longest chain becomes a ring; the walk must still end."""
    chain = max((case.chain(i) for i in range(len(case.members))), key=len)
    case.feeds[chain[-1] - 1]["next_"] = chain[0]


def feed_never(case, rng):
    case.feeds.append({"share": 1, "from_": 0})


def feed_skipped(case, rng):
    """The last member's first feed drops out of its chain."""
    last = len(case.members) - 1
    case.set_chain(last, case.chain(last)[1:])


def parent_fed(case, rng):
    """The last member gives its last feed to the parent."""
    last = len(case.members) - 1
    chain = case.chain(last)
    case.set_chain(last, chain[:-1])
    case.set_chain(0, chain[-1:])


def member_unfed(case, rng):
    """A member's feeds all go to the last one."""
    i, last = rng.between(1, len(case.members) - 2), len(case.members) - 1
    chain = case.chain(last) + case.chain(i)
    case.set_chain(i, [])
    case.set_chain(last, chain)


def fed_by(offset):
    """A member fed by itself, or by a later one."""
    def damage(case, rng):
        i = rng.between(1, len(case.members) - 2)
        number = rng.one_of(case.chain(i) or [1])
        case.feeds[number - 1]["from_"] = i + offset
    return damage


def swapped_chains(case, rng):
    """Members 1 and the last change their feeds: the order of the chain is upset."""
    last = len(case.members) - 1
    one, other = case.chain(1), case.chain(last)
    case.set_chain(1, other)
    case.set_chain(last, one)
    case.feeds[other[0] - 1]["from_"] = last


def shares_out(total):
    """The shares out of the parent made to add up to `total`."""
    def damage(case, rng):
        out = [feed for feed in case.feeds if feed["from_"] == 0]
        while len(out) < 2:
            feed = next(feed for feed in case.feeds if feed["from_"] != 0)
            feed["from_"] = 0
            out.append(feed)
        for feed in out[1:]:
            feed["share"] = min(feed["share"], 50_000)
        out[0]["share"] = 0
        missing = total - sum(feed["share"] for feed in out)
        out[0]["share"] = min(100_000, missing)
        out[1]["share"] += missing - out[0]["share"]
    return damage


def all_whole(case, rng):
    """Every share is whole: what flows into a member may pass 1, what flows out may not."""
    for feed in case.feeds:
        feed["share"] = 100_000
        feed["from_"] = 0


QUIET, SIGNALLING, INFINITE, SIGN = 0x7FF8 << 48, (0x7FF0 << 48) + 1, 0x7FF0 << 48, 1 << 63
BAD_READINGS = (QUIET, QUIET | SIGN, SIGNALLING, SIGNALLING | SIGN, (1 << 63) - 1, (1 << 64) - 1, INFINITE, INFINITE | SIGN,
                SIGN, SIGN | 1, bits(-4.0), bits(-1.7976931348623157e308))
LARGE_READINGS = (bits(1.7976931348623157e308), bits(math.nextafter(4e6 / 37 * 1000, math.inf)), bits(2.0**64), bits(1e9))


DAMAGE = {
    1: [cut_to(0, 0), cut_to(1, 1), cut_to(47, 47), cut_to(8, 46)],
    2: [in_job(kind=2), in_job(kind=255), in_job(medium=3), in_job(medium=255), in_job(unit=3), in_job(unit=255), in_job(zero=1),
        in_job(zero=128)],
    3: [in_job(v=100_001), in_job(v=TOP), in_job(v=1 << 31), in_job(v=200_000)],
    4: [in_job(target=10**9 + 1), in_job(target=TOP), in_job(target=1 << 31)],
    5: [in_job(medium=1, AF=10**6 + 1), in_job(medium=2, AF=TOP), in_job(medium=0, AF=999_999), in_job(medium=0, AF=0),
        in_job(medium=0, AF=10**6 + 1)],
    6: [in_group(name, place, over) for name in ("child", "adult") for place, over in ((0, 367), (1, 101), (2, 97), (3, 101))]
       + [in_job(child=(0, 0, 0, 0), adult=(350, 0, 96, 20)), in_group("child", 0, 65_535), in_group("adult", 3, 65_535),
          in_group("child", 2, 65_535)],
    7: in_reading(*BAD_READINGS),
    8: in_reading(*LARGE_READINGS)
       + [in_job(unit=unit, medium=0, AF=10**6, value=bits(math.nextafter(largest_reading(unit), math.inf)), uncertainty=0)
          for unit in (0, 1, 2)]
       # Just past the limit: the sum in soil gas (though C is small), the sum in air, then C alone.
       + [in_job(unit=2, medium=1, AF=AF, value=bits(4e6), uncertainty=1) for AF in (0, 1)]
       + [in_job(unit=2, medium=0, AF=10**6, value=bits(2e6), uncertainty=bits(math.nextafter(2e6, math.inf))),
          in_job(unit=2, medium=2, AF=10**6, value=bits(921_660.0), uncertainty=0),
          in_job(unit=2, medium=2, AF=230_415, value=bits(4e6), uncertainty=0)],
    9: [cut_to(48, 48), cut_to(55, 55), cut_to(48, 55)],
    10: [in_header(n=0), in_header(n=17), in_header(n=255), in_header(m=65), in_header(m=255)],
    11: [with_length(1), with_length(-1), with_length(8), with_length(-8), in_header(n=16, m=64), in_header(n=1, m=0),
         lambda case, rng: in_header(m=len(case.feeds) + 1)(case, rng), with_length(900)],
    12: [in_header(W=0)] + [in_header(zeros=b"\0" * k + b"\1" + b"\0" * (3 - k)) for k in range(4)]
        + [in_member(1, zeros=z) for z in (b"\1\0\0", b"\0\xff\0", b"\0\0\1")] + [in_member(0, zeros=b"\0\0\1")]
        + [in_feed(zeros=z) for z in (b"\1\0", b"\0\1")],
    13: [in_member(0, T=0), in_member(0, T=10**15 + 1), in_member(0, T=(1 << 64) - 1), in_member(1, T=0),
         in_member(1, T=LONGEST + 1), in_member(2, T=10**15), in_member(2, T=(1 << 64) - 1)]
        + [in_member(i, **{name: over}) for name in COEFFICIENTS + ("w",) for i, over in ((0, ref.MOST + 1), (2, TOP))],
    14: [in_feed(share=0), in_feed(share=100_001), in_feed(share=TOP), from_past_count, in_feed(from_=255), past_count("first"),
         past_count("next"), in_member(1, first=255), in_feed(next_=255)],
    15: [two_firsts, own_next, back_to_first, feed_never, feed_skipped],
    16: [parent_fed, member_unfed],
    17: [fed_by(0), fed_by(1), swapped_chains],
    18: [shares_out(100_001), shares_out(100_002), shares_out(150_000), all_whole],
}


def sturdy_case(rng, n=None, more=1):
    """A good book with enough in it to damage: three members or more, two feeds or more into the last."""
    n = n or rng.between(3, 5)
    case = random_case(rng, n)
    flows = [(i, rng.between(1, 40_000), i - 1) for i in range(1, n)]
    flows += [(n - 1, rng.between(1, 20_000 // more), rng.one_of((0, rng.between(0, n - 2)))) for _ in range(more)]
    case.link(rng.shuffled(flows), rng)
    return case


def refused(data):
    text = ref.answer(data)
    return int(text.split()[1]) if text.startswith("refused") else 0


def damaged(rng, case, *damages):
    assert refused(case.data()) == 0
    for damage in damages:
        damage(case, rng)
    return case.data()


def pair(rng, low, high):
    """Both damages in one job. If they touch the same field, one undoes the other and the order shows:
    then other ways of damage are tried."""
    for _ in range(200):
        low_way, high_way = rng.one_of(DAMAGE[low]), rng.one_of(DAMAGE[high])
        before = rng.state
        data = damaged(rng, sturdy_case(rng), high_way, low_way)
        again = damaged(rng, sturdy_case(Random(before)), low_way, high_way)
        if refused(data) == refused(again) == low:
            return data
    raise AssertionError((low, high))


# ---- Books alone ---------------------------------------------------------------------------------


def damaged_book(rng, ground):
    """A book that meets this ground of the book."""
    data = damaged(rng, sturdy_case(rng), rng.one_of(DAMAGE[ground]))
    assert refused(data) == ground
    return data[48:]


def damaged_twice(rng, ground):
    """A book that meets this ground and the next."""
    return pair(rng, ground, ground + 1)[48:]


if __name__ == "__main__":
    print(__doc__)
