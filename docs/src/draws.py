"""Random numbers from a seed, the same everywhere, and the jobs and books that are drawn with them.

The random numbers are made here, so that no library's choice can change a recorded case.
"""

import math

import reference as ref
from packing import bits, pack_book, pack_feed, pack_job, pack_member
from small_books import LONGEST, T1
COEFFICIENTS = ("inhalation_risk", "submersion_risk", "inhalation_dose", "submersion_dose")


class Random:
    """Splitmix64: whole numbers from a seed, the same everywhere."""

    def __init__(self, seed):
        self.state = seed

    def next64(self):
        mask = (1 << 64) - 1
        self.state = self.state + 0x9E3779B97F4A7C15 & mask
        z = self.state
        z = (z ^ z >> 30) * 0xBF58476D1CE4E5B9 & mask
        z = (z ^ z >> 27) * 0x94D049BB133111EB & mask
        return z ^ z >> 31

    def between(self, low, high):
        return low + self.next64() % (high - low + 1)

    def one_of(self, items):
        return items[self.between(0, len(items) - 1)]

    def spread(self, low, high):
        """Between low and high, each length in bits about as likely as another."""
        top = 1 << self.between(low.bit_length(), high.bit_length())
        return max(low, min(high, self.between(0, top)))

    def shuffled(self, items):
        items = list(items)
        for i in range(len(items) - 1, 0, -1):
            j = self.between(0, i)
            items[i], items[j] = items[j], items[i]
        return items


# ---- A case: the fields of a job and its book, still open to change ------------------------------


class Case:
    def __init__(self, job, members, flows, rng=None, W=1_000):
        """`flows` are (into, share, from); their feed numbers are shuffled if there is a generator."""
        self.job = job
        self.members = members
        self.header = {"W": W}
        self.link(flows, rng)
        self.length = None  # a false length of the whole: cut, or filled up with zeros

    def link(self, flows, rng):
        """Number the feeds and tie each member's chain, in the order of `flows`."""
        numbers = list(range(1, len(flows) + 1))
        if rng:
            numbers = rng.shuffled(numbers)
        self.feeds = [None] * len(flows)
        last = {}
        for number, (into, share, from_) in zip(numbers, flows):
            self.feeds[number - 1] = {"share": share, "from_": from_, "next_": 0}
            if into in last:
                self.feeds[last[into] - 1]["next_"] = number
            else:
                self.members[into]["first"] = number
            last[into] = number

    def chain(self, i):
        """The feed numbers of member i; a damaged chain is followed as far as it makes sense."""
        numbers, number = [], self.members[i].get("first", 0)
        while 0 < number <= len(self.feeds) and number not in numbers:
            numbers.append(number)
            number = self.feeds[number - 1].get("next_", 0)
        return numbers

    def set_chain(self, i, numbers):
        self.members[i]["first"] = numbers[0] if numbers else 0
        for here, after in zip(numbers, numbers[1:] + [0]):
            self.feeds[here - 1]["next_"] = after

    def data(self):
        members = [pack_member(**member) for member in self.members]
        feeds = [pack_feed(**feed) for feed in self.feeds]
        whole = pack_job(**self.job) + pack_book(members, feeds, **self.header)
        if self.length is None:
            return whole
        return whole[: self.length].ljust(self.length, b"\0")


# ---- Good jobs and books ------------------------------------------------------------------------


def random_half_life(rng, limit):
    return rng.one_of((1, limit, T1, 186_000_000_000, rng.spread(1, limit), rng.spread(1, limit)))


def random_coefficient(rng):
    return rng.one_of((0, 0, 1, 1_000, rng.spread(0, ref.MOST), rng.spread(0, 1_000_000), ref.MOST))


def random_member(rng, i):
    member = {"T": random_half_life(rng, 10**15 if i == 0 else LONGEST)}
    for name in COEFFICIENTS + ("w",):
        member[name] = random_coefficient(rng)
    return member


def random_flows(rng, n, m):
    """m feeds, at least one into each member but the first; the shares out of a member never pass 100,000."""
    into = list(range(1, n)) + [rng.between(1, n - 1) for _ in range(m - (n - 1))]
    pairs = [(i, rng.one_of((i - 1, rng.between(0, i - 1)))) for i in into]
    outs = {}
    for _, from_ in pairs:
        outs[from_] = outs.get(from_, 0) + 1
    left = {from_: 100_000 for from_ in outs}
    flows = []
    for i, from_ in pairs:
        outs[from_] -= 1
        most = left[from_] - outs[from_]  # every feed still to come needs at least 1
        drawn = rng.between(1, most)
        share = rng.one_of((most if outs[from_] == 0 else drawn, drawn, min(most, rng.spread(1, 100_000))))
        left[from_] -= share
        flows.append((i, share, from_))
    return rng.shuffled(flows)


def random_group(rng, may_be_empty=True):
    """Days, years, quarter hours and breathing: the named groups, a shift of 7 hours 45, limits, and any other."""
    groups = [(350, 6, 96, 10), (350, 20, 96, 20), (250, 25, 32, 60), (250, 25, 31, 60), (366, 100, 96, 100), (1, 1, 1, 1),
              (0, 1, 96, 20)]
    drawn = (rng.between(0, 366), rng.between(1, 100), rng.between(0, 96), rng.between(0, 100))
    return rng.one_of(groups + [drawn, drawn] + ([(0, 0, 0, 0)] if may_be_empty else []))


def random_rate(rng):
    return rng.one_of((0, 10, 18, 60, 100, 200, 100_000, rng.spread(0, 100_000), rng.between(0, 100_000)))


def random_reading(rng, unit):
    """The bits of a reading whose converted value is at most about 400,000,000."""
    most = 400_000_000 / ref.PER_UNIT[unit]
    tiny = rng.one_of((1, rng.between(1, (1 << 52) - 1)))  # subnormal
    near_one = rng.next64() >> 12 | 0x3FF << 52
    return rng.one_of((0, tiny, bits(4.0), bits(0.5), near_one, bits(rng.between(0, 1_000_000) / 1_000),
                       bits(most * rng.between(1, 1 << 30) / (1 << 30)), bits(most * rng.between(1, 1 << 20) / (1 << 30))))


def random_job(rng):
    medium, unit = rng.between(0, 2), rng.between(0, 2)
    return {
        "v": random_rate(rng),
        "kind": rng.between(0, 1),
        "medium": medium,
        "unit": unit,
        "target": rng.one_of((0, 1, 10**9, rng.spread(0, 10**9), rng.spread(0, 10**9))),
        "AF": 10**6 if medium == 0 else rng.one_of((0, 1, 1_000, 30_000, 10**6, rng.between(0, 10**6))),
        "value": random_reading(rng, unit),
        "uncertainty": rng.one_of((0, random_reading(rng, unit))),
        "child": random_group(rng),
        "adult": random_group(rng, may_be_empty=False),
    }


def random_case(rng, n=None, m=None):
    n = n or rng.one_of((1, 2, 2, 3, 3, 4, 4, 5, 6, rng.between(1, 16)))
    if n == 1:
        m = 0
    elif m is None:
        m = rng.one_of((n - 1, n - 1, n, min(64, 2 * n)))
    members = [random_member(rng, i) for i in range(n)]
    flows = random_flows(rng, n, m) if n > 1 else []
    return Case(random_job(rng), members, flows, rng, W=rng.one_of((1_000, 75, 1_620, 1, 65_535)))


# ---- Jobs and books of a kind --------------------------------------------------------------------


def thin_case(rng):
    """Factors of few grains under coefficients so large that 2i grains are worth whole steps of the target."""
    n = rng.between(2, 5)
    members = [{"T": 10**15}] + [{"T": rng.between(LONGEST // 50, LONGEST), "w": rng.between(0, 9)} for _ in range(n - 1)]
    for name in COEFFICIENTS:
        members[n - 1][name] = rng.between(ref.MOST // 100, ref.MOST)
        members[rng.between(1, n - 1)][name] = rng.spread(0, ref.MOST)
    flows = [(i, rng.spread(1, 100_000), i - 1) for i in range(1, n)]
    job = random_job(rng)
    job.update(v=rng.between(20_000, 100_000), medium=0, AF=10**6, unit=2, value=bits(rng.between(1, 4_000_000) / 1.0),
               uncertainty=0, child=(366, 100, 96, 100), adult=random_group(rng, may_be_empty=False))
    return Case(job, members, flows, rng)


def capped_case(rng):
    """Factors at G or a few grains below, all capped in High, which then meets B to the last grain ('below')."""
    n = rng.between(2, 6)
    members = [{"T": rng.between(1, 9), "inhalation_risk": 1_000 * rng.between(0, 9), "w": rng.between(0, 9)} for _ in range(n)]
    members[n - 1].update(T=1, inhalation_risk=1_000)
    job = {"v": rng.between(0, 1), "unit": 0, "value": bits(float(rng.between(1, 1_000)))}
    return Case(job, members, [(i, 100_000, i - 1) for i in range(1, n)], rng)


def halved_case(rng):
    """T' at rate 100: exact halves, no rounding, so that Low can meet B to the last grain ('close')."""
    n = rng.between(2, 4)
    members = [{"T": 1}] + [{"T": T1} for _ in range(n - 1)]
    members[n - 1]["inhalation_risk"] = 1_000
    job = {"v": 100, "unit": 2, "value": bits(37.0 * 2 ** (n - 1) * rng.between(1, 9))}
    return Case(job, members, [(i, 100_000, i - 1) for i in range(1, n)], rng)


def parent_case(rng):
    """The gas alone under the document's row: High can meet B exactly ('below')."""
    members = [{"T": rng.spread(1, 10**15), "inhalation_risk": 1_000, "w": rng.between(0, 9)}]
    return Case({"v": random_rate(rng), "unit": 0, "value": bits(float(rng.between(1, 1_000)))}, members, [])


def largest_case(rng, kind, v, T, years=(100, 100)):
    members = [{"T": 10**15 if i == 0 else T} for i in range(16)]
    for member in members:
        member.update({name: ref.MOST for name in COEFFICIENTS + ("w",)})
    child, adult = ((366, ED, 96, 100) for ED in years)
    job = {"v": v, "kind": kind, "unit": 2, "value": bits(4e6), "target": 10**9, "child": child, "adult": adult}
    return Case(job, members, [(i, 100_000, i - 1) for i in range(1, 16)], rng, W=rng.between(1, 2))


# Years of child and adult where 100 * ED / Z is a half for both: both are rounded up, and the shares add up to 101.
HALVES = [(child, adult) for child in range(1, 101) for adult in range(1, 101)
          if 200 * child % (child + adult) == 0 and 200 * child // (child + adult) % 2 == 1]


def largest_reading(unit):
    """The largest f64 that converts to no more than 4,000,000,000."""
    number = ref.MOST / ref.PER_UNIT[unit]
    while ref.converted(bits(number), unit) > ref.MOST:
        number = math.nextafter(number, 0)
    return number


def book_of(case):
    """The book alone: the job's 48 bytes go."""
    return case.data()[48:]


if __name__ == "__main__":
    print(__doc__)
