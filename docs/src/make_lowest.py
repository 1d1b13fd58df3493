"""Recorded jobs for the lowest rate (document 02, R-6): typed and from a fixed seed, and the reference's text of `fan`
for each. make_recorded.py writes them.

The count of every outcome is made too, that of the rates by the verdict one rate lower, of 'none' by the verdict at
100,000, and of accepted jobs by kind, medium, unit and size. The same jobs come out every time.
"""

import pathlib

import lowest_edges
import reference as ref
from damage import DAMAGE, damaged, pair, refused, sturdy_case
from draws import COEFFICIENTS, Case, largest_case, random_case, random_group, random_job, random_reading
from packing import bits
from recorded import LOWEST
from recorder import Recorder
from small_books import LONGEST, T1

EXAMPLES = pathlib.Path(__file__).resolve().parents[2] / "examples"
MOST_TARGET = 10**9


# ---- Targets that make a rate the answer ---------------------------------------------------------


class Aim:
    """A case, ready to have its target chosen: Low and High at any rate, and what one step of the target is worth in B, with the
    book's numbers or a second set's."""

    def __init__(self, case, second=ref.NOT_LENT):
        case.job["target"], case.job["v"] = 1, 0
        self.case = case
        self.job, self.C, self.book = ref.read_all(case.data(), second)
        self.one = ref.B(self.job)

    def low(self, v):
        return self.C * ref.low_sum(self.job._replace(v=v), self.book)

    def high(self, v):
        return self.C * ref.high_sum(self.job._replace(v=v), self.book)

    def first_below(self, v):
        """The lowest target that is 'below' at v."""
        return ref.rounded_up(self.high(v), self.one)

    def last_close(self, v):
        """The highest target that is not 'below' at v."""
        return self.first_below(v) - 1

    def last_above(self, v):
        """The highest target that is 'above' at v."""
        return ref.rounded_up(self.low(v), self.one) - 1


def target_for(aim, rate, before):
    """A target for which `rate` is the lowest 'below' and the rate before has the verdict wanted, or None if there is none. For
    'above' it is the lowest that will do, for 'close' the highest: the one lies next to High at `rate`, the other at rate - 1."""
    if rate == 0:
        return aim.first_below(0)
    if before == "close":
        target = aim.last_close(rate - 1)
        fits = target > aim.last_above(rate - 1)
    else:
        target = aim.first_below(rate)
        fits = target <= aim.last_above(rate - 1)
    return target if fits and aim.first_below(rate) <= target else None


def target_for_none(aim, at_most):
    """The highest target for which even 100,000 is not 'below' but the verdict wanted, or None."""
    target = aim.last_close(100_000) if at_most == "close" else aim.last_above(100_000)
    return target if at_most == "above" or target > aim.last_above(100_000) else None


def aimed(rng, case, rate, before):
    """The case with its target chosen and with a rate of its own, or None. A rate of None stands for 'none'."""
    aim = Aim(case)
    target = target_for_none(aim, before) if rate is None else target_for(aim, rate, before)
    if target is None or not 0 <= target <= MOST_TARGET:
        return None
    near = 100_000 if rate is None else rate
    case.job["target"] = target
    case.job["v"] = rng.one_of((0, 18, max(near - 1, 0), near, min(near + 1, 100_000), 100_000, rng.between(0, 100_000)))
    return case.data()


def until(rng, make, rate, before):
    """Cases made until one can be aimed so; a rate may be drawn anew each time."""
    for _ in range(2_000):
        made = aimed(rng, make(rng), rate(rng) if callable(rate) else rate, before)
        if made:
            return made
    raise AssertionError((make.__name__, rate, before))


# ---- Rooms ---------------------------------------------------------------------------------------


def lively(rng, n=None, m=None):
    """A case at large, with a last member that lives long enough to be aired away and a coefficient that counts."""
    n = n or rng.between(2, 6)
    case = random_case(rng, n, m)
    last = case.members[n - 1]
    last["T"] = rng.one_of((T1, LONGEST, rng.between(LONGEST // 1_000, LONGEST)))
    for name in COEFFICIENTS:
        last[name] = rng.between(ref.MOST // 1_000, ref.MOST)
    case.job.update(value=rng.one_of((bits(rng.between(1, 10_000) / 8), random_reading(rng, case.job["unit"]))),
                    AF=10**6 if case.job["medium"] == 0 else rng.between(1, 200_000), adult=(350, rng.between(1, 30), 96, 20))
    return case


def fine(rng, n=None):
    """Few grains under large coefficients: the margin between Low and High is worth whole steps of the target."""
    n = n or rng.between(2, 6)
    members = [{"T": 10**15}] + [{"T": rng.between(LONGEST // 100, LONGEST)} for _ in range(n - 1)]
    for name in COEFFICIENTS:
        members[n - 1][name] = rng.between(ref.MOST // 10, ref.MOST)
        members[rng.between(1, n - 1)][name] = rng.spread(0, ref.MOST)
    shares = [rng.spread(1, 100_000) for _ in range(n - 2)] + [rng.spread(1, 2_000)]
    job = random_job(rng)
    job.update(medium=0, AF=10**6, unit=2, value=bits(rng.between(1, 4_000_000) / 1.0), uncertainty=0,
               child=(366, 100, 96, 100), adult=random_group(rng, may_be_empty=False))
    return Case(job, members, [(i, share, i - 1) for i, share in enumerate(shares, 1)], rng)


def low_rate(rng):
    return rng.one_of((1, 2, 3, rng.between(1, 100), rng.between(1, 1_000)))


def any_rate(rng):
    return rng.one_of((rng.spread(1, 100_000), rng.between(1, 100_000)))


def aimed_jobs(rng):
    """Rates low, high and at both ends, after 'above' and after 'close'; and none, at both verdicts."""
    made = []
    for before, make in (("above", lively), ("close", fine)):
        made += [until(rng, make, low_rate, before) for _ in range(10)]
        made += [until(rng, make, any_rate, before) for _ in range(14)]
        for rate in (1, 99_999, 100_000, None):
            made += [until(rng, make, rate, before) for _ in range(5)]
    made += [until(rng, make, 0, "") for make in (lively, fine) for _ in range(6)]
    return made + [until(rng, fine, any_rate, "above") for _ in range(6)]


def sized_jobs(rng):
    """1 to 16 members and up to 64 feeds, each after 'above'; and some after 'close'."""
    made = [until(rng, lambda rng: random_case(rng, 1), rate, "above") for rate in (0, 0, 0, None, None, None)]
    for n in range(2, 17):
        made.append(until(rng, lambda rng: lively(rng, n), any_rate, "above"))
    for n, m in ((2, 64), (3, 64), (8, 32), (16, 64), (16, 64)):
        made.append(until(rng, lambda rng: lively(rng, n, m), any_rate, "above"))
    for n in (2, 3, 8, 12, 16):
        made.append(until(rng, lambda rng: fine(rng, n), any_rate, "close"))
    return made


def spread_out(rng):
    """Every kind, medium and unit in one job each, which is the answer to some rate."""
    made = []
    for kind, medium, unit in ((kind, medium, unit) for kind in (0, 1) for medium in (0, 1, 2) for unit in (0, 1, 2)):
        def make(rng):
            case = lively(rng, rng.between(2, 4))
            case.job.update(kind=kind, medium=medium, unit=unit, AF=10**6 if medium == 0 else rng.between(1_000, 200_000),
                            value=bits(rng.between(1, 1_000_000) / 37_000 * (1, 1_000, 37)[unit]),
                            uncertainty=rng.one_of((0, random_reading(rng, unit))))
            return case
        made.append(until(rng, make, any_rate, "above"))
    return made


# ---- To the grain --------------------------------------------------------------------------------


def grain(aim, v):
    """What a grain of the last member is worth at C = 1, and High at C = 1."""
    job = aim.job._replace(v=v)
    return ref.q(job, aim.book.members[-1]), ref.high_sum(job, aim.book)


def to_the_grain(rng, case, rate, over):
    """The case with C and target so chosen that High at `rate` is within a grain of B: not above it, so that a grain more would
    make the answer a higher one; or, if `over`, High at rate - 1 is above it, and a grain less would make it a lower one."""
    aim = Aim(case)
    worth, high = grain(aim, rate - 1 if over else rate)
    for _ in range(40_000):
        C = rng.between(10**6, 4 * 10**6) * 1_000
        target, rest = divmod(C * high, aim.one)
        close = rest != 0 and (rest <= C * worth if over else aim.one - rest < C * worth)
        if close and target < MOST_TARGET:
            case.job.update(target=target + (not over), value=bits(C / 1_000), v=rng.one_of((0, rate, 100_000)))
            return case.data()
    return None


def scaled(rng, rate):
    """A line of two or three with T' or another half-life; the last one's coefficient brings High near the highest target."""
    n = rng.between(2, 3)
    members = [{"T": 1}] + [{"T": rng.one_of((T1, T1, LONGEST))} for _ in range(n - 1)]
    case = Case({"unit": 2, "value": bits(4e6), "kind": rng.between(0, 1)}, members,
                [(i, rng.one_of((100_000, 50_000)), i - 1) for i in range(1, n)], rng)
    for name in COEFFICIENTS:
        members[-1][name] = 1_000_000
    full = Aim(case).first_below(rate)
    for name in COEFFICIENTS:
        members[-1][name] = max(1, min(ref.MOST, 1_000_000 * rng.between(800_000_000, 999_000_000) // full))
    return case


def nearly_whole(rng, rate):
    """One daughter whose factor is so little below a whole number of grains that K + 1 for K would reach it."""
    T = rng.between(T1, 2 * T1)
    while ref.G * ref.K // (ref.K + rate * T) == ref.G * (ref.K + 1) // (ref.K + 1 + rate * T):
        T += 1
    case = scaled(rng, rate)
    coefficients = {name: case.members[-1][name] for name in COEFFICIENTS}
    return Case(case.job, [{"T": 1}, {"T": T} | coefficients], [(1, 100_000, 0)], rng)


def grain_jobs(rng):
    """Both sides of a grain, at low rates and at high ones; rate 100 has exact halves for T'."""
    made = []
    for over in (False, True):
        rates = [100, 100, 300, 1, rng.between(2, 99), rng.between(101, 5_000), rng.spread(5_000, 100_000), 100_000]
        while rates:
            data = to_the_grain(rng, scaled(rng, rates[-1]), rates[-1], over)
            if data:
                made.append(data)
                rates.pop()
    whole = [to_the_grain(rng, nearly_whole(rng, rate), rate, False) for rate in (100, 100, 200, 300)]
    return made + [data for data in whole if data]


# ---- Others --------------------------------------------------------------------------------------


def example_jobs():
    """Five examples as they are; and the three gases with targets that ask for a fan."""
    made = [(EXAMPLES / f"{name}.job").read_bytes() for name in ("actinon", "guide", "radon", "thoron", "workroom")]
    for gas in ("radon", "thoron", "actinon"):
        data = (EXAMPLES / f"{gas}.job").read_bytes()
        for rate in (18, 60, 400):
            job, C, book = ref.read_all(ref.with_rate(rate, data))
            target = ref.rounded_up(C * ref.high_sum(job, book) * job.target, ref.B(job))
            made.append(data[:8] + target.to_bytes(4, "little") + data[12:])
    return made


def plain_jobs(rng):
    """At large, as draws.py draws them; and every number at its limit."""
    made = [random_case(rng).data() for _ in range(8)]
    return made + [largest_case(rng, kind, v, T).data() for kind in (0, 1) for v in (0, 100_000) for T in (1, LONGEST)]


def refused_jobs(rng):
    """Two ways to meet each ground of the job, every way to meet each of the book; and two grounds at once: neighbours, and 3
    with every other."""
    made = []
    for ground, damages in sorted(DAMAGE.items()):
        ways = damages if ground > 8 else [rng.one_of(damages) for _ in range(2)]
        for damage in ways:
            data = damaged(rng, sturdy_case(rng), damage)
            assert refused(data) == ground
            made.append(data)
    pairs = [(low, low + 1) for low in range(1, 18)] + [(1, 3)] + [(3, high) for high in range(5, 19)]
    return made + [pair(rng, low, high) for low, high in pairs]


# ---- Out -----------------------------------------------------------------------------------------


def all_jobs(rng):
    made = aimed_jobs(rng) + sized_jobs(rng) + spread_out(rng) + grain_jobs(rng) + example_jobs()
    return [(data,) for data in made + plain_jobs(rng) + refused_jobs(rng)]


def typed_jobs():
    return [(data, answer + "\n") for data, answer in lowest_edges.edges()]


def outcomes(texts):
    names = [f"refused {k}" for k in range(1, 19)] + [f"rate {rate}" for rate in (0, 1, 99_999, 100_000, "none")]
    counts = {name: texts.count(name + "\n") for name in names}
    counts["other rates"] = len(texts) - sum(counts.values())
    return counts


def found(jobs, texts):
    """(job, book, the rate or None, the verdict one rate lower or at 100,000, or None) of each accepted job."""
    for data, text in zip(jobs, texts):
        if text.startswith("rate "):
            job, C, book = ref.read_all(data)
            rate = None if text == "rate none\n" else int(text.split()[1])
            last = 100_000 if rate is None else rate - 1
            yield job, book, rate, ref.verdict_at(last, job, book, C) if last >= 0 else None


def kinds_of_answers(answers):
    count = lambda test: sum(test(*one) for one in answers)
    counts = {}
    for verdict in ("close", "above"):
        counts[f"a rate, {verdict} one rate lower"] = count(lambda job, book, rate, last: rate is not None and last == verdict)
        counts[f"none, {verdict} at 100,000"] = count(lambda job, book, rate, last: rate is None and last == verdict)
    counts["own rate below the answer"] = count(lambda job, book, rate, last: rate is not None and job.v < rate)
    counts["own rate is the answer"] = count(lambda job, book, rate, last: job.v == rate)
    counts["own rate above the answer"] = count(lambda job, book, rate, last: rate is not None and job.v > rate)
    counts["gas alone"] = count(lambda job, book, rate, last: book.n == 1)
    counts["2 to 15 members"] = count(lambda job, book, rate, last: 2 <= book.n <= 15)
    counts["16 members"] = count(lambda job, book, rate, last: book.n == 16)
    counts["64 feeds"] = count(lambda job, book, rate, last: sum(map(len, book.feeds_into)) == 64)
    for name, field, choices in (("kind", 1, 2), ("medium", 2, 3), ("unit", 3, 3)):
        for choice in range(choices):
            counts[f"a rate but 0, {name} {choice}"] = count(lambda job, book, rate, last: bool(rate) and job[field] == choice)
    return counts


def sorts(calls, texts):
    return outcomes(texts) | kinds_of_answers(list(found([data for data, in calls], texts)))


def check(calls, texts):
    for (data,), text in zip(calls, texts):
        ref.check_lowest(data, text)


RECORDER = Recorder(kind=LOWEST, least=4, sorts=sorts, typed=typed_jobs, drawn=all_jobs, seed=0x4C6F77657374, check=check)


if __name__ == "__main__":
    print(__doc__)
