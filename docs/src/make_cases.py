"""Recorded jobs: from a fixed seed, and the reference's text for each. make_recorded.py writes them.

The count of every outcome is made too, that of accepted jobs by the part of the hour in their exposure, and that of
accepted dose jobs by the sum of their two shares of the years.
"""

import math

import job_edges
import reference as ref
from damage import DAMAGE, damaged, pair, refused, sturdy_case
from draws import (HALVES, Case, capped_case, halved_case, largest_case, largest_reading, parent_case, random_case,
                   random_job, random_member, thin_case)
from packing import bits
from recorded import JOB
from recorder import Recorder
from small_books import LONGEST

# ---- Targets at the very edge of a verdict -------------------------------------------------------


def edge_targets(case):
    """The last 'above', first and last 'close', first 'below', where they are targets at all."""
    case.job["target"] = 1
    job, C, book = ref.read_all(case.data())
    low, high, one = C * ref.low_sum(job, book), C * ref.high_sum(job, book), ref.B(job)
    first_not_above = ref.rounded_up(low, one)
    first_below = ref.rounded_up(high, one)
    edges = {"last above": first_not_above - 1, "first below": first_below}
    if first_not_above < first_below:
        edges["first close"], edges["last close"] = first_not_above, first_below - 1
    return {name: t for name, t in edges.items() if 0 <= t <= 10**9}


def said(data):
    return ref.answer(data).split("verdict ")[1].split("\n")[0]


def at_edges(case, names):
    """The case's bytes with its target at each of the named edges."""
    made = []
    edges = edge_targets(case)
    for name in names:
        if name in edges:
            case.job["target"] = edges[name]
            data = case.data()
            assert said(data) == name.split()[1]
            made.append(data)
    return made


def edge_jobs(rng):
    made = []
    for _ in range(110):
        made += at_edges(random_case(rng), (rng.one_of(("last above", "first close")), "first below"))
    for _ in range(25):
        made += at_edges(capped_case(rng), ("last above", "first below"))
    for _ in range(12):
        made += at_edges(parent_case(rng), ("last above", "first below"))
        made += at_edges(halved_case(rng), ("last above", "first close", "last close", "first below"))
    close = 0
    while close < 40:
        case = thin_case(rng)
        if "first close" in edge_targets(case):
            close += 1
            made += at_edges(case, ("last above", "first close", "last close", "first below"))
    return made


def split_case(rng, years):
    """A dose with the years given; both groups are exposed, each in its own way."""
    case = random_case(rng, rng.between(1, 4))
    child, adult = ((rng.between(1, 366), ED, rng.between(1, 96), rng.between(1, 100)) for ED in years)
    case.job.update(kind=1, child=child, adult=adult)
    return case


def split_jobs(rng):
    """Splits of the years with halves and at large, in turn, and targets so high that the shares' rounding moves them."""
    made = []
    while len(made) < 44:
        at_large = rng.shuffled((rng.between(0, 100), rng.between(1, 100)))
        case = split_case(rng, rng.one_of(HALVES) if len(made) % 4 == 0 else at_large)
        edges = edge_targets(case)
        if edges.get("last above", 0) >= 1_000 and "first below" in edges:
            made += at_edges(case, ("last above", "first below"))
    return made


# ---- Other good jobs at the limits ---------------------------------------------------------------


def reading_jobs(rng):
    """Zero, subnormal, and the largest that are still accepted."""
    made = []
    for unit in (0, 1, 2):
        top = largest_reading(unit)
        step = 1 / ref.PER_UNIT[unit]
        pairs = [(0, 0), (1, 0), (0, 1), (1, 1), ((1 << 52) - 1, 1 << 52), (bits(top), 0), (0, bits(top)),
                 (bits(top - 1), bits(0.25)), (bits(step), bits(math.nextafter(step, 1))), (bits(math.nextafter(1.0, 2)), 1)]
        for value, uncertainty in pairs:
            case = random_case(rng, rng.between(1, 3))
            case.job.update(unit=unit, medium=0, AF=10**6, value=value, uncertainty=uncertainty)
            made.append(case.data())
        for AF in (0, 1, 999_999, 10**6):
            case = random_case(rng, 2)
            case.job.update(unit=unit, medium=1, AF=AF, value=bits(top), uncertainty=0)
            made.append(case.data())
        for AF in (0, 1, 230_414, 230_000):  # 4.34 times the most passes the limit above 230,414 millionths
            case = random_case(rng, 2)
            case.job.update(unit=unit, medium=2, AF=AF, value=bits(top), uncertainty=0)
            made.append(case.data())
    return made


def no_equilibrium_jobs(rng):
    """No divisor: no later members, no weights, or shares so thin that nothing is left even at rate 0."""
    made = []
    for _ in range(8):
        made.append(random_case(rng, 1).data())
        case = random_case(rng, rng.between(2, 4))
        for member in case.members[1:]:
            member["w"] = 0
        made.append(case.data())
        members = [random_member(rng, i) for i in range(5)]
        for member in members[1:4]:
            member["w"] = 0
        made.append(Case(random_job(rng), members, [(i, rng.between(1, 9), i - 1) for i in range(1, 5)], rng).data())
    return made


def largest_jobs(rng):
    """Every number at its limit, so that the sums are as long as they get."""
    return [largest_case(rng, kind, v, T).data() for kind in (0, 1) for v in (0, 1, 100_000) for T in (1, LONGEST)]


def largest_split_jobs(rng):
    """The same for dose with 63 and 38 hundredths, 101 in all: no dose has a longer sum."""
    return [largest_case(rng, 1, 0, 1, years).data() for years in ((100, 60), (60, 100))]


def good_jobs(rng):
    made = [random_case(rng).data() for _ in range(220)]
    made += [random_case(rng, 16, 64).data() for _ in range(14)]
    made += [random_case(rng, n, min(64, 4 * n)).data() for n in range(2, 17)]
    made += [random_case(rng, n, 64).data() for n in (2, 3, 5, 8)]
    return made + reading_jobs(rng) + no_equilibrium_jobs(rng) + largest_jobs(rng)


# ---- Refused jobs --------------------------------------------------------------------------------


def one_ground_jobs(rng):
    """Every way to meet every ground, until each ground has enough; the last few in full-size books."""
    made = []
    for ground, damages in sorted(DAMAGE.items()):
        enough = max(12 if ground < 14 else 24, len(damages))
        for k in range(enough):
            full = ground > 9 and k >= enough - 4
            case = sturdy_case(rng, 16, 48) if full else sturdy_case(rng)
            data = damaged(rng, case, damages[k % len(damages)])
            assert refused(data) == ground, (ground, k, refused(data))
            made.append(data)
    return made


def two_ground_jobs(rng):
    """Every pair of grounds in one job: the lower number is the answer."""
    made = []
    for low in range(1, 19):
        for high in range(low + 1, 19):
            made += [pair(rng, low, high) for _ in range(2 if low > 11 else 1)]
    return made


# ---- Out ----------------------------------------------------------------------------------------


def all_jobs(rng):
    made = good_jobs(rng) + edge_jobs(rng) + one_ground_jobs(rng) + two_ground_jobs(rng)
    return [(data,) for data in made + split_jobs(rng) + largest_split_jobs(rng)]


def outcomes(texts):
    """How many of each outcome, in a fixed order."""
    names = [f"refused {k}" for k in range(1, 19)] + ["verdict below", "verdict close", "verdict above", "equilibrium none"]
    lines = [line for text in texts for line in text.splitlines()]
    return {name: lines.count(name) for name in names}


def accepted(jobs, texts):
    """The accepted jobs, read."""
    return [ref.read_job(data)[0] for data, text in zip(jobs, texts) if not text.startswith("refused")]


def parts_of_the_hour(jobs):
    """How many have a group in whole hours, in half hours, and in odd quarters; an ET of 0 is none of them."""
    counts = {"whole hours": 0, "half hours": 0, "odd quarters": 0}
    names = ("whole hours", "odd quarters", "half hours", "odd quarters")
    for job in jobs:
        for name in {names[g.ET % 4] for g in (job.child, job.adult) if g.ET > 0}:
            counts[name] += 1
    return counts


def sums_of_shares(jobs):
    """How many dose jobs have shares of the years that add up to 100, and to 101; there is no other sum."""
    counts = {"dose, shares add up to 100": 0, "dose, shares add up to 101": 0}
    for job in jobs:
        groups = (job.child, job.adult)
        if job.kind == ref.DOSE:
            counts[f"dose, shares add up to {sum(ref.share_of_years(g, groups) for g in groups)}"] += 1
    return counts


def sorts(calls, texts):
    read = accepted([data for data, in calls], texts)
    return outcomes(texts) | parts_of_the_hour(read) | sums_of_shares(read)


def check(calls, texts):
    assert len(calls) >= 1_000
    for data, in calls:
        ref.check(data)


def is_in(line, text):
    """A typed answer is a line of the text, or two."""
    return line in text


RECORDER = Recorder(kind=JOB, least=10, sorts=sorts, typed=job_edges.edges, agrees=is_in, typed_last=True, drawn=all_jobs,
                    seed=0x4A656C6D6F72616E, check=check)


if __name__ == "__main__":
    print(__doc__)
