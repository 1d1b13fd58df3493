"""Recorded second sets of coefficients (document 02, R-7), each with a job: typed and from a fixed seed, and the reference's
text of `partner` for each. make_recorded.py writes them.

The count of every outcome is made too (partner_sorts.py). The same cases come out every time.
"""

import partner_edges
import reference as ref
from damage import DAMAGE, damaged, refused, sturdy_case
from draws import COEFFICIENTS, largest_case, random_case, random_coefficient, random_rate
from make_lowest import MOST_TARGET, Aim, any_rate, fine, lively, target_for
from packing import pack_numbers
from partner_sorts import TURNS, sorts
from recorded import PARTNER
from recorder import Recorder
from small_books import TOP

NUMBERS = COEFFICIENTS + ("w",)
ODD = (75, 77, 1_001, 1_621, 65_535)  # W in tenths of pCi/L


# ---- Second sets ---------------------------------------------------------------------------------


def packed(groups):
    return b"".join(pack_numbers(*group) for group in groups)


def own_groups(case):
    return [[member.get(name, 0) for name in NUMBERS] for member in case.members]


def near(rng, number):
    """The number, one beside it, or up to twice as much."""
    return min(ref.MOST, rng.one_of((number, max(0, number - 1), number + 1, number * rng.between(50, 200) // 100)))


def near_set(rng, case):
    return [[near(rng, number) for number in group] for group in own_groups(case)]


def drawn_set(rng, case):
    return [[random_coefficient(rng) for _ in NUMBERS] for _ in case.members]


def last_drawn(rng, case):
    """The book's own numbers, but for the last member's."""
    return own_groups(case)[:-1] + drawn_set(rng, case)[-1:]


def one_drawn(rng, case):
    """The book's own numbers, but for one."""
    groups = own_groups(case)
    rng.one_of(groups)[rng.between(0, 4)] = random_coefficient(rng)
    return groups


def moved_on(rng, case):
    """The book's own groups, each a member later."""
    groups = own_groups(case)
    return groups[-1:] + groups[:-1]


def any_set(rng, case):
    return rng.one_of((near_set, drawn_set, drawn_set, last_drawn, one_drawn, moved_on))(rng, case)


# ---- Targets that part the two sets --------------------------------------------------------------


def with_odd_W(rng, case):
    case.header["W"] = rng.one_of(ODD)
    return case


def span(aim, v, verdict):
    """The lowest and the highest target that give this verdict at v."""
    above, below = (min(target, MOST_TARGET) for target in (aim.last_above(v), aim.first_below(v) - 1))
    return {"above": (0, above), "close": (above + 1, below), "below": (below + 1, MOST_TARGET)}[verdict]


def turned(rng, case, v, turn, own_rate):
    """A set and the case, with a target that gives these two verdicts at v, the book's and the set's; or None."""
    second = packed(near_set(rng, case))
    lowest, highest = zip(*(span(Aim(case, lent), v, verdict) for lent, verdict in zip((ref.NOT_LENT, second), turn)))
    low, high = max(lowest), min(highest)
    if low > high:
        return None
    case.job.update(target=rng.one_of((low, high)), v=own_rate)
    return second, case.data()


def until(rng, attempt):
    """Attempts until one succeeds."""
    for _ in range(2_000):
        made = attempt(rng)
        if made:
            return made
    raise AssertionError("none in 2,000")


def turned_jobs(rng):
    """Each verdict turned into each other one, at the job's own rate."""
    def attempt(turn):
        def draw(rng):
            v = random_rate(rng)
            make = fine if "close" in turn else lively
            return turned(rng, with_odd_W(rng, make(rng, rng.between(2, 3))), v, turn, v)
        return draw
    return [until(rng, attempt(turn)) for turn in TURNS for _ in range(5)]


def rates_lost_and_found(rng):
    """A rate with the book's own numbers and none with the set's, and the other way about: the verdicts at 100,000."""
    def attempt(turn):
        def draw(rng):
            make = fine if "close" in turn else lively
            return turned(rng, with_odd_W(rng, make(rng, rng.between(2, 3))), 100_000, turn, random_rate(rng))
        return draw
    return [until(rng, attempt(turn)) for turn in TURNS if "below" in turn for _ in range(4)]


def aimed_rates(rng):
    """A target for which a rate drawn is the lowest with the set's numbers, after 'above' or 'close'."""
    def attempt(before, make):
        def draw(rng):
            case = with_odd_W(rng, make(rng, rng.between(2, 3)))
            second = packed(near_set(rng, case))
            target = target_for(Aim(case, second), any_rate(rng), before)
            if target is None or not 0 <= target <= MOST_TARGET:
                return None
            case.job.update(target=target, v=random_rate(rng))
            return second, case.data()
        return draw
    return [until(rng, attempt(before, make)) for before, make in (("above", lively), ("close", fine)) for _ in range(6)]


# ---- Others that are answered --------------------------------------------------------------------


def beside(rng, case, groups):
    return packed(groups), with_odd_W(rng, case).data()


def plain_jobs(rng):
    """At large, and of every size."""
    cases = [random_case(rng, rng.between(1, 4)) for _ in range(20)]
    cases += [random_case(rng, n) for n in (5, 7, 10, 16)] + [random_case(rng, 16, 64)]
    return [beside(rng, case, any_set(rng, case)) for case in cases]


def weights_only(rng):
    """Sets that differ in w alone; none in the book or none in the set."""
    made = []
    for k in range(12):
        case = random_case(rng, 3)
        case.job["v"] = rng.between(1, 1_000)
        for member in case.members:
            member["w"] = 0 if k % 3 == 0 else rng.between(1, 1_000)
        groups = [group[:4] + [0 if k % 3 == 1 else rng.between(1, 1_000)] for group in own_groups(case)]
        made.append(beside(rng, case, groups))
    return made


def two_books(rng):
    """One set and one job with two books, which differ in their own numbers alone: the same text twice."""
    made = []
    for _ in range(5):
        case = random_case(rng, 2)
        groups = drawn_set(rng, case)
        made.append(beside(rng, case, groups))
        for member, group in zip(case.members, drawn_set(rng, case)):
            member.update(zip(NUMBERS, group))
        made.append((packed(groups), case.data()))
    return made


def equal_and_zero(rng):
    """The book's own numbers lent beside it; all zero; and nothing lent."""
    made = []
    for _ in range(5):
        case = random_case(rng, rng.between(1, 3))
        made.append(beside(rng, case, own_groups(case)))
        made.append(beside(rng, case, [[0] * 5 for _ in case.members]))
        made.append((ref.NOT_LENT, case.data()))
    return made


def largest(rng):
    """Every number of the set at its limit beside none in the book: the longest sums."""
    made = []
    for kind in (0, 1):
        case = largest_case(rng, kind, 0, 1)
        groups = own_groups(case)
        for member in case.members:
            member.update(dict.fromkeys(NUMBERS, 0))
        made.append((packed(groups), case.data()))
    return made


# ---- Refused -------------------------------------------------------------------------------------


def wrong_length(rng, second):
    """A byte or a group too few or too many."""
    length = len(second) + rng.one_of((-20, -1, 1, 20))
    return second.ljust(length, b"\0")[:length]


def over(rng, second):
    """A number over the limit, anywhere."""
    at = 4 * rng.between(0, len(second) // 4 - 1)
    number = rng.one_of((ref.MOST + 1, TOP, rng.between(ref.MOST + 1, TOP)))
    return second[:at] + number.to_bytes(4, "little") + second[at + 4 :]


def bad_sets(rng):
    """Out of range beside a good job."""
    made = []
    for spoil in (wrong_length, over):
        for _ in range(6):
            case = random_case(rng, rng.between(2, 4))
            made.append((spoil(rng, packed(any_set(rng, case))), case.data()))
    return made


def under_each_ground(rng):
    """Each other ground with a set that is out of range, by its length and by a number."""
    made = []
    for ground, damages in sorted(DAMAGE.items()):
        for spoil in (wrong_length, over):
            case = sturdy_case(rng, 3)
            second = spoil(rng, packed(drawn_set(rng, case)))
            data = damaged(rng, case, rng.one_of(damages))
            assert refused(data) == ground
            made.append((second, data))
    return made


# ---- Out -----------------------------------------------------------------------------------------


def drawn(rng):
    made = turned_jobs(rng) + rates_lost_and_found(rng) + aimed_rates(rng) + plain_jobs(rng) + weights_only(rng)
    return made + two_books(rng) + equal_and_zero(rng) + largest(rng) + bad_sets(rng) + under_each_ground(rng)


def has_lines(typed, text):
    """A refusal is the whole text; of an answer, each typed line is a line of the text."""
    return text == typed + "\n" if typed.startswith("refused") else set(typed.splitlines()) <= set(text.splitlines())


def check(calls, texts):
    """Demand 3 and R-6's claims, with the set in use."""
    for (second, job), text in zip(calls, texts):
        ref.check(job, second)
        ref.check_lowest(job, text.splitlines(keepends=True)[-1], second)


RECORDER = Recorder(kind=PARTNER, least=3, sorts=sorts, typed=partner_edges.edges, agrees=has_lines, drawn=drawn,
                    seed=0x506172746E6572, check=check)


if __name__ == "__main__":
    print(__doc__)
