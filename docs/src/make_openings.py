"""Recorded openings (document 02, R-5): calls typed and from a fixed seed, and the reference's answer to each.
make_recorded.py writes them.

The count of every outcome is made too, and that of the filled ones by their periods, their minutes and their places.
"""

import opening_edges
import reference as ref
from damage import DAMAGE, damaged, damaged_book, damaged_twice, sturdy_case
from draws import Case, book_of, capped_case, halved_case, random_case, thin_case
from make_tables import random_rate
from recorded import OPENING
from recorder import Recorder, outcomes
from small_books import LONGEST, T1, TOP

MOST_ROOM = 20  # a few places more than a book has members


# ---- Filled openings -----------------------------------------------------------------------------


def random_minutes(rng):
    """Mostly a few, so that the whole recording is quick."""
    return rng.one_of((1, 2, 3, rng.between(1, 20), rng.between(1, 90), rng.spread(1, 400)))


def random_periods(rng, most):
    """Rate and minutes in turn for up to `most` periods; now and then one rate comes again, in the next period."""
    numbers = []
    for _ in range(rng.between(1, most)):
        again = numbers and rng.between(0, 5) == 0
        numbers += [numbers[-2] if again else random_rate(rng), random_minutes(rng)]
    return numbers


def enough(rng, numbers, book):
    """The call with room for its factors, and now and then for more."""
    n = book[0]
    return numbers, book, min(MOST_ROOM, n + rng.one_of((0, 0, 0, 1, 2, rng.between(3, 19))))


def random_openings(rng):
    made = [enough(rng, random_periods(rng, 5), book_of(random_case(rng))) for _ in range(150)]
    made += [enough(rng, random_periods(rng, 3), book_of(random_case(rng, n))) for n in range(1, 17)]
    made += [enough(rng, random_periods(rng, 3), book_of(random_case(rng, n, 64))) for n in (2, 3, 5, 8, 16, 16)]
    made += [enough(rng, random_periods(rng, 4), book_of(thin_case(rng))) for _ in range(16)]
    made += [enough(rng, random_periods(rng, 4), book_of(capped_case(rng))) for _ in range(12)]
    made += [enough(rng, random_periods(rng, 4), book_of(halved_case(rng))) for _ in range(12)]
    return made


def first_minutes(rng):
    """One minute, two, three: hardly any old factor, so that F and its rounding show."""
    made = []
    for minutes in (1, 2, 3) * 8:
        case = random_case(rng, rng.between(2, 6))
        for member in case.members[1:]:
            member["T"] = rng.one_of((1, rng.between(1, 10**9), rng.spread(1, LONGEST)))
        made.append(enough(rng, [random_rate(rng), minutes], book_of(case)))
    return made


def shut_and_aired(rng):
    """A high rate after rate 0, and the reverse: the factors fall, or rise again."""
    made = []
    for _ in range(12):
        case = random_case(rng, rng.between(2, 6))
        high = rng.one_of((100, 600, 5_000, 100_000))
        before, after = rng.between(1, 480), random_minutes(rng)
        made.append(enough(rng, [0, before, high, after], book_of(case)))
        made.append(enough(rng, [high, before, 0, after], book_of(case)))
    return made


def one_rate_in_two_periods(rng):
    """(v, a, v, b) beside (v, a + b): the same factors."""
    made = []
    for _ in range(12):
        v, a, b = random_rate(rng), random_minutes(rng), random_minutes(rng)
        book = book_of(random_case(rng, rng.between(2, 6)))
        in_two, in_one = enough(rng, [v, a, v, b], book), enough(rng, [v, a + b], book)
        assert ref.opening_call(*in_two) == ref.opening_call(*in_one)
        made += [in_two, in_one]
    return made


def limit_case(T, n, share, rng):
    """A line of members that all have one half-life and one share."""
    return Case({}, [{"T": 10**15}] + [{"T": T} for _ in range(n - 1)], [(i, share, i - 1) for i in range(1, n)], rng)


def limit_openings(rng):
    """The shortest half-life and the longest, at rates 0 and 100,000, in chains of 2 members and of 16; and the longest factors
    times the longest half-life: no product is larger."""
    made = []
    for T in (1, LONGEST, T1):
        for n in (2, 16):
            for v in (0, 100_000):
                for minutes in (1, 60):
                    share = rng.one_of((100_000, rng.between(50_000, 100_000)))
                    made.append(enough(rng, [v, minutes], book_of(limit_case(T, n, share, rng))))
    full = book_of(limit_case(LONGEST, 2, 100_000, rng))
    made.append(enough(rng, [0, 1_440], full))
    made.append(enough(rng, [0, 1_440] * 4, full))
    made.append(enough(rng, [0, 1_440, 0, 1_440, 100_000, 1], full))
    return made


def many_periods(rng):
    """31 and 32 periods of a few minutes."""
    made = []
    for count in (31, 32, 32, 32):
        numbers = [number for _ in range(count) for number in (random_rate(rng), rng.between(1, 9))]
        made.append(enough(rng, numbers, book_of(random_case(rng, rng.between(2, 5)))))
    return made


def whole_days(rng):
    """A few periods of hours, up to a day."""
    made = []
    for _ in range(8):
        numbers = [number for _ in range(rng.between(1, 4)) for number in (random_rate(rng), rng.between(600, 1_440))]
        made.append(enough(rng, numbers, book_of(random_case(rng, rng.between(3, 8)))))
    return made


def whole_runs(rng):
    """32 periods of 1,440 minutes: one daughter, and 16 members with 64 feeds at rates at large, at rate 0 and by turns."""
    at_large = [number for _ in range(32) for number in (random_rate(rng), 1_440)]
    made = [enough(rng, at_large, book_of(random_case(rng, 2)))]
    for numbers in (at_large, [0, 1_440] * 32, [0, 1_440, 100_000, 1_440] * 16):
        made.append(enough(rng, numbers, book_of(random_case(rng, 16, 64))))
    return made


# ---- Refused openings ----------------------------------------------------------------------------


def short_openings(rng):
    """Good but for the room."""
    made = []
    for _ in range(14):
        numbers, book = random_periods(rng, 4), book_of(random_case(rng, rng.between(1, 16)))
        made.append((numbers, book, rng.one_of((book[0] - 1, book[0] - 1, 0, rng.between(0, book[0] - 1)))))
    return made


def spoiled(rng, numbers):
    """A list of periods with some of: a rate too high, minutes out of range, a last number without its minutes, none at all,
    too many of them."""
    numbers = list(numbers)
    if rng.between(0, 3) == 0:
        numbers += [random_rate(rng), 1] * rng.between(32, 40)
    if rng.between(0, 2) == 0:
        numbers[2 * rng.between(0, len(numbers) // 2 - 1)] = rng.one_of((100_000, 100_001, 100_001, rng.between(100_001, TOP)))
    if rng.between(0, 2) == 0:
        numbers[2 * rng.between(1, len(numbers) // 2) - 1] = rng.one_of((0, 1_441, 100_001, rng.between(1_441, TOP)))
    if rng.between(0, 2) == 0:
        numbers.append(rng.one_of((0, 1_440, 100_000, 100_001, rng.between(100_001, TOP))))
    return numbers if rng.between(0, 9) else []


def spoiled_openings(rng):
    """Lists of periods that are refused, with good books and bad ones, and with room or without."""
    made = []
    while len(made) < 70:
        numbers = spoiled(rng, random_periods(rng, 5))
        data = sturdy_case(rng).data()
        if rng.between(0, 1) == 0:
            data = damaged(rng, sturdy_case(rng), rng.one_of(DAMAGE[rng.between(9, 18)]))
        room = rng.between(0, 8)
        if ref.opening_call(numbers, data[48:], room) in (3, 22):
            made.append((numbers, data[48:], room))
    return made


def damaged_openings(rng):
    """Every ground of the book in three ways with good periods, the last with little room; then with each of 3 and 22."""
    made = []
    for ground in range(9, 19):
        good = random_periods(rng, 4)
        for numbers, room in ((good, 16), (good, 20), (good, rng.between(0, 2)), (good + [100_001], 5), (good + [100_000], 5)):
            made.append((numbers, damaged_book(rng, ground), room))
    return made


def two_ground_openings(rng):
    """Neighbouring grounds of the book in one book, with 19 besides."""
    return [(random_periods(rng, 3), damaged_twice(rng, ground), rng.between(0, 1))
            for ground in range(9, 18)]


# ---- Out -----------------------------------------------------------------------------------------


def drawn_openings(rng):
    made = random_openings(rng) + first_minutes(rng) + shut_and_aired(rng) + one_rate_in_two_periods(rng)
    made += limit_openings(rng) + many_periods(rng) + short_openings(rng) + spoiled_openings(rng) + damaged_openings(rng)
    return made + two_ground_openings(rng) + whole_days(rng) + whole_runs(rng)


def kinds_of_periods(openings, answers):
    """How many filled ones there are by the count of their periods, and how many of some other kinds."""
    filled = [(numbers, room, answer) for (numbers, _, room), answer in zip(openings, answers) if isinstance(answer, list)]
    count = lambda test: sum(test(*one) for one in filled)
    return {
        "filled, one period": count(lambda numbers, room, answer: len(numbers) == 2),
        "filled, two periods": count(lambda numbers, room, answer: len(numbers) == 4),
        "filled, 3 to 31 periods": count(lambda numbers, room, answer: 6 <= len(numbers) <= 62),
        "filled, 32 periods": count(lambda numbers, room, answer: len(numbers) == 64),
        "filled, more than one rate": count(lambda numbers, room, answer: len(set(numbers[0::2])) > 1),
        "filled, one minute in all": count(lambda numbers, room, answer: sum(numbers[1::2]) == 1),
        "filled, 1,000 minutes or more": count(lambda numbers, room, answer: sum(numbers[1::2]) >= 1_000),
        "filled, places left over": count(lambda numbers, room, answer: room > len(answer)),
        "filled, 16 members": count(lambda numbers, room, answer: len(answer) == 16),
    }


def check_promise(openings, answers):
    """R-5's promise on the first period of each that was filled, for an hour of it at most."""
    for (numbers, book, _), answer in zip(openings, answers):
        if isinstance(answer, list):
            ref.check_minutes(numbers[0], ref.read_book(book), min(60, numbers[1]))


def sorts(openings, answers):
    return outcomes(answers, "filled", (3, *range(9, 20), 22)) | kinds_of_periods(openings, answers)


RECORDER = Recorder(kind=OPENING, least=5, sorts=sorts, typed=opening_edges.edges, drawn=drawn_openings,
                    seed=0x4F70656E696E6773, check=check_promise)


if __name__ == "__main__":
    print(__doc__)
