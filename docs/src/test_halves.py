"""Is the reference's halving of the rates right? It must agree with R-6's definition, one rate after the other.

    test_halves.py

The recorded texts come from the definition wherever the answer is among the first rates (reference.FEW), and test_lowest.py
makes them again by halves alone. Jobs with answers beyond them, or with none, are looked at over all 100,001 rates: a few by
the reference's definition, and more by a second one that is written here and has less to do at each rate.
"""

import reference as ref
from draws import Random
from plain_help import answer_help
from recorded import LOWEST, read_cases
from tally import run_tests, say_passed
from test_lowest import mixed

CASES = read_cases(LOWEST)


def by_halves(data):
    job, C, book = ref.read_all(data)
    return ref.first_below_by_halves(ref.RATES, job, book, C)


def one_by_one(data):
    """The definition once more. What does not depend on the rate is made once: q and B."""
    job, C, book = ref.read_all(data)
    weights = [C * ref.q(job, member) for member in book.members]
    most = ref.B(job)
    for v in range(100_001):
        factors = ref.reported_factors(v, book)
        if sum(q * min(x + 2 * i, ref.G) for i, (q, x) in enumerate(zip(weights, factors))) <= most:
            return v
    return None


def definition(data):
    job, C, book = ref.read_all(data)
    return ref.first_below(ref.RATES, job, book, C)


def test_halves():
    """One rate after the other, for jobs that the recorder has looked at by halves: mostly short chains, and some long ones."""
    far = [data for data, text in mixed(CASES)
           if text == "rate none\n" or text.startswith("rate") and int(text.split()[1]) >= ref.FEW]
    short, long = [data for data in far if data[48] in (2, 3)], [data for data in far if data[48] > 3]
    for data in short[:16] + long[:2]:
        assert one_by_one(data) == by_halves(data)
    for data in short[16:17]:
        assert definition(data) == by_halves(data)
    print(f"{len(short[:17] + long[:2])} jobs looked at over all the rates: the halves agree")


def test_fall():
    """What the halves rest on: from one rate to the next no reported factor rises, and no verdict gets worse."""
    order = {"below": 0, "close": 1, "above": 2}
    rng = Random(0x46616C6C)
    for data in [data for data, text in CASES if text.startswith("rate")]:
        job, C, book = ref.read_all(data)
        v = rng.spread(0, 99_999)
        assert all(a >= b for a, b in zip(ref.reported_factors(v, book), ref.reported_factors(v + 1, book)))
        assert order[ref.verdict_at(v, job, book, C)] >= order[ref.verdict_at(v + 1, job, book, C)]


def main():
    answer_help(__doc__)
    say_passed(run_tests(globals()))


if __name__ == "__main__":
    main()
