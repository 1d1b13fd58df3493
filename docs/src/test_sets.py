"""R-7 of document 02, the partner's coefficients, in its own words: rows of the reference with a second set beside the book.
And of every recorded answer with one: but for the name it is the answer to the book with the set written over its own
numbers, other numbers of the book's own alter nothing in it, and its factors depend on neither.

    test_sets.py

As in test_lowest.py the lowest rate is found by halves alone.
"""

import struct

import reference as ref
from draws import Random, random_coefficient
from packing import bits, pack_book, pack_feed, pack_job, pack_member, pack_numbers
from plain_help import answer_help
from recorded import PARTNER, read_cases
from tally import run_tests, say_passed
from test_lowest import prepare

T1 = 2_495_329_851_600  # the document's T'
MOST = 4_000_000_000

CASES = [(*PARTNER.unpack(body), text) for body, text in read_cases(PARTNER)]
LENT = [case for case in CASES if case[2].startswith("set 2\n")]


# ---- Rows ----------------------------------------------------------------------------------------

OUTPUT = ("factor 0 1099511627776\n"
          "concentration 37000\n"
          "verdict below\n"
          "level 37000\n"
          "equilibrium none\n"
          "working none\n"
          "rate 0\n")


def alone(target=1_610, **numbers):
    """Document 01's worked job."""
    return pack_job(unit=0, target=target, value=bits(1.0)) + pack_book([pack_member(1, **numbers)], [])


def one_feed(C, target, v=0, W=1_000, **numbers):
    """Document 01's first chain, and the numbers of its daughter."""
    book = pack_book([pack_member(1), pack_member(T1, first=1, **numbers)], [pack_feed(100_000, 0)], W=W)
    return pack_job(v=v, unit=2, target=target, value=bits(C / 1_000)) + book


def risks(*numbers):
    return b"".join(pack_numbers(inhalation_risk=h) for h in numbers)


def words(second, job):
    """The lines of an answer by their names; a refusal has one."""
    return dict(line.rsplit(" ", 1) for line in ref.partner_answer(second, job).splitlines())


def test_name():
    """1 for the book's, 2 for the second, and no bytes means not lent; lent, even if equal to the book's, is the second."""
    assert ref.partner_answer(b"", alone(inhalation_risk=1_000)) == "set 1\n" + OUTPUT
    assert ref.partner_answer(risks(1_000), alone()) == "set 2\n" + OUTPUT
    assert ref.partner_answer(risks(1_000), alone(inhalation_risk=1_000)) == "set 2\n" + OUTPUT
    assert words(bytes(20), alone(inhalation_risk=1_000))["level"] == "4000000000"  # zeros are numbers, and lent


def test_verdict_and_level():
    """Document 01's rows with the set in use: the parent alone, and 'close' at v = 200."""
    for target, verdict in ((1_610, "below"), (1_609, "above")):
        assert words(risks(1_000), alone(target=target, inhalation_risk=MOST))["verdict"] == verdict
        assert words(b"", alone(target=target, inhalation_risk=1_000))["verdict"] == verdict
    for target, verdict, rate in ((1_610, "close", "201"), (1_611, "below", "200"), (1_609, "above", "201")):
        said = words(risks(0, 1_000), one_feed(111_000, target, v=200, inhalation_risk=7))
        assert (said["verdict"], said["rate"], said["factor 1"]) == (verdict, rate, "366503875925")


def test_working_levels():
    """The weights are the set's, W is the book's: 10 * C * Fm / (37,000 * W). A daughter with T' has half of G at v = 100."""
    for W, micro in ((1_000, "20000"), (1_001, "19980"), (75, "266666")):
        for w in (1, 5, MOST):
            said = words(pack_numbers() + pack_numbers(w=w), one_feed(148_000, 0, v=100, W=W))
            assert (said["equilibrium"], said["working"]) == ("500000", micro)
    job = one_feed(148_000, 0, v=100, w=1)
    assert words(b"", job)["equilibrium"] == "500000" and words(bytes(40), job)["equilibrium"] == "none"


def test_order_and_widths():
    """The member's order, and the five numbers' as they stand in its record, each of four bytes with the lowest first."""
    second = struct.pack("<10I", *range(1, 11))
    job, C, book = ref.read_all(one_feed(37_000, 1, inhalation_risk=99, w=99), second)
    assert [member[1:] for member in book.members] == [(1, 2, 3, 4, 5), (6, 7, 8, 9, 10)]
    assert book.members[1] == ref.Member(T=T1, inhalation_risk=6, submersion_risk=7, inhalation_dose=8, submersion_dose=9, w=10)
    assert second[20:24] == b"\6\0\0\0"
    # The gap reads the set's numbers: 2 * i * q(i), and i is 0 for the parent.
    assert ref.gap_sum(job, book) == 2 * (365 * 15_456_000 * 6 + 873_600 * 7)
    assert ref.gap_sum(job._replace(kind=1), book) == 2 * (365 * 59_472_000 * 8 + 3_360_000 * 9)


def test_refused():
    """23 when it is not exactly 20 n bytes or has a number over 4,000,000,000, after 18 and only if it was lent."""
    for n, job in ((1, alone()), (2, one_feed(37_000, 1))):
        for length in range(1, 20 * n + 42):
            assert ref.partner_answer(bytes(length), job).startswith("set 2\n" if length == 20 * n else "refused 23\n"), length
        for place in range(5 * n):
            for number, begins in ((MOST, "set 2\n"), (MOST + 1, "refused 23\n"), ((1 << 32) - 1, "refused 23\n")):
                second = struct.pack(f"<{5 * n}I", *(number if k == place else 1 for k in range(5 * n)))
                assert ref.partner_answer(second, job).startswith(begins), (place, number)
    assert ref.answer(alone(), b"\0") == ref.fan_answer(alone(), b"\0") == "refused 23\n"  # each by itself
    feeds = [pack_feed(50_000, 0), pack_feed(50_001, 0)]
    over = pack_book([pack_member(1), pack_member(1, first=1), pack_member(1, first=2)], feeds)
    for second in (b"", b"\0", bytes(60), bytes(61)):
        assert ref.partner_answer(second, pack_job() + over) == "refused 18\n"
        assert ref.partner_answer(second, alone(w=MOST + 1)) == "refused 13\n"
        assert ref.partner_answer(second, pack_job(v=100_001) + over) == "refused 3\n"
        assert ref.partner_answer(second, b"") == "refused 1\n"


def test_body():
    """A body whose length goes past its end has a set of what is there, and no job."""
    assert PARTNER.unpack(struct.pack("<I", 100) + b"abc") == (b"abc", b"")
    assert PARTNER.unpack(struct.pack("<I", 0) + b"abc") == (b"", b"abc")
    assert PARTNER.unpack(PARTNER.pack(bytes(20), alone())) == (bytes(20), alone())


# ---- Every recorded case -------------------------------------------------------------------------


def written_over(second, job):
    """The job whose book has the second set in place of its own numbers: 20 bytes from offset 8 of each member."""
    data = bytearray(job)
    for i in range(len(second) // 20):
        at = 48 + 8 + 32 * i + 8
        data[at : at + 20] = second[20 * i : 20 * i + 20]
    return bytes(data)


def test_programs_lend_none():
    """`screen` and `fan` print as before, and an answer with 1 has their lines."""
    for second, job, text in CASES:
        if text.startswith("set 1\n"):
            assert second == b"" and text == "set 1\n" + ref.answer(job) + ref.fan_answer(job)
    assert len(LENT) >= 150


def test_written_over():
    """An answer with 2 is, but for that name, the one for the book with the set written over its own."""
    for second, job, text in LENT:
        over = written_over(second, job)
        assert len(over) == len(job)
        assert ref.partner_answer(b"", over) == "set 1\n" + text.removeprefix("set 2\n")


def other_numbers(rng, count):
    """Numbers within the limits for a book of its own: none, the largest, and two drawn."""
    yield bytes(4 * count)
    yield struct.pack("<I", MOST) * count
    for _ in range(2):
        yield struct.pack(f"<{count}I", *(random_coefficient(rng) for _ in range(count)))


def test_own_numbers_alter_nothing():
    rng = Random(0x4F776E4E756D62)
    for second, job, text in LENT:
        for own in other_numbers(rng, len(second) // 4):
            assert ref.partner_answer(second, written_over(own, job)) == text


def factors(text):
    return [int(line.split()[2]) for line in text.splitlines() if line.startswith("factor ")]


def test_factors_depend_on_neither():
    """They are the factor call's, with the set or without, whatever the book's own numbers are."""
    rng = Random(0x466163746F7273)
    for second, job, text in LENT:
        v, book = int.from_bytes(job[:4], "little"), job[48:]
        assert factors(text) == ref.factor_call(v, book, len(second) // 20)
        for own in other_numbers(rng, len(second) // 4):
            assert factors(ref.answer(written_over(own, job))) == factors(text)


def test_refusal_names_no_set():
    refused = [text for _, _, text in CASES if "refused" in text]
    assert len(refused) + len(LENT) < len(CASES)
    assert set(refused) == {f"refused {number}\n" for number in (*range(1, 19), 23)}


def main():
    answer_help(__doc__)
    prepare(ref)
    say_passed(run_tests(globals()))


if __name__ == "__main__":
    main()
