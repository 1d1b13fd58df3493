"""Second sets of coefficients (document 02, R-7), worked by hand: what the text of `partner` must have is typed here from the
documents. A typed answer is some lines of the text, or the line of a refusal, which is the whole text.

Rooms are those of lowest_edges.py: T' stands for 2,495,329,851,600, and a daughter with T', fed wholly, has the factor
100 G / (100 + v), rounded down. For a residential risk, c pCi/m3 and the daughter's h = 1,000,000, 'below' is

    c * 1,610 * (factor + 2, at most G) <= target * G,

and another h counts as so many times c. W is odd where there are working levels, and never the 1,000 of radon.
"""

from lowest_edges import air, alone, daughter
from opening_edges import bad_books
from packing import bits, pack_book, pack_feed, pack_job, pack_member, pack_numbers
from small_books import T1, TOP

MOST = 4_000_000_000
NOT_LENT = b""


def lines(number, *rest):
    """The line of the set in use, and others."""
    return "\n".join((f"set {number}", *rest))


def refused(number):
    return f"refused {number}"


def of_groups(*groups):
    """A second set: a group for each member, in the member's order."""
    return b"".join(pack_numbers(**group) for group in groups)


def of_risks(*risks):
    """A second set with inhalation risks alone."""
    return of_groups(*({"inhalation_risk": h} for h in risks))


def with_number(place, number, n):
    """A second set of n groups with one number that isn't 0; places count from 0 through all groups."""
    five = [[0] * 5 for _ in range(n)]
    five[place // 5][place % 5] = number
    return b"".join(pack_numbers(*group) for group in five)


# ---- Lent or not ---------------------------------------------------------------------------------

WORKED = ("factor 0 1099511627776", "concentration 37000", "verdict below", "level 37000", "equilibrium none", "working none",
          "rate 0")


def one_pCi_per_litre(book, target=1_610, **fields):
    """Document 01's worked job; C is 37,000."""
    return pack_job(unit=0, value=bits(1.0), target=target, **fields) + book


def sixteenths(h=1_000_000):
    """Fifteen daughters of a sixteenth each."""
    members = [pack_member(1)] + [pack_member(T1, inhalation_risk=h, first=k) for k in range(1, 16)]
    return pack_book(members, [pack_feed(6_250, 0) for _ in range(15)])


def worked():
    """Document 01's output, with the set that is its book's own, and with the same numbers lent beside a book without any."""
    yield NOT_LENT, one_pCi_per_litre(alone(inhalation_risk=1_000)), lines(1, *WORKED)
    yield of_risks(1_000), one_pCi_per_litre(alone()), lines(2, *WORKED)


def lengths():
    """Exactly 20 n bytes, or none; what is missing or over would be a zero byte. 28 and 32 are a member's bytes after its
    half-life's first four and all of them, 40 those of a book of one member; 276 is 20 in one byte."""
    job, right = one_pCi_per_litre(alone(inhalation_risk=1_000)), of_risks(1_000)
    for length in (1, 4, 5, 8, 19, 21, 24, 28, 32, 40, 276, 320):
        yield right.ljust(length, b"\0")[:length], job, refused(23)
    yield b"\xff", job, refused(23)
    yield right, job, lines(2, *WORKED)
    room, right = air(300, 161_000, daughter()), of_risks(0, 1_000_000)
    yield NOT_LENT, room, lines(1, "rate 201")
    for length in (1, 20, 39, 41, 60, 64, 72, 80):
        yield right.ljust(length, b"\0")[:length], room, refused(23)
    yield right, room, lines(2, "rate 201")
    # 2 * (100 + 40) pCi/m3 against 301,875: 'close' at 40.
    wide, right = air(280, 301_875, sixteenths()), of_risks(0, *[1_000_000] * 15)
    for length in (319, 321):
        yield right.ljust(length, b"\0")[:length], wide, refused(23)
    yield right, wide, lines(2, "rate 41")


# ---- The limit -----------------------------------------------------------------------------------


def limits():
    """Each number up to 4,000,000,000. There is no gas, so that the verdict is 'below' and the lowest rate 0; and the target is
    0, so that the level is 0 where a number counts for the job's kind, and its largest where none does."""
    for kind, counting in ((0, (0, 1)), (1, (2, 3))):
        for place in range(5):
            level = "level 0" if place in counting else "level 4000000000"
            answer = lines(2, "verdict below", level, "rate 0")
            for number in (1, MOST) if kind == 0 else (MOST,):
                yield with_number(place, number, 1), air(0, 0, alone(), kind=kind), answer
    for place in range(5):
        yield with_number(place, MOST + 1, 1), air(0, 0, alone()), refused(23)
    for n, book in ((2, daughter()), (16, sixteenths())):
        for place in (0, 5 * n - 1):
            yield with_number(place, MOST, n), air(0, 0, book), lines(2, "verdict below", "rate 0")
            yield with_number(place, MOST + 1, n), air(0, 0, book), refused(23)
    for place in (*range(1, 9), 0, 9):
        yield with_number(place, TOP if place in (0, 9) else MOST + 1, 2), air(0, 0, daughter()), refused(23)
    three = air(0, 0, two_in_line(0, 0, 1_001))
    for place in (5, 9, 10, 14):
        yield with_number(place, MOST + 1, 3), three, refused(23)
    yield with_number(0, 1 << 31, 1), air(0, 0, alone()), lines(2, "level 0")  # negative, if it were signed
    yield pack_numbers(*[MOST] * 5), air(0, 0, alone()), lines(2, "level 0")


# ---- Order and widths ----------------------------------------------------------------------------


def places():
    """Each of the five numbers in its place, beside a book that has none: the rooms of lowest_edges.py for h, the submersion
    risk, and both of dose, whose sides meet at rate 18, and with one more in the target below it. The same number in the
    parent's group is there at every rate."""
    ways = ((0, "inhalation_risk", 1_000_000, 161_000, 1), (0, "submersion_risk", 146_000_000, 3_640, 50),
            (1, "inhalation_dose", 1_000_000, 61_950, 2), (1, "submersion_dose", 146_000_000, 1_400, 90))
    bare = daughter(inhalation_risk=0)
    for kind, name, number, target, k in ways:
        met, more = (air(118 * k, target * k + step, bare, kind=kind) for step in (0, 1))
        second = of_groups({}, {name: number})
        yield second, met, lines(2, "verdict above", "rate 19")
        yield second, more, lines(2, "verdict above", "rate 18")
        yield of_groups({name: number}, {}), met, lines(2, "verdict above", "rate none")
        other = air(118 * k, target * k, bare, kind=1 - kind)
        yield second, other, lines(2, "verdict below", "level 4000000000", "rate 0")


# ---- Verdicts turned -----------------------------------------------------------------------------

ALONE_BELOW = ("verdict below", "level 37000", "rate 0")
ALONE_ABOVE = ("verdict above", "level 36963", "rate none")  # 37,000,000 / 1,001
DOSE_BELOW = ("verdict below", "level 370000", "rate 0")
DOSE_ABOVE = ("verdict above", "level 369630", "rate none")  # 370,000,000 / 1,001

# Document 01's first chain at v = 200, C = 111,000 and target 1,610: three times the factor is G - 1, and with two grains more
# G + 5. The level is 37,000 * 1,000 / h * G / (factor + 2), and the sides meet where 100 + v is 3 h / 10.
CHAIN = {
    999: ("factor 1 366503875925", "verdict below", "level 111111", "rate 200"),
    1_000: ("factor 1 366503875925", "verdict close", "level 110999", "rate 201"),
    1_001: ("factor 1 366503875925", "verdict above", "level 110889", "rate 201"),
}


def verdicts():
    """The book's own numbers and others beside it, either way about."""
    ways = (("inhalation_risk", pack_job(unit=0, value=bits(1.0), target=1_610), ALONE_BELOW, ALONE_ABOVE),
            ("inhalation_dose", pack_job(kind=1, unit=0, value=bits(10.0), target=6_195), DOSE_BELOW, DOSE_ABOVE))
    for name, job, below, above in ways:
        low, high = {name: 1_000}, {name: 1_001}
        yield NOT_LENT, job + alone(**low), lines(1, *below)
        yield NOT_LENT, job + alone(**high), lines(1, *above)
        yield of_groups(high), job + alone(**low), lines(2, *above)
        yield of_groups(low), job + alone(**high), lines(2, *below)
    for own in CHAIN:
        job = pack_job(v=200, unit=0, value=bits(3.0), target=1_610) + daughter(inhalation_risk=own)
        yield NOT_LENT, job, lines(1, *CHAIN[own])
        for h in CHAIN:
            yield of_risks(0, h), job, lines(2, *CHAIN[h])


# ---- Lowest rates --------------------------------------------------------------------------------


def rates():
    """Another h is so many times c. 100,100 pCi/m3 at target 161,000 is 'close' at 100,000, a millionth less 'below' there."""
    job = air(150, 161_000, daughter(), v=100_000)
    yield NOT_LENT, job, lines(1, "rate 51")
    for h, answer in ((2_000_000, "rate 201"), (500_000, "rate 0"), (666_666, "rate 0"), (666_667, "rate 1"),
                      (MOST, "rate none")):
        yield of_risks(0, h), job, lines(2, answer)
    for own, h, answer in ((1_000_000, 999_999, "rate 100000"), (999_999, 1_000_000, "rate none"), (1_000_000, 0, "rate 0")):
        yield of_risks(0, h), air(100_100, 161_000, daughter(inhalation_risk=own)), lines(2, answer)
    # The parent's own number at every rate: what it leaves of the target for c = 1 is target - 1,610.
    for risks, answer in (((1_000_000, 1_000_000), "rate 101"), ((0, 1_000_000), "rate 0"), ((1_000_000, 0), "rate 0"),
                          ((1_500_000, 1_000_000), "rate none")):
        yield of_risks(*risks), air(1, 2_415, daughter()), lines(2, answer)
    for v, answer in ((100_000, lines(2, "rate 51")), (100_001, refused(3))):
        yield of_risks(0, 1_000_000), air(150, 161_000, daughter(inhalation_risk=0), v=v), answer


# ---- Working levels ------------------------------------------------------------------------------

# Two in a line with T' have G / 2 and G / 4 at rate 100, and G at rate 0: their weights, and Fm in millionths.
WEIGHTS = [
    ((1, 0), 500_000),
    ((0, 1), 250_000),
    ((1, 1), 375_000),
    ((3, 2), 400_000),  # document 01's row
    ((3, 1), 437_500),
    ((MOST, 0), 500_000),
]
NONE = ("equilibrium none", "working none")


def two_in_line(first, second, W, parent=0):
    members = [pack_member(1, w=parent), pack_member(T1, w=first, first=1), pack_member(T1, w=second, first=2)]
    return pack_book(members, [pack_feed(100_000, 0), pack_feed(100_000, 1)], W=W)


def weights(first, second, parent=0):
    return of_groups({"w": parent}, {"w": first}, {"w": second})


def working():
    """10 * C * Fm / (37,000 * W) with the W of the book. The parent's weight counts for nothing, in either set."""
    for number, (pair, fm) in enumerate(WEIGHTS):
        own, W = WEIGHTS[number - 1][0], (1_001, 77, 75, 1_619, 65_535, 3)[number]
        job = one_pCi_per_litre(two_in_line(*own, W, parent=number), v=100)
        yield weights(*pair, parent=9 - number), job, lines(2, f"equilibrium {fm}", f"working {10 * fm // W}")
        yield NOT_LENT, job, lines(1, f"equilibrium {WEIGHTS[number - 1][1]}")
    row = pack_job(v=100, unit=0, value=bits(4.0)) + two_in_line(1, 1, 1_000)
    yield weights(3, 2), row, lines(2, "concentration 148000", "equilibrium 400000", "working 16000")
    # None with one set and not with the other.
    bare, weighed = (one_pCi_per_litre(two_in_line(*pair, 1_001), v=100) for pair in ((0, 0), (3, 2)))
    yield weights(3, 2), bare, lines(2, "equilibrium 400000", "working 3996")
    yield weights(0, 0, parent=5), weighed, lines(2, *NONE)
    yield NOT_LENT, bare, lines(1, *NONE)
    yield NOT_LENT, weighed, lines(1, "equilibrium 400000", "working 3996")


# ---- Sets that change nothing, and all ------------------------------------------------------------


def same_and_none():
    """Lent, even if equal to the book's, is set 2. All zeros are lent too: nothing is weighed."""
    nothing = ("verdict below", "level 4000000000", *NONE, "rate 0")
    yield of_risks(0, 1_000_000), air(300, 161_000, daughter()), lines(2, "verdict above", "rate 201")
    for target, book, n in ((0, alone(inhalation_risk=MOST), 1), (1, daughter(), 2), (1, two_in_line(3, 2, 1_001), 3)):
        yield bytes(20 * n), air(1_000, target, book), lines(2, *nothing)
    yield bytes(20), one_pCi_per_litre(alone()), lines(2, *nothing)
    yield of_risks(1_000), one_pCi_per_litre(alone(inhalation_risk=1_000, submersion_risk=1, w=9)), lines(2, *WORKED)


# ---- Grounds -------------------------------------------------------------------------------------


def bad_jobs():
    """(ground, job) for each ground of the job."""
    right = one_pCi_per_litre(alone())
    yield 1, b""
    yield 1, right[:47]
    for number, fields in ((2, {"kind": 2}), (2, {"zero": 1}), (3, {"v": 100_001}), (4, {"target": 1_000_000_001}),
                           (5, {"AF": 999_999}), (6, {"child": (350, 6, 97, 10)}), (7, {"value": 1 << 63}),
                           (8, {"value": bits(4_000_001.0)})):
        yield number, pack_job(**fields) + alone()


def grounds():
    """Each ground of the job and of the book comes before 23, and is met with a good set as well. Members are counted by the
    book's first byte, if it is there."""
    books = [(number, pack_job(target=1) + book) for number, book in bad_books()]
    for number, job in [*bad_jobs(), *books]:
        n = job[48] if len(job) > 48 else 1
        yield b"\1", job, refused(number)
        if 1 <= n <= 16:
            yield with_number(5 * n - 1, MOST + 1, n), job, refused(number)
    for number, job in bad_jobs():
        yield of_risks(1_000), job, refused(number)


def own_numbers():
    """The book's own numbers are checked under a set that is lent, good or bad; at the limit they are accepted."""
    names = ("inhalation_risk", "submersion_risk", "inhalation_dose", "submersion_dose", "w")
    for name in names:
        for parent, later in (({name: MOST + 1}, {}), ({}, {name: MOST + 1})):
            book = pack_book([pack_member(1, **parent), pack_member(T1, first=1, **later)], [pack_feed(1, 0)])
            yield of_risks(0, 1_000_000), air(100, 161_000, book), refused(13)
    for second in (b"\0", bytes(39), bytes(41), with_number(9, MOST + 1, 2)):
        yield second, air(100, 161_000, daughter(inhalation_risk=MOST + 1)), refused(13)
    yield of_risks(1_000), one_pCi_per_litre(alone(**dict.fromkeys(names, MOST))), lines(2, *WORKED)


def edges():
    """(the second set, the job, what the text must have)"""
    for part in (worked, lengths, limits, places, verdicts, rates, working, same_and_none, grounds, own_numbers):
        yield from part()


if __name__ == "__main__":
    print(__doc__)
