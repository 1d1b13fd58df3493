"""Runs of many rates (document 02, R-9) at the edge of every list and of every ground, with the answers typed here from
the documents: how many rates were run, and both lists after the call. A place that holds 7 was left as it was.

T' stands for 2,495,329,851,600: a daughter with T', fed wholly, has the factor 100 G / (100 + v), rounded down.
"""

import factor_edges
from opening_edges import bad_books
from recorded import lent
from small_books import G, T1, TOP, branched, daughter, fan, line, parent, split, widest

HALF, THIRD = 549_755_813_888, 366_503_875_925  # T' at the rates 100 and 200, as document 01 has them
LEAST = 1_098_413_214  # T' at 100,000: G / 1,001
QUARTERS = [G, G // 4, G // 4, G // 4]  # the branched chain at rate 100
HALVES = [G, G // 2, G // 2, G]  # and at rate 0
AIRED = [G - 441 * i for i in range(16)]  # a line of 16 whose half-lives are 1 ns, at rate 100,000

ROOM = daughter(T=T1)
LONG = line(*[100_000] * 15)


# ---- Rates ---------------------------------------------------------------------------------------


def rows_of_the_scope():
    """Document 01's rows of the balance, alone and side by side; and its rows of grounds 3 and 18."""
    yield [0], ROOM, 2, (1, [2], [G, G])
    yield [100], ROOM, 2, (1, [2], [G, HALF])
    yield [0, 100, 200], ROOM, 2, (3, [2, 2, 2], [G, G, G, HALF, G, THIRD])
    yield [0, 0], daughter(33_333), 2, (2, [2, 2], [G, 366_500_210_886] * 2)
    yield [0, 100], branched(), 4, (2, [4, 4], HALVES + QUARTERS)
    yield [300, 0], branched(), 4, (2, [4, 4], [G, G // 8, G // 8, G // 16] + HALVES)
    yield [100_000], parent(), 1, (1, [1], [G])
    yield [100_001], parent(), 1, (1, [-3], [7])
    yield [100_000, 100_001], parent(), 1, (2, [1, -3], [G, 7])
    yield [0, 0], split(50_000, 50_000), 3, (2, [3, 3], [G, G // 2, G // 2] * 2)
    yield [0, 0], split(50_000, 50_001), 3, (2, [-18, -18], [7] * 6)


def orders():
    """Rates that rise, fall and come again: each row has its own rate's factors, whatever stands beside it."""
    rates, grains = [100 * ((1 << k) - 1) for k in range(10)], [G >> k for k in range(10)]
    yield rates, ROOM, 2, (10, [2] * 10, [x for half in grains for x in (G, half)])
    yield rates[::-1], ROOM, 2, (10, [2] * 10, [x for half in grains[::-1] for x in (G, half)])
    yield rates[:6], ROOM, 3, (6, [2] * 6, [x for half in grains[:6] for x in (G, half, 7)])
    yield [200, 100, 0], ROOM, 2, (3, [2, 2, 2], [G, THIRD, G, HALF, G, G])
    yield [100, 100], ROOM, 2, (2, [2, 2], [G, HALF, G, HALF])
    yield [100, 0, 100], ROOM, 2, (3, [2, 2, 2], [G, HALF, G, G, G, HALF])
    yield [0, 0, 200, 200, 0], ROOM, 2, (5, [2] * 5, [G, G, G, G, G, THIRD, G, THIRD, G, G])
    yield [100, 0, 200, 0, 100], ROOM, 2, (5, [2] * 5, [G, HALF, G, G, G, THIRD, G, G, G, HALF])
    yield [100_000, 0, 100_000], ROOM, 2, (3, [2, 2, 2], [G, LEAST, G, G, G, LEAST])
    yield [100, 0, 100, 0], branched(), 4, (4, [4] * 4, (QUARTERS + HALVES) * 2)
    yield [51_100, 25_500], ROOM, 2, (2, [2, 2], [G, 1 << 31, G, 1 << 32])
    yield [99_900, 100_000], ROOM, 2, (2, [2, 2], [G, 1_099_511_627, G, LEAST])


def sizes():
    """The gas alone, and up to 16 members; what the feeds are makes no difference to the lists."""
    yield [0, 18, 100_000], parent(), 1, (3, [1, 1, 1], [G, G, G])
    yield [0, 5, 100_000], parent(), 2, (3, [1, 1, 1], [G, 7, G, 7, G, 7])
    yield [0], fan(64), 2, (1, [2], [G, 703_687_441])
    yield [0, 0], split(*[6_250] * 15), 16, (2, [16, 16], ([G] + [G >> 4] * 15) * 2)
    yield [0, 100_000], LONG, 16, (2, [16, 16], [G] * 16 + AIRED)
    yield [100_000, 0], LONG, 17, (2, [16, 16], AIRED + [7] + [G] * 16 + [7])
    yield [100_000, 100_001, 100_000], LONG, 16, (3, [16, -3, 16], AIRED + [7] * 16 + AIRED)


def too_high():
    """3 for its own row alone, wherever it stands. 131,072 is 0 in 16 bits, and 165,536 is 100,000 less 2^16 more."""
    yield [100_001, 0, 100], ROOM, 2, (3, [-3, 2, 2], [7, 7, G, G, G, HALF])
    yield [0, 100_001, 100], ROOM, 2, (3, [2, -3, 2], [G, G, 7, 7, G, HALF])
    yield [0, 100, 100_001], ROOM, 2, (3, [2, 2, -3], [G, G, G, HALF, 7, 7])
    yield [0, 100_000, 100], ROOM, 2, (3, [2, 2, 2], [G, G, G, LEAST, G, HALF])
    yield [100_000, 100_001, 100_000], ROOM, 3, (3, [2, -3, 2], [G, LEAST, 7, 7, 7, 7, G, LEAST, 7])
    yield [100_001, TOP, 100_001], ROOM, 2, (3, [-3, -3, -3], [7] * 6)
    yield [100_001, 0, TOP, 100, 100_001], ROOM, 2, (5, [-3, 2, -3, 2, -3], [7, 7, G, G, 7, 7, G, HALF, 7, 7])
    yield [200, 100_001, 100_001, 100], ROOM, 2, (4, [2, -3, -3, 2], [G, THIRD, 7, 7, 7, 7, G, HALF])
    for over in (100_001, 100_002, 131_072, 165_536, 200_000, 1_000_000, 1 << 31, TOP):
        yield [0, over, 0], parent(), 1, (3, [1, -3, 1], [G, 7, G])
        yield [over], ROOM, 2, (1, [-3], [7, 7])
    for place in range(8):
        yield [0] * place + [100_001] + [0] * (7 - place), parent(), 1, (
            8, [1] * place + [-3] + [1] * (7 - place), [G] * place + [7] + [G] * (7 - place))


# ---- Refused books -------------------------------------------------------------------------------


def refused_books():
    """The book's number in every row but where 3 comes before it; 19 comes after it. Nothing is written."""
    bad = dict(bad_books())  # one book a ground
    for number, book in bad.items():
        yield [0, 100_001, 100], book, 2, (3, [-number, -3, -number], [7] * 6)
        yield [100_001, 0], book, 0, (2, [-3, -number], [])
    for number in (9, 13, 18):
        yield [0] * 5, bad[number], 3, (5, [-number] * 5, [7] * 4)  # one row whole, one cut short, three missing
        yield [100_001] * 3, bad[number], 3, (3, [-3] * 3, [7] * 9)
        yield [], bad[number], 2, (0, [7], [7, 7])
        yield [0, 100_001], bad[number], 2, (0, [], [7, 7])
        yield [0, 100_001], bad[number], 2, (1, [-number], [7] * 4)
        yield [100_001, 0], bad[number], 2, (1, [-3], [7] * 4)
        yield [0, 100_001], bad[number], 2, (2, [-number, -3, 7], [7] * 5)


def factor_calls():
    """Each factor call that is typed, both sides of every ground, as the second row of a run whose first is refused."""
    for v, book, room, answer in factor_edges.edges():
        filled = [] if isinstance(answer, int) else answer
        said = len(filled) or -answer
        yield [TOP, v], book, room, (2, [-3, said], [7] * room + filled + [7] * (room - len(filled)))


# ---- The width of a row --------------------------------------------------------------------------


def no_width():
    """Every row is without a place, whatever places the list has; 3 and the book's grounds come before 19."""
    yield [0, 100], ROOM, 0, (2, [-19, -19], [])
    yield [0, 100], ROOM, 0, (2, [-19, -19], [7] * 4)
    yield [0], parent(), 0, (1, [-19], [7])
    yield [0, 100_000], parent(), 0, (2, [-19, -19], [7] * 3)
    yield [0, 100_001, 100], ROOM, 0, (3, [-19, -3, -19], [7] * 6)
    yield [0, 100_001], daughter(from_=1), 0, (2, [-17, -3], [7] * 4)
    yield [], parent(), 0, (0, [], [])
    yield [], parent(), 0, (0, [7, 7], [7])


def widths():
    """One place too few, as many as there are members, and more: the places past the n-th are left. A row that is too
    narrow takes none from the next."""
    yield [0, 100, 200], ROOM, 1, (3, [-19] * 3, [7] * 6)
    yield [0, 100], branched(), 3, (2, [-19, -19], [7] * 8)
    yield [0, 100_001], branched(), 1, (2, [-19, -3], [7] * 8)
    yield [0], LONG, 15, (1, [-19], [7] * 16)
    yield [0, 0], widest(), 15, (2, [-19, -19], [7] * 32)
    yield [0, 100], ROOM, 2, (2, [2, 2], [G, G, G, HALF])
    yield [0, 100], ROOM, 3, (2, [2, 2], [G, G, 7, G, HALF, 7])
    yield [0, 100], ROOM, 4, (2, [2, 2], [G, G, 7, 7, G, HALF, 7, 7])
    yield [0, 100], branched(), 5, (2, [4, 4], HALVES + [7] + QUARTERS + [7])
    yield [100, 0], branched(), 7, (2, [4, 4], QUARTERS + [7] * 3 + HALVES + [7] * 3)
    yield [100, 200], ROOM, 16, (2, [2, 2], [G, HALF] + [7] * 14 + [G, THIRD] + [7] * 14)
    yield [100, 200], ROOM, 17, (2, [2, 2], [G, HALF] + [7] * 15 + [G, THIRD] + [7] * 15)
    yield [100, 0], parent(), 20, (2, [1, 1], [G] + [7] * 19 + [G] + [7] * 19)
    yield [100, 200], ROOM, 300, (2, [2, 2], [G, HALF] + [7] * 298 + [G, THIRD])


def wider_than_the_list():
    """A width past the whole list: the first row has what there is, and the others are missing."""
    for width in (3, 4, 255, 256, 32_768, 65_535):
        yield [100, 200], ROOM, width, (2, [2, -19], [G, HALF])
        yield [100, 200], ROOM, width, (2, [-19, -19], [7])
    yield [100] * 5, ROOM, 32_768, (5, [2, -19, -19, -19, -19], [G, HALF, 7])  # the third would start at 65,536
    yield [100, 200], ROOM, 65_535, (2, [-19, -19], [])
    yield [100, 100_001, 200], ROOM, 65_535, (3, [2, -3, -19], [G, HALF, 7])


# ---- The list of the rows ------------------------------------------------------------------------


def cut_lists():
    """The list ends within a row: the row is filled where n of its places are there, though these are fewer than the
    width. Or it ends where a row does, or before it."""
    rates = [0, 100, 200]
    yield rates, ROOM, 3, (3, [-19, -19, -19], [])
    yield rates, ROOM, 3, (3, [-19, -19, -19], [7])
    yield rates, ROOM, 3, (3, [2, -19, -19], [G, G])
    yield rates, ROOM, 3, (3, [2, -19, -19], [G, G, 7])
    yield rates, ROOM, 3, (3, [2, -19, -19], [G, G, 7, 7])
    yield rates, ROOM, 3, (3, [2, 2, -19], [G, G, 7, G, HALF])
    yield rates, ROOM, 3, (3, [2, 2, -19], [G, G, 7, G, HALF, 7])
    yield rates, ROOM, 3, (3, [2, 2, -19], [G, G, 7, G, HALF, 7, 7])
    yield rates, ROOM, 3, (3, [2, 2, 2], [G, G, 7, G, HALF, 7, G, THIRD])
    yield rates, ROOM, 3, (3, [2, 2, 2], [G, G, 7, G, HALF, 7, G, THIRD, 7])
    yield rates, ROOM, 3, (3, [2, 2, 2], [G, G, 7, G, HALF, 7, G, THIRD, 7, 7])
    yield rates, ROOM, 2, (3, [2, 2, -19], [G, G, G, HALF])
    yield rates, ROOM, 2, (3, [2, 2, -19], [G, G, G, HALF, 7])
    yield rates, ROOM, 2, (3, [2, -19, -19], [G, G, 7])
    for over in (1, 2, 3, 7):
        yield rates, ROOM, 2, (3, [2, 2, 2], [G, G, G, HALF, G, THIRD] + [7] * over)
    yield [0, 100], branched(), 6, (2, [4, -19], HALVES + [7] * 5)  # of the second row's four places three are there
    yield [0, 100], branched(), 6, (2, [4, 4], HALVES + [7, 7] + QUARTERS)
    yield [0, 100], branched(), 6, (2, [4, 4], HALVES + [7, 7] + QUARTERS + [7])
    yield [0, 0], LONG, 16, (2, [16, -19], [G] * 16 + [7] * 15)
    yield [0, 0], LONG, 20, (2, [16, 16], [G] * 16 + [7] * 4 + [G] * 16)
    yield [0] * 4, parent(), 1, (4, [1, 1, -19, -19], [G, G])
    yield [0] * 4, parent(), 3, (4, [1, 1, -19, -19], [G, 7, 7, G, 7, 7])


def cut_with_others():
    """Rows cut short or missing, and rates that are too high: where both are, 3 comes first."""
    yield [0, 100, 100_001], ROOM, 2, (3, [2, 2, -3], [G, G, G, HALF])
    yield [0, 100_001, 100], ROOM, 2, (3, [2, -3, -19], [G, G, 7, 7, 7])
    yield [100_001, 0, 100_001, 100], ROOM, 3, (4, [-3, 2, -3, 2], [7, 7, 7, G, G, 7, 7, 7, 7, G, HALF])
    yield [100_001, 0, 100_001, 100], ROOM, 3, (4, [-3, 2, -3, -19], [7, 7, 7, G, G, 7, 7, 7, 7, 7])
    yield [0, 100_001, 100, TOP], ROOM, 4, (4, [-19, -3, -19, -3], [7])
    yield [100_001, 0], ROOM, 2, (2, [-3, -19], [7, 7, 7])
    yield [0, TOP, 0], parent(), 1, (3, [1, -3, -19], [G, 7])
    yield [0, 100_001], ROOM, 3, (2, [2, -3], [G, G, 7, 7])
    yield [0, 100_001], ROOM, 3, (2, [2, -3], [G, G, 7, 7, 7])
    yield [0, TOP, 0], parent(), 2, (3, [1, -3, -19], [G, 7, 7])


# ---- The list of the answers ---------------------------------------------------------------------


def fewer_answers():
    """Rates without a place for their answer are not run: their rows are left, and what they are plays no part."""
    rates = [0, 100, 200]
    yield rates, ROOM, 2, (0, [], [7] * 6)
    yield rates, ROOM, 2, (1, [2], [G, G, 7, 7, 7, 7])
    yield rates, ROOM, 2, (2, [2, 2], [G, G, G, HALF, 7, 7])
    yield rates, ROOM, 2, (3, [2, 2, 2], [G, G, G, HALF, G, THIRD])
    yield rates, ROOM, 3, (2, [2, 2], [G, G, 7, G, HALF, 7, 7, 7, 7])
    yield rates, ROOM, 2, (1, [2], [G, G])
    yield rates, ROOM, 2, (2, [2, -19], [G, G, 7])
    yield [0, 100_001], ROOM, 2, (1, [2], [G, G, 7, 7])
    yield [100_001, 0], ROOM, 2, (1, [-3], [7] * 4)
    yield [100_001, 0], ROOM, 2, (0, [], [])
    yield [100] * 40, ROOM, 2, (2, [2, 2], [G, HALF, G, HALF] + [7] * 8)


def more_answers():
    """The places past the last rate's answer are left, and the rows past the last rate's."""
    yield [0, 100, 200], ROOM, 2, (3, [2, 2, 2, 7], [G, G, G, HALF, G, THIRD])
    yield [0, 100, 200], ROOM, 2, (3, [2, 2, 2, 7, 7, 7], [G, G, G, HALF, G, THIRD, 7, 7, 7, 7, 7, 7])
    yield [0, 100_001], ROOM, 2, (2, [2, -3, 7, 7], [G, G, 7, 7, 7, 7])
    yield [100], ROOM, 2, (1, [2, 7], [G, HALF, 7, 7])
    yield [100], ROOM, 3, (1, [2, 7], [G, HALF])
    yield [100, 0], ROOM, 2, (2, [2, -19, 7], [G, HALF])
    yield [0], parent(), 1, (1, [1] + [7] * 20, [G] + [7] * 20)
    yield [0, 0], branched(), 3, (2, [-19, -19, 7], [7] * 9)


def empty_lists():
    """No rates, no answers, no rows, and two or all of them."""
    yield [], ROOM, 2, (0, [], [])
    yield [], ROOM, 2, (0, [], [7, 7])
    yield [], ROOM, 2, (0, [7], [])
    yield [], ROOM, 2, (0, [7, 7, 7], [7, 7, 7, 7])
    yield [0], ROOM, 2, (0, [], [])
    yield [0], ROOM, 2, (0, [], [7, 7])
    yield [0], ROOM, 2, (1, [-19], [])
    yield [100_001], ROOM, 2, (1, [-3], [])
    yield [0, 100_001], b"", 2, (2, [-9, -3], [])
    yield [], b"", 0, (0, [], [])
    yield [], b"", 2, (0, [7], [7, 7])


# ---- Long runs -----------------------------------------------------------------------------------


def long_runs():
    """100 rates, and more than a table may have (200) or a byte can count."""
    halves = [100 * ((1 << k) - 1) for k in range(10)]
    yield halves * 10, ROOM, 2, (100, [2] * 100, [x for k in range(10) for x in (G, G >> k)] * 10)
    yield [0, 100_001] * 50, parent(), 1, (100, [1, -3] * 50, [G, 7] * 50)
    yield [100_000] * 100, parent(), 2, (100, [1] * 60 + [-19] * 40, [G, 7] * 59 + [G])
    yield [100] * 201, ROOM, 3, (201, [2] * 20 + [-19] * 181, [G, HALF, 7] * 20)
    yield [0] * 256, parent(), 1, (256, [1, 1] + [-19] * 254, [G, G])
    yield [0] * 299 + [100_001], parent(), 1, (300, [1] + [-19] * 298 + [-3], [G])
    yield [0] * 300, parent(), 1, (258, [1] + [-19] * 257, [G])
    yield [0, 0], parent(), 1, (2, [1, 1] + [7] * 300, [G, G] + [7] * 300)


PARTS = (rows_of_the_scope, orders, sizes, too_high, refused_books, factor_calls, no_width, widths, wider_than_the_list,
         cut_lists, cut_with_others, fewer_answers, more_answers, empty_lists, long_runs)


def edges():
    """(rates, book, width, answers, rows, answer): both lists as they are lent, and what the call answers and leaves
    in them."""
    for part in PARTS:
        for rates, book, width, (count, answers, rows) in part():
            yield rates, book, width, lent(len(answers)), lent(len(rows)), (count, answers, rows)


if __name__ == "__main__":
    print(__doc__)
