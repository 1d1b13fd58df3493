"""How many recorded runs of many rates there are of each sort (document 02, R-9): rows by what was answered, runs by
their answers and their lists, rows by their width, and the rows that the list's end cuts short.
"""

import typing


class Run(typing.NamedTuple):
    """A call, and what was answered for the rates that were run."""

    rates: list
    book: bytes
    width: int
    places: int  # for the answers
    room: int  # for the rows
    said: list


class Row(typing.NamedTuple):
    width: int
    n: int  # members of its book
    answer: int


def runs_of(calls, answers):
    return [Run(rates, book, width, len(lent_answers), len(rows), said[:count])
            for (rates, book, width, lent_answers, rows), (count, said, _) in zip(calls, answers)]


def how_many(items, tests):
    return {name: sum(map(test, items)) for name, test in tests.items()}


def by_answer(said):
    """Rows."""
    refused = {f"rows refused {number}": said.count(-number) for number in (3, *range(9, 20))}
    return {"rows filled": sum(answer > 0 for answer in said)} | refused


OF_RUNS = {
    "no rate run": lambda run: run.said == [],
    "every row filled": lambda run: run.said != [] and min(run.said) > 0,
    "rows filled and rows refused": lambda run: run.said != [] and min(run.said) < 0 < max(run.said),
    "every row refused": lambda run: run.said != [] and max(run.said) < 0,
    "rows refused for two grounds": lambda run: len({answer for answer in run.said if answer < 0}) > 1,
    "no rates": lambda run: run.rates == [],
    "100 rates and more": lambda run: len(run.rates) >= 100,
    "rates that fall": lambda run: run.rates != sorted(run.rates),
    "a rate again": lambda run: len(set(run.rates)) < len(run.rates),
    "fewer answers than rates": lambda run: run.places < len(run.rates),
    "more answers than rates": lambda run: run.places > len(run.rates),
    "places past the last row": lambda run: run.room > run.width * len(run.rates),
    "rows missing": lambda run: run.room <= run.width * (len(run.rates) - 1),
}


def by_width(runs):
    """The rows of good books, filled or refused with 19."""
    rows = [Row(run.width, run.book[0], answer) for run in runs for answer in run.said if answer > 0 or answer == -19]
    return how_many(rows, {
        "rows of no places": lambda row: row.width == 0,
        "rows of too few places": lambda row: 0 < row.width < row.n,
        "filled rows of n places": lambda row: row.width == row.n == row.answer,
        "filled rows of more places": lambda row: row.width > row.n == row.answer,
        "rows of n places or more, cut short or missing": lambda row: row.width >= row.n and row.answer == -19,
        "filled rows of the gas alone": lambda row: row.answer == 1,
        "filled rows of 16 members": lambda row: row.answer == 16,
    })


def cut_short(runs):
    """The row within which the list ends."""
    rows = [run.said[run.room // run.width] for run in runs
            if run.width > 0 and run.room % run.width > 0 and run.room // run.width < len(run.said)]
    return how_many(rows, {"rows cut short and filled": lambda answer: answer > 0,
                           "rows cut short and refused 19": lambda answer: answer == -19,
                           "rows cut short and refused 3": lambda answer: answer == -3})


def sorts(calls, answers):
    runs = runs_of(calls, answers)
    rows = by_answer([answer for run in runs for answer in run.said])
    return rows | how_many(runs, OF_RUNS) | by_width(runs) | cut_short(runs)


if __name__ == "__main__":
    print(__doc__)
