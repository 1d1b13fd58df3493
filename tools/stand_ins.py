"""What the programs write, as the reference has it, for the tests where the programs are not built.

Each takes the words after the program's name: `screen` and `fan` none, with the job on standard input, `partner` the file of a
second set, with the job there too or in another file, the others the file of a book and then numbers.
"""

import struct
import sys

import reference


def screen(_words):
    return reference.answer(sys.stdin.buffer.read())


def fan(_words):
    return reference.fan_answer(sys.stdin.buffer.read())


JOB, HEAD, MEMBER, HALF_LIFE, NUMBERS = 48, 8, 32, 8, 20  # bytes of each
MOST_MEMBERS, HIGHEST = 16, 2**32 - 1


def with_second(job, second):
    """The job with the second set written over its book's own numbers."""
    data = bytearray(job)
    for i in range(len(second) // NUMBERS):
        at = JOB + HEAD + MEMBER * i + HALF_LIFE
        data[at : at + NUMBERS] = second[NUMBERS * i :][:NUMBERS]
    return bytes(data)


def partner_answer(second, job):
    """The job is looked at first, its own numbers too, and the set only if the job is well."""
    own = reference.answer(job)
    if own.startswith("refused"):
        return own
    if len(second) != NUMBERS * job[JOB] or max(struct.unpack(f"<{len(second) // 4}I", second)) > reference.MOST:
        return "refused 23\n"
    used = with_second(job, second)
    return "set 2\n" + reference.answer(used) + reference.fan_answer(used)


def partner(words):
    name, *job = words
    second = bytes_in(name)
    if not second:
        sys.exit("partner: the set is empty")
    return partner_answer(second, bytes_in(*job) if job else sys.stdin.buffer.read())


def numbers(words):
    return [int(word) for word in words]


def bytes_in(name):
    with open(name, "rb") as file:
        return file.read()


def table(words):
    said = reference.table_call(numbers(words[1:]), bytes_in(words[0]), 10**6)
    return said if isinstance(said, str) else f"refused {said}\n"


def marks(words):
    book, table = words
    return reference.marks_answer(bytes_in(table), bytes_in(book))


def portfolio_lines(rates, book):
    """A line for each rate: each member's factor, or the number of the refusal."""
    for rate in rates:
        said = reference.factor_call(rate, book, MOST_MEMBERS)
        yield f"{rate} refused {said}\n" if isinstance(said, int) else f"{' '.join(map(str, [rate, *said]))}\n"


def portfolio(words):
    first, last, step = (min(number, HIGHEST) for number in numbers(words[1:]))
    return "".join(portfolio_lines(range(first, last + 1, step), bytes_in(words[0])))


def opening(words):
    name, *words = words
    book, every = bytes_in(name), None
    if words[-2:-1] == ["every"]:
        *words, _, every = words
    periods = numbers(words)
    said = reference.opening_lines(periods, book)
    if every is None or said.startswith("refused"):
        return said
    if int(every) > sum(periods[1::2]):
        sys.exit(f"opening: every {every}: the periods have {sum(periods[1::2])} minutes, so there is no such line")
    return reference.opening_every(periods, int(every), reference.read_book(book))
