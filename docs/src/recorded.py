"""The recorded cases: one file of records, and one of what the program `recorded` must write of each.

A record is its kind (one byte), the length of its body (u32) and its body; all numbers are little-endian. By kind, the
body is

    0  a whole job, answered as by `screen`
    1  a job, answered as by `fan`
    2  the factor call: the rate (u32), how many places the lent list has (u16), the book
    3  the table call: how many bytes the lent buffer has (u32), how many rates there are (u16), the rates (u32 each),
       the book
    4  the call for periods: how many places the lent list has (u16), how many numbers there are (u16), the numbers (u32
       each), rate and minutes in turn, the book
    5  a second set and a job: how many bytes the set has (u32), the set, the job, answered as by `partner`. A set of no
       bytes is not lent. Where fewer bytes follow, the set has these, and the job none
    6  a table and a book: how many bytes the table has (u32), the table, the book, answered as by `marks`. Where fewer
       bytes follow, the table has these, and the book none
    7  the call for many rates: how many places a row has (u16), the list for the answers (u16) and that for the rows
       (u16), how many rates there are (u16), the rates (u32 each), the book

2 and 4 are answered by one line: `filled` or `refused`, how many places were filled or the refusal's number, a colon,
and what every place of the list holds after the call; each held 7 before it. 3 is answered by `written` or `refused`,
the text's length or the refusal's number, a line feed, the whole buffer after the call, every byte of which was #
before it, and a line feed. 7 is answered by one line: `run`, how many rates were run, a colon, what every place of the
answers holds after the call, a colon, and every place of the rows; each of them held 7 before it.
"""

import pathlib
import struct
import typing

PLACE = 7
BYTE = "#"

CRATE = pathlib.Path(__file__).resolve().parents[2] / "crates" / "recorded"


class Kind(typing.NamedTuple):
    """What there is to a kind of recorded case. A call is what the reference's function takes, its parts in their order."""

    number: int
    asks: str  # the reference's function for the call
    pack: typing.Callable  # the parts of a call to its body
    unpack: typing.Callable  # a body to the call's parts
    text: typing.Callable  # the answer and the parts to what is written
    end: typing.Callable  # the whole text, where an answer starts in it and the parts to where the answer ends


# ---- Bodies --------------------------------------------------------------------------------------


def one_part(body):
    return (body,)


def pack_two(first, second):
    return struct.pack("<I", len(first)) + first + second


def two_parts(body):
    """The first part, whose length stands before it, and the second."""
    (length,) = struct.unpack_from("<I", body)
    return body[4 : 4 + length], body[4 + length :]


def pack_factors(rate, book, room):
    return struct.pack("<IH", rate, room) + book


def unpack_factors(body):
    rate, room = struct.unpack_from("<IH", body)
    return rate, body[6:], room


def counted(head):
    """The packer and the unpacker of a list of numbers, a book and the room that is lent, whose head is room and count."""
    def pack(numbers, book, room):
        return struct.pack(f"{head}{len(numbers)}I", room, len(numbers), *numbers) + book

    def unpack(body):
        room, count = struct.unpack_from(head, body)
        at = struct.calcsize(head)
        return list(struct.unpack_from(f"<{count}I", body, at)), body[at + 4 * count :], room

    return pack, unpack


def lent(room):
    """A list that is lent, before the call."""
    return [PLACE] * room


def pack_rates(rates, book, width, answers, rows):
    return struct.pack(f"<4H{len(rates)}I", width, len(answers), len(rows), len(rates), *rates) + book


def unpack_rates(body):
    """The parts, with both lists as they are lent."""
    width, answers, rows, count = struct.unpack_from("<4H", body)
    rates = list(struct.unpack_from(f"<{count}I", body, 8))
    return rates, body[8 + 4 * count :], width, lent(answers), lent(rows)


# ---- Answers -------------------------------------------------------------------------------------


def text_itself(answer, *parts):
    return answer


def places_text(answer, numbers, book, room):
    """What is written of a call that was lent a list; the answer is a refusal's number or the factors."""
    if isinstance(answer, int):
        words = ["refused", answer, ":"] + lent(room)
    else:
        words = ["filled", len(answer), ":"] + answer + lent(room - len(answer))
    return " ".join(map(str, words)) + "\n"


def buffer_text(answer, numbers, book, room):
    """What is written of a call that was lent a buffer; the answer is a refusal's number or a text."""
    if isinstance(answer, int):
        return f"refused {answer}\n{BYTE * room}\n"
    return f"written {len(answer)}\n{answer.ljust(room, BYTE)}\n"


def lists_text(answer, *parts):
    """What is written of a run: how many rates were run, and both lent lists after the call."""
    count, answers, rows = answer
    return " ".join(map(str, ["run", count, ":", *answers, ":", *rows])) + "\n"


def line_end(text, at, *parts):
    return text.index("\n", at) + 1


def report_end(text, at, *parts):
    """A report ends with the line of its working levels, a refusal with its own."""
    return line_end(text, at if text.startswith("refused", at) else text.index("\nworking ", at) + 1)


def partner_end(text, at, *parts):
    """After the report comes the line of the lowest rate."""
    end = report_end(text, at)
    return end if text.startswith("refused", at) else line_end(text, end)


def marks_end(text, at, *parts):
    """Three counts, and the line of the first wrong entry; or a refusal's own line."""
    return line_end(text, at if text.startswith("refused", at) else text.index("\nfirst ", at) + 1)


def buffer_end(text, at, numbers, book, room):
    return line_end(text, at) + room + 1


# ---- The kinds -----------------------------------------------------------------------------------

JOB = Kind(0, "answer", bytes, one_part, text_itself, report_end)
LOWEST = Kind(1, "fan_answer", bytes, one_part, text_itself, line_end)
FACTORS = Kind(2, "factor_call", pack_factors, unpack_factors, places_text, line_end)
TABLE = Kind(3, "table_call", *counted("<IH"), buffer_text, buffer_end)
OPENING = Kind(4, "opening_call", *counted("<HH"), places_text, line_end)
PARTNER = Kind(5, "partner_answer", pack_two, two_parts, text_itself, partner_end)
MARKS = Kind(6, "marks_answer", pack_two, two_parts, text_itself, marks_end)
RATES = Kind(7, "rates_call", pack_rates, unpack_rates, lists_text, line_end)

table_call = TABLE.unpack  # the Python package's tests take recorded tables apart by this name


def answers_of(kind, reference):
    """The reference as a function from a body to what must be recorded of it."""
    call = getattr(reference, kind.asks)

    def answer(body):
        parts = kind.unpack(body)
        return kind.text(call(*parts), *parts)

    return answer


# ---- The two files -------------------------------------------------------------------------------


def record(kind, body):
    return struct.pack("<BI", kind.number, len(body)) + body


def read_records(data):
    """The kind's number and the body of each record."""
    at = 0
    while at < len(data):
        number, length = struct.unpack_from("<BI", data, at)
        start, at = at + 5, at + 5 + length
        assert at <= len(data), "the last record is whole"
        yield number, data[start:at]


def read_cases(wanted, stdin=CRATE / "stdin", stdout=CRATE / "stdout"):
    """The body and the answer of each case of one kind. Both files are read to their ends: no case lacks an answer."""
    kinds = {kind.number: kind for kind in (JOB, LOWEST, FACTORS, TABLE, OPENING, PARTNER, MARKS, RATES)}
    text, at, cases = pathlib.Path(stdout).read_text(encoding="ascii"), 0, []
    for number, body in read_records(pathlib.Path(stdin).read_bytes()):
        kind = kinds[number]
        start, at = at, kind.end(text, at, *kind.unpack(body))
        if kind is wanted:
            cases.append((body, text[start:at]))
    assert cases and at == len(text), "each case has an answer"
    return cases


if __name__ == "__main__":
    print(__doc__)
