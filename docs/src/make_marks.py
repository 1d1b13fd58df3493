"""Recorded tables from elsewhere (document 02, R-8), each with a book: typed and from a fixed seed, and the reference's text of
`marks` for each. make_recorded.py writes them.

The count of every outcome is made too (marks_sorts.py). The same cases come out every time.
"""

import marks_bands
import marks_edges
import reference as ref
from damage import damaged_book, damaged_twice
from draws import book_of, capped_case, random_case, random_rate, thin_case
from make_tables import near_boundary
from marks_sorts import sorts
from recorded import MARKS
from recorder import Recorder
from small_books import falling

# ---- Tables as lists: a rate and the entries of each line -----------------------------------------


def text_of(lines):
    return "".join(" ".join((str(v), *entries)) + "\n" for v, entries in lines).encode("ascii")


def own_lines(rates, book_bytes):
    """What R-3 writes for the book."""
    book = ref.read_book(book_bytes)
    return [(v, [ref.entry(x) for x in ref.reported_factors(v, book)]) for v in rates]


def some_rates(rng, most=3):
    return [random_rate(rng) for _ in range(rng.between(1, most))]


def some_book(rng):
    return book_of(random_case(rng, rng.between(2, 4)))


# ---- Entries changed -----------------------------------------------------------------------------


def parts_of(entry):
    """The four digits as a whole number, and the exponent without its sign."""
    return int(entry[0] + entry[2:5]), int(entry[7:])


def formed(digits, places):
    return f"{digits // 1_000}.{digits % 1_000:03d}E{'-' if places else '+'}{places:02d}"


def by_one(rng, entry):
    """One unit of the last place up or down; zero becomes small."""
    digits, places = parts_of(entry)
    if digits == 0:
        return rng.one_of(("5.000E-04", "1.000E-03", "1.000E-12", "1.000E-99"))
    digits += rng.one_of((-1, 1))
    if digits == 999:
        return formed(9_999, min(99, places + 1))
    return formed(min(digits, 9_999), places)


def by_exponent(rng, entry):
    digits, places = parts_of(entry)
    return formed(digits, min(99, max(0, places + rng.one_of((-1, 1))))) if digits else rng.one_of(("1.000E-02", "9.999E-04"))


def by_digit(rng, entry):
    """Another digit in one place after the point, or two of them exchanged."""
    at = rng.between(2, 4)
    if parts_of(entry)[0] == 0:
        return entry
    return rng.one_of((entry[:at] + str(rng.between(0, 9)) + entry[at + 1 :], entry[:3] + entry[4] + entry[3] + entry[5:]))


def to_zero(rng, entry):
    return "0.000E+00"


CHANGES = (by_one, by_one, by_exponent, by_digit, to_zero)


def changed(rng, lines, count):
    """Some entries changed, wherever they stand."""
    for _ in range(count):
        entries = rng.one_of(lines)[1]
        at = rng.between(0, len(entries) - 1)
        entries[at] = rng.one_of(CHANGES)(rng, entries[at])
    return lines


# ---- Tables of the form --------------------------------------------------------------------------


def own_tables(rng):
    """What R-3 writes for the same book."""
    cases = [random_case(rng, n) for n in (1, 2, 3, 3, 4, 5, 9)] + [thin_case(rng), capped_case(rng)]
    books = [book_of(case) for case in cases]
    return [(text_of(own_lines(some_rates(rng), book)), book) for book in books]


def changed_tables(rng):
    made = []
    for k in range(14):
        book = some_book(rng)
        made.append((text_of(changed(rng, own_lines(some_rates(rng), book), k % 4 + 1)), book))
    book = book_of(random_case(rng, 16, 64))
    return made + [(text_of(changed(rng, own_lines(some_rates(rng), book), 3)), book)]


def other_rates(rng):
    """The entries of a rate beside the line's, of another line, or of another book."""
    made = []
    for k in range(9):
        book, rates = some_book(rng), [rng.between(1, 500) for _ in range(2)]
        of = [v + rng.one_of((-1, 1, 10)) for v in rates] if k % 3 == 0 else rates[::-1]
        entries = [entries for _, entries in own_lines(of, book)]
        if k % 3 == 2:
            case = random_case(rng, book[0])
            entries = [entries for _, entries in own_lines(rates, book_of(case))]
        made.append((text_of(zip(rates, entries)), book))
    return made


def near_ends(rng):
    """A falling chain whose factors stand at or beside half way between two entries, the intervals' tops too."""
    grains, x = [], ref.G
    for i in range(1, rng.between(2, 4)):
        step = rng.one_of((0, 0, 1, -1, -2 * i, 1 - 2 * i, -2 * i - 1))
        x = near_boundary(rng, max(1, x * 10 // rng.between(12, 180))) + step
        grains.append(x)
    return falling(*grains)


def at_an_end(rng):
    """The last member's factor, or its interval's top, is exactly half way between two entries: an odd 32nd of G."""
    i = rng.between(1, 4)
    half_way = 2 * rng.between(2, 15) + 1 << 35
    return falling(*(ref.G - k for k in range(1, i)), half_way - rng.one_of((0, 2 * i)))


def turned(rng):
    """What R-3 writes, and the same with the last entry moved by one unit of its last place."""
    made = []
    for k in range(17):
        book = near_ends(rng) if k % 2 else at_an_end(rng)
        lines = own_lines([100], book)
        made.append((text_of(lines), book))
        entries = lines[0][1]
        entries[-1] = by_one(rng, entries[-1])
        made.append((text_of(lines), book))
    return made


def points(rng):
    """Each entry that of some point in or beside the interval; where there are few grains a half unit is less than one."""
    made = []
    for _ in range(9):
        case = thin_case(rng)
        book, v = book_of(case), case.job["v"]
        factors = ref.reported_factors(v, ref.read_book(book))
        tenths = [max(1, 10 * x + rng.between(-8, 20 * i + 8)) for i, x in enumerate(factors)]
        made.append((text_of([(v, ["1.000E+00"] + [ref.entry(ref.Fraction(x, 10)) for x in tenths[1:]])]), book))
    return made


# ---- Refused -------------------------------------------------------------------------------------


def spoiled(rng, text):
    """A byte changed, dropped, doubled or put in; two lines joined; one cut off; or a rate changed."""
    at = rng.between(0, len(text) - 1)
    byte = rng.one_of((b"0", b"9", b".", b"E", b"+", b"-", b" ", b"\n", b"\r", b"\0", bytes([rng.between(128, 255)])))
    rate = rng.one_of((b"100001", b"0100", b"", b"4294967296", b"-1", b"1e2"))
    return rng.one_of((text[:at] + byte + text[at + 1 :], text[:at] + text[at + 1 :], text[: at + 1] + text[at:],
                       text[:at] + byte + text[at:], text.replace(b"\n", rng.one_of((b"", b" ", b"\r\n", b"\n\n")), 1),
                       text[:-1], text[:at], rate + text[text.index(b" ") :]))


def spoiled_tables(rng):
    made = []
    for _ in range(20):
        book = some_book(rng)
        made.append((spoiled(rng, text_of(own_lines(some_rates(rng), book))), book))
    return made


def bad_books(rng):
    """Each ground of the book, with a table of some other book, good and spoiled; and each with the next, the table spoiled."""
    made = []
    for ground in range(9, 19):
        other = some_book(rng)
        text = text_of(own_lines(some_rates(rng, 1), other))
        made += [(text, damaged_book(rng, ground)), (spoiled(rng, text), damaged_book(rng, ground))]
        if ground < 18:
            made.append((spoiled(rng, text), damaged_twice(rng, ground)))
    return made


# ---- Out -----------------------------------------------------------------------------------------


def typed():
    yield from marks_edges.edges()
    yield from marks_bands.bands()


def drawn(rng):
    made = own_tables(rng) + changed_tables(rng) + other_rates(rng) + turned(rng) + points(rng)
    return made + spoiled_tables(rng) + bad_books(rng)


def check(calls, texts):
    """What R-8 promises of each mark, and of what R-3 writes for the same book at the same rates."""
    for (text, book), said in zip(calls, texts):
        ref.check_marks(text, book)
        if not said.startswith("refused"):
            ref.check_own_table([v for v, _ in ref.read_lines(text, book[0])], book)


RECORDER = Recorder(kind=MARKS, least=3, sorts=sorts, typed=typed, drawn=drawn, seed=0x4D61726B733A38, check=check)


if __name__ == "__main__":
    print(__doc__)
