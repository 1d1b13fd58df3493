"""docs/FORMAT.md against the packer and the reference: its dumps, texts and offsets, its concentrations, its entries of a
table and what such entries are read back as, its lines and rows of many rates.

    test_format.py
"""

import math
import pathlib
import re
import struct
from fractions import Fraction

import reference as ref
from packing import bits, pack_book, pack_feed, pack_job, pack_member, pack_numbers
from plain_help import answer_help
from small_books import T1, daughter
from tally import run_tests, say_passed

PAGE = pathlib.Path(__file__).resolve().parents[1].joinpath("FORMAT.md").read_text(encoding="utf-8")
JOB = pack_job(unit=0, target=1_610, value=bits(1.0)) + pack_book([pack_member(330_350_400_000_000, inhalation_risk=1_000)], [])
SECOND = pack_numbers(inhalation_risk=2_000)


def dump_lines(data):
    """The lines that `xxd` prints."""
    for at in range(0, len(data), 16):
        row = data[at : at + 16]
        pairs = " ".join(row[i : i + 2].hex() for i in range(0, len(row), 2))
        text = "".join(chr(byte) if 32 <= byte < 127 else "." for byte in row)
        yield f"{at:08x}: {pairs:<39}  {text}"


def indented(lines):
    return "".join(f"    {line}\n" for line in lines)


def tables():
    """For each table of the page, its rows as (offset, size)."""
    made = []
    for line in PAGE.splitlines():
        if line.startswith("| offset "):
            made.append([])
        row = re.match(r"\| (\d+) \| (\d+) \|", line)
        if row:
            made[-1].append((int(row[1]), int(row[2])))
    return made


def test_dumps():
    assert len(JOB) == 48 + 40
    for data in (JOB, SECOND):
        assert indented(dump_lines(data)) in PAGE, indented(dump_lines(data))


def test_texts():
    for text in (ref.answer(JOB), ref.partner_answer(SECOND, JOB)):
        assert "\n\n" + indented(text.splitlines()) + "\n" in PAGE, text


def test_offsets():
    """The fields of each table follow one another, and have the sizes that the packer gives them."""
    packed = [("<IBBBBIIQQ8H", pack_job()), ("<BBH4s", pack_book([], [])), ("<Q5IB3s", pack_member(1)), ("<IBB2s", pack_feed(1, 0)),
              ("<5I", pack_numbers())]
    assert len(tables()) == len(packed)
    for rows, (form, data) in zip(tables(), packed):
        assert [offset for offset, _ in rows] == [sum(size for _, size in rows[:i]) for i in range(len(rows))]
        assert sum(size for _, size in rows) == struct.calcsize(form) == len(data)
        assert [size for _, size in rows] == field_sizes(form)


def concentration(medium, reading, unit, attenuation):
    """What the reference reports of a reading without uncertainty."""
    job = pack_job(medium=medium, unit=unit, AF=attenuation, value=bits(reading)) + pack_book([pack_member(1)], [])
    (found,) = re.findall("^concentration (.*)$", ref.answer(job), re.MULTILINE)
    return int(found)


def number(written):
    return Fraction(written.replace(",", ""))


def test_concentrations():
    """Each line of a reading: the reference has its concentration, and its product is as it says, rounded up."""
    media, units = ("indoor air", "soil gas", "groundwater"), ("pCi/L", "pCi/m³", "Bq/m³")
    rows = re.findall(rf"^\| ({'|'.join(media)}) \| (\S+) (\S+) \| (\S+) \| (.*) \| (\S+) \|$", PAGE, re.MULTILINE)
    assert [row[0] for row in rows] == [*media, "groundwater"]
    for medium, reading, unit, attenuation, product, found in rows:
        assert math.ceil(math.prod(number(part) for part in product.split(" × "))) == number(found)
        fields = media.index(medium), float(number(reading)), units.index(unit), int(number(attenuation))
        assert concentration(*fields) == number(found)
    assert "× 4.34 ×" in rows[2][4]


def test_entries():
    """Each factor is printed as the page says, and the longest table has the length that it says."""
    shown = re.findall(r"^\| ([\d,]+) \| \S+ \| (\S{9}) \|$", PAGE, re.MULTILINE)
    assert len(shown) == 6
    for grains, printed in shown:
        assert ref.entry(int(grains.replace(",", ""))) == printed, grains
    members = [pack_member(1)] + [pack_member(1, first=i) for i in range(1, 16)]
    longest = ref.table_call([100_000] * 200, pack_book(members, [pack_feed(1, 0)] * 15), 40_000)
    assert len(longest) == 33_400 and "than 33,400 bytes" in PAGE


def exact(written):
    """Such as 5 × 10^-103."""
    powers = (part.partition("^") for part in written.split(" × "))
    return math.prod(Fraction(base) ** int(power or 1) for base, _, power in powers)


def test_read_back():
    """Nine characters are read as the page says, and each form that it says is none is refused."""
    rows = re.findall(r"^\| (\d\.\d{3}E[+-]\d\d) \| (\S+) \| (.+) \|$", PAGE, re.MULTILINE)
    assert len(rows) == 5
    for characters, share, half in rows:
        printed = ref.read_entry(characters.encode())
        assert (printed.share, printed.unit / 2) == (exact(share), exact(half)), characters
    none = re.search("Anything else has not the form: (.*), a carriage return", PAGE, re.DOTALL)[1]
    line = f"0 {rows[1][0]}\n"
    book = pack_book([pack_member(1)], [])
    assert ref.marks_answer(line.encode(), book) == "right 1\nclose 0\nwrong 0\nfirst none\n"
    assert len(re.findall("`(.{9})`", none)) == 4
    for word in re.findall("`(.{9})`", none):
        assert ref.marks_answer(line.replace(rows[1][0], word).encode(), book) == "refused 24\n", word


def at_many_rates(rates, book, width, answers, rows):
    """Puts into the two lists what the factor call answers and leaves, and says for how many rates."""
    for k, (rate, _) in enumerate(zip(rates, answers)):
        said = ref.factor_call(rate, book, len(rows[k * width :][:width]))
        if isinstance(said, int):
            answers[k] = -said
        else:
            answers[k] = len(said)
            rows[k * width : k * width + len(said)] = said
    return min(len(rates), len(answers))


def places(name):
    """The numbers of a list of the example of rows."""
    return [int(word) for word in re.search(rf"^\| {name} \| ([\d -]+) \|$", PAGE, re.MULTILINE)[1].split()]


def test_rows():
    """The example's answers and rows are what the factor call answers and leaves, rate by rate."""
    width = int(re.search(r"a width of (\d+), three places for answers and 7 for rows", PAGE)[1])
    answers, rows = places("answers before"), places("rows before")
    assert (len(answers), len(rows)) == (3, 7)
    assert at_many_rates(places("rates"), daughter(T=T1), width, answers, rows) == 3
    assert (answers, rows) == (places("answers after"), places("rows after"))


def line_of(rate, book):
    said = ref.factor_call(rate, book, 16)
    return f"{rate} refused {said}" if isinstance(said, int) else " ".join(map(str, [rate, *said]))


def test_lines():
    """Each rate has the line that the page says, and the longest line has the length that it says."""
    shown = re.findall(r"^\| ([\d,]+) \| `(.*)` \|$", PAGE, re.MULTILINE)
    assert [rate for rate, _ in shown] == ["0", "100", "100,000", "100,001"] and f"{T1:,} ns" in PAGE
    for rate, line in shown:
        assert line_of(int(rate.replace(",", "")), daughter(T=T1)) == line, rate
    for n in (1, 2, 16):
        line = line_of(100_000, pack_book([pack_member(1)] + [pack_member(1, first=k) for k in range(1, n)],
                                          [pack_feed(100_000, k) for k in range(n - 1)]))
        assert len(line) + 1 == 14 * n + 7 and "at most 14 n + 7 characters" in PAGE


def field_sizes(form):
    """The size of each field of a form of `struct`."""
    sizes = []
    for count, letter in re.findall(r"(\d*)([A-Za-z])", form):
        size = struct.calcsize("<" + letter)
        sizes += [int(count)] if letter == "s" else [size] * int(count or 1)
    return sizes


def main():
    answer_help(__doc__)
    say_passed(run_tests(globals()))


if __name__ == "__main__":
    main()
