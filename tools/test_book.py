"""The text form: its bytes, round trips, mistakes and grounds; then the other tests of this folder.

    test_book.py

Every recorded job that has a text must come back from it byte for byte, and the ground that is foreseen for it must be
the reference's.
"""

import pathlib
import random
import re
import struct
import sys
from fractions import Fraction

import test_command
import test_files
import test_messages
import test_second_set
import test_shares
import test_target
from samples import ALONE, RADON, accounted, changed, foreseen, mistake_of, noted, warned
from textform import remarks
from textform.chain import COEFFICIENTS
from textform.decode import decode, group_lines
from textform.encode import encode
from textform.half_life import NANOSECONDS, half_life
from textform.hours import hours_text, quarters_of
from textform.second_set import read_set, set_bytes
from textform.text import EXPOSURES, KINDS, LARGER_UNITS, LINE_WORDS, MEDIA, UNITS, Group, Text, groups_of, read_text
from textform.words import Mistake, number_of, reading, reading_text

HERE = pathlib.Path(__file__).resolve().parent
sys.path.insert(0, str(HERE.parent / "docs" / "src"))
import recorded  # noqa: E402
import reference  # noqa: E402  (the check from outside, for what screen refuses)
import test_looks_wrong  # noqa: E402
import test_readings  # noqa: E402
from tally import run_tests, say_passed  # noqa: E402

# ---- Bytes and round trips ----------------------------------------------------------------------


def test_bytes():
    """Every field in its place, by hand."""
    data = encode(RADON)
    head = struct.pack("<IBBBBIIdd", 18, 0, 0, 0, 0, 1_610, 1_000_000, 4.0, 0.5)
    groups = struct.pack("<8H", 350, 6, 96, 10, 350, 20, 96, 20)  # 24 hours are 96 quarters
    members = struct.pack("<Q5IBBBB", 330_350_400_000_000, 0, 0, 0, 0, 0, 0, 0, 0, 0)
    members += struct.pack("<Q5IBBBB", 186_000_000_000, 1_000, 0, 0, 0, 61_134, 1, 0, 0, 0)
    members += struct.pack("<Q5IBBBB", 1_608_000_000_000, 0, 7, 0, 0, 0, 2, 0, 0, 0)
    feeds = struct.pack("<IBBBB", 100_000, 0, 0, 0, 0) + struct.pack("<IBBBB", 99_980, 1, 0, 0, 0)
    assert data == head + groups + struct.pack("<BBHI", 3, 2, 1_000, 0) + members + feeds


def test_round_trip():
    data = encode(RADON)
    text = decode(data)
    assert encode(text) == data
    assert decode(encode(text)) == text
    alone = decode(data[48:])
    assert encode(alone) == data[48:]


def test_numbers_and_order():
    """Feed numbers and the order of a chain both survive."""
    shuffled = ALONE + "feed 1 from 0 into A number 2\nfeed 2 from 0 into A number 3\nfeed 3 from 0 into 1 number 1\n"
    data = encode(accounted(shuffled))
    assert data[8 + 32 + 28] == 2  # first
    assert [data[8 + 64 + 8 * k + 5] for k in range(3)] == [0, 3, 1]  # next
    assert encode(decode(data)) == data
    assert "number 3" in decode(data)


def test_line_ends():
    """A text from any editor: line feeds, carriage returns or both, and the same line numbers."""
    for end in ("\r\n", "\r"):
        assert encode(RADON.replace("\n", end)) == encode(RADON)
        assert mistake_of(encode, changed("value 4.0", "value x").replace("\n", end)).startswith("line 7:")


def test_half_lives():
    for word, expected in (("2.99E-7s", 299), ("1.781E-3s", 1_781_000), ("10.64h", 38_304 * 10**9), ("1_000us", 10**6)):
        assert half_life(word, 1) == expected


def test_both_forms_fit():
    """A job whose rate looks like a book's counts: the tool asks instead of guessing."""
    text = changed("rate 18", "rate 514")
    data = encode(accounted(text[: text.index("member Po-218")]))  # parent alone: 88 bytes, and 8 + 32 * 2 + 8 * 2 too
    assert "--book or --job" in mistake_of(decode, data)
    assert encode(decode(data, "job")) == data


def test_names():
    """Names come back from a text of the same chain, and from no other."""
    data = encode(RADON)
    text = decode(data, None, RADON)
    assert "member Po-218 half-life 3.1m" in text and "feed 99980 from Po-218 into 2" in text
    assert encode(text) == data
    for other, part in ((changed("3.10m", "3.11m"), "line 14: is of another chain: its member 1"), (ALONE, "it has 2 members")):
        assert part in mistake_of(decode, data, None, other)


# ---- Readings: never below what was typed -------------------------------------------------------


def typed(word):
    return number_of(reading(word, "value", "pCi/L", 1))


def test_typed_decimals():
    """The smallest f64 not below the decimal: 0.3, whose nearest is below it, becomes the next one above."""
    assert typed("0.3") == Fraction(0.30000000000000004) > Fraction(3, 10) > Fraction(0.3)
    assert typed("0.4") == Fraction(0.4) and typed("4") == 4 and typed("1e-400") == Fraction(5e-324)
    chance = random.Random(1)
    for _ in range(2_000):
        word = f"{chance.randrange(10 ** chance.randrange(1, 20))}e{chance.randrange(-30, 10)}"
        found = typed(word)
        assert found >= Fraction(word)
        assert found == 0 or number_of(reading(word, "value", "pCi/L", 1) - 1) < Fraction(word)


def test_readings_round_trip():
    chance = random.Random(2)
    infinity, minus_zero = 0x7FF << 52, 1 << 63
    edges = [0, 1, 2, 1 << 52, minus_zero, minus_zero + 1, infinity - 1, infinity, infinity + 1, (1 << 64) - 1, 0x3FB999999999999A]
    powers = [exponent << 52 for exponent in range(0x7FF)]
    for raw in edges + powers + [chance.randrange(1 << 64) for _ in range(2_000)]:
        assert reading(reading_text(raw), "value", "pCi/L", 1) == raw
    assert reading_text(reading("0.3", "value", "pCi/L", 1)) == "0.3"


def test_signs():
    """A minus survives, so that screen sees it, and minus zero too."""
    for word in ("-0", "-4.0", "-0.1", "-1e-400"):
        assert reading(word, "value", "pCi/L", 1) >> 63 == 1
    assert number_of(reading("-0.1", "value", "pCi/L", 1)) >= Fraction(-1, 10)


# ---- What she has -------------------------------------------------------------------------------


def test_rates():
    for words in ("18 hundredths", "0.18 per hour", ".18 per hour", "0.180 per hour", "18e-2 per hour"):
        assert encode(changed("rate 18", f"rate {words}")) == encode(RADON), words


def test_exposures():
    groups = "child 350 6 24 10\nadult 350 20 24 20\n"
    assert encode(changed(groups, "exposure residential\n")) == encode(RADON)
    worker = encode(changed(groups, "exposure worker\n"))
    assert worker == encode(changed(groups, "child 0 0 0 0\nadult 250 25 8 60\n"))
    assert struct.unpack_from("<8H", worker, 32) == (0, 0, 0, 0, 250, 25, 32, 60)
    assert encode(decode(worker)) == worker
    assert "exposure worker  # child 0 0 0 0, adult 250 25 8 60\n" in decode(worker)
    assert "exposure residential  # child 350 6 24 10, adult 350 20 24 20\n" in decode(encode(RADON))


# ---- Hours: whole quarters, as people say them --------------------------------------------------


def with_hours(said):
    return changed("adult 350 20 24 20", f"adult 250 25 {said} 60")


def test_hours():
    """The field holds quarter hours, by whichever form they are said."""
    for said, quarters, back in (
        (("7.75", "7:45", "7 h 45", "7h45", "7h 45", "7.750"), 31, "7:45"),
        (("7.5", "7:30", "7 h 30", "07:30"), 30, "7:30"),
        (("8", "8.0", "8:00", "8 h 00", "8 h 0"), 32, "8"),
        ((".25", "0.25", "0:15", "0 h 15"), 1, "0:15"),
        (("24", "24:00", "24 h 00"), 96, "24"),
        (("16383.75", "16383:45"), 65_535, "16383:45"),
    ):
        for words in said:
            data = encode(with_hours(words))
            assert struct.unpack_from("<4H", data, 40) == (250, 25, quarters, 60), words
        assert f"adult 250 25 {back} 60\n" in decode(data) and encode(decode(data)) == data


def test_hours_round_trip():
    """Every number that the field can hold, in either group."""
    for quarters in range(1 << 16):
        groups = (Group(350, 6, quarters, 10), Group(350, 20, 65_535 - quarters, 20))
        assert groups_of(Text("\n".join(group_lines(*groups)))) == groups
        assert quarters_of([hours_text(quarters)], "adult", 1) == quarters


def test_hours_refused():
    """What is no quarter is never rounded, and what is left out never made up for by the next number."""
    for words, part in (
        ("7.8", "7.8: whole quarter hours, so 7.75 or 8 (7:45 or 8:00); the longer one errs on the safe side"),
        ("7:50", "7:50: whole quarter hours, so 7.75 or 8 (7:45 or 8:00)"),
        ("7 h 10", "7 h 10: whole quarter hours, so 7 or 7.25 (7:00 or 7:15)"),
        ("7 h 5", "7 h 5: whole quarter hours, so 7 or 7.25 (7:00 or 7:15)"),
        ("7.45", "7.45: whole quarter hours, so 7.25 or 7.5 (7:15 or 7:30); the longer one errs on the safe side; "
                 "7 hours 45 minutes are 7:45"),
        ("1e-99", "1e-99: whole quarter hours, so 0 or 0.25 (0:00 or 0:15)"),
        ("23.9", "23.9: whole quarter hours, so 23.75 or 24 (23:45 or 24:00)"),
        ("24.1", "24.1: at most 24"),
        ("16384", "16384: at most 24"),
        ("16383:59", "16383:59: at most 24"),
        ("1e99", "1e99: at most 24"),
        (f"{'9' * 50}:45", "a number has at most 40 characters"),
        ("7,75", "7,75: hours such as 8, 7.75, 7:45 or 7 h 45; after : or h stand the minutes, 00, 15, 30 or 45, without commas"),
        *((words, f"{words}: hours such as") for words in ("7:5", "7:60", "7:450", "7:4x", ":45", "7:", "7.5:30", "-7", "7 45")),
        *((words, f"{words}: hours such as") for words in ("7 h", "7h", "h 45", "7 h 60", "7 h 45 min", "7 h 45 0", "h")),
    ):
        assert mistake_of(encode, with_hours(words)).startswith("line 10: adult, hours per day, "), words
        assert part in mistake_of(encode, with_hours(words)), words
    for rest in ("250 25 7 h 45", "250 25 7h 45", "250 25 7h45", "250 7 h 45 60", "250 25 7:45", "25 7:45 60", "250 7:45 25 60"):
        assert mistake_of(encode, changed("adult 350 20 24 20", f"adult {rest}")).startswith("line 10: adult"), rest


def test_hours_warned():
    """Over 24 the bytes can be written, and the warning speaks of hours too."""
    for words in ("24.25", "24:15", "24 h 15"):
        text = with_hours(words)
        assert encode(text)[44:46] == bytes((97, 0))
        assert remarks.grounds(*read_text(text)) == [(6, 10, "adult, hours per day, 24:15: at most 24")]
    assert foreseen(with_hours("24")) == foreseen(with_hours("24:00")) == []
    child = changed("child 350 6 24 10", "child 350 6 25 10")
    assert remarks.grounds(*read_text(child)) == [(6, 9, "child, hours per day, 25: at most 24")]


# ---- Mistakes -----------------------------------------------------------------------------------


def test_every_coefficient_is_stated():
    """One left out would count as 0, and could clear a room."""
    for old, part in (
        ("inhalation-risk 1000 ", "Po-218 has no inhalation-risk (whole 10^-17 per pCi)"),
        ("weight 61_134", "Po-218 has no weight"),
        ("submersion-risk 7 ", "member 2 has no submersion-risk (whole 10^-17 per year"),
    ):
        assert part in mistake_of(encode, changed(old, ""))
    assert mistake_of(encode, changed("inhalation-risk 1000 ", "")).startswith("line 14: Po-218 has no inhalation-risk")
    assert "Rn-222 has no inhalation-dose" in mistake_of(encode, changed("kind risk ", "kind dose "))
    assert "Rn-222 has no inhalation-dose" in mistake_of(encode, RADON[RADON.index("divisor") :])


def test_mistakes():
    """Each names its line, the unit expected and what was read."""
    for old, new, line, part in (
        ("rate 18", "rate 0.18", 1, "rate 0.18: whole hundredths per hour, so 18"),
        ("rate 18", "rate 18.5", 1, "rate 18.5: whole hundredths per hour"),
        ("target 1_610", "target 1610.5", 5, "target 1610.5: whole billionths of risk"),
        ("rate 18", "rate 0.185 per hour", 1, "no more than two decimals"),
        ("rate 18", "rate 0.18 an hour", 1, "rate 0.18 an hour: whole hundredths per hour"),
        ("rate 18", "rate 1,800", 1, "without commas"),
        ("rate 18", "rate 4294967296", 1, "at most 4,294,967,295"),
        ("rate 18", "rate 99999999 per hour", 1, "at most 4,294,967,295"),
        ("rate 18", f"rate {'1' * 5_000}", 1, "(5,000 characters): a number has at most 40 characters"),
        ("rate 18", "rate", 1, "nothing stands after it"),
        ("rate 18", "rate \u0661", 1, "rate \\u0661: whole hundredths"),
        ("rate 18", "speed 18", 1, "not with speed"),
        ("kind risk ", "kind hazard ", 2, "kind hazard: one of risk, dose"),
        ("medium indoor-air", "rate 4", 3, "already given in line 1"),
        ("medium indoor-air", "medium indoor air", 3, "medium indoor air: one word, without a space, so indoor-air"),
        ("unit pCi/L", "unit pCi / L", 4, "so pCi/L"),
        ("target 1_610\n", "", 1, "no line for target"),
        ("target 1_610", "target 0.000001", 5, "target 0.000001: whole billionths of risk, so 1000"),
        ("attenuation 1_000_000", "attenuation 0.03", 6, "attenuation 0.03: whole millionths, so 30000"),
        ("value 4.0", "value four", 7, "value four: a decimal number of pCi/L"),
        ("value 4.0", "value 4.0 pCi/L", 7, "value 4.0 pCi/L: a decimal number of pCi/L (its unit is the line 'unit'), alone"),
        ("value 4.0", "value 4,0", 7, "without commas"),
        ("value 4.0", "value 1e999", 7, "too large"),
        ("value 4.0", "value 1.7976931348623158e308", 7, "too large"),
        ("value 4.0", "value 1e9999", 7, "exponent at most three digits"),
        ("value 4.0", "value nan", 7, "decimal"),
        ("child 350 6 24 10", "child 350 6 24", 9, "4 numbers, days per year"),
        ("child 350 6 24 10", "child 350 6.5 24 10", 9, "child, years, 6.5: a whole number"),
        ("child 350 6 24 10", "exposure worker", 10, "adult: line 9 gives both groups by name"),
        ("child 350 6 24 10\nadult 350 20 24 20", "exposure home", 9, "exposure home: residential or worker"),
        ("divisor 1_000", "divisor 65536", 12, "divisor 65536: whole tenths of pCi/L, at most 65,535"),
        ("half-life 3.8235d", "half-life 3.8235w", 13, "half-life 3.8235w: a number and its unit"),
        ("half-life 3.8235d", "half-life 0.5ns", 13, "whole number of nanoseconds"),
        ("half-life 3.8235d", "half-life 1e30000000s", 13, "half-life 1e30000000: a number has at most 40"),
        ("half-life 3.8235d", "half-life 1e300s", 13, "at most 18,446,744,073,709,551,615"),
        ("half-life 3.8235d ", "", 13, "member Rn-222: needs a half-life"),
        ("half-life 3.10m", "half-life 3.10 m", 14, "half-life 3.10 m: without a space, so 3.10m"),
        ("half-life 3.10m", "half-life 3.10 min", 14, "half-life 3.10 min: a number and its unit"),
        ("member Po-218", "member Rn-222", 14, "there is one already, in line 13"),
        ("inhalation-risk 1000", "inhaled 1000", 14, "no inhaled"),
        ("inhalation-risk 1000", "weight 1000", 14, "twice"),
        ("weight 61_134", "weight", 14, "weight: no number stands after it"),
        ("from Rn-222", "from Rn-220", 16, "from Rn-220: no member line has this name"),
        ("into 2", "into 2.5", 17, "into 2.5: no member line has this name"),
        ("feed 99_980", "feed 0.9998", 17, "feed 0.9998: whole hundred-thousandths, so 99980"),
        ("into 2", "into 3", 17, "into 3: the members are 0 to 2"),
        ("into 2", "to 2", 17, "a feed line is"),
        ("into 2", "into 2 number 2", 16, "needs one too"),
    ):
        found = mistake_of(encode, changed(old, new))
        assert found.startswith(f"line {line}:") and part in found, found
        assert "so" in part or not re.search(r", so [0-9]", found), f"a guess: {found}"
    assert "divisor" in mistake_of(encode, "member half-life 1ns")


def test_bad_bytes():
    good = encode(RADON)[48:]
    for at, byte, part in ((4, 1, "head"), (8 + 29, 1, "member 0"), (8 + 96 + 6, 1, "feed 1"), (8 + 28, 2, "twice"),
                           (8 + 32 + 28, 0, "never"), (8 + 32 + 28, 3, "leads to feed 3"), (8 + 96 + 4, 3, "from member 3")):
        bad = bytearray(good)
        bad[at] = byte
        assert part in mistake_of(decode, bytes(bad)), part
    assert "neither" in mistake_of(decode, b"")


def test_any_text():
    """Whatever the text and whatever the bytes: an answer or a mistake, and nothing else."""
    chance = random.Random(3)
    words = RADON.split() + ["\n", "0", "1e9", "-", "_", ".", "\0", "\ud7ff", "\u00a0", "#", "16", "exposure", "number", "9" * 90]
    words += ["h", "7:45", "7.8", "7h", ":"]
    for _ in range(2_000):
        lines = RADON.split("\n")
        for _ in range(chance.randrange(1, 4)):
            lines[chance.randrange(len(lines))] = " ".join(chance.choices(words, k=chance.randrange(7)))
        try:
            text = "\n".join(lines)
            answer = foreseen(text), noted(text), warned(text)
        except Mistake as mistake:
            answer = mistake
        assert answer is not None
        try:
            decode(chance.randbytes(chance.choice((8, 40, 48, 88, 136))))
        except Mistake:
            pass


# ---- Warnings and notes -------------------------------------------------------------------------


def refused(data):
    """The ground that the reference refuses for, or None."""
    said = reference.answer(data).split()
    return int(said[1]) if said[0] == "refused" else None


def test_grounds_foreseen():
    """Both edges of each limit that a text can pass, with its line; the reference agrees with the first."""
    assert foreseen(RADON) == [] and refused(encode(RADON)) is None
    soil, water = changed("medium indoor-air", "medium soil-gas"), changed("medium indoor-air", "medium groundwater")
    member = "member half-life 1ns inhalation-risk 0 submersion-risk 0 weight 0\n"
    many = "".join(f"{member}feed 1 from 0 into {i}\n" for i in range(3, 17))
    half = changed("feed 100_000", "feed 50_000")
    for text, ground, line in (
        (changed("kind risk ", "kind 2 ").replace("weight", "inhalation-dose 0 submersion-dose 0 weight"), 2, 2),
        (changed("medium indoor-air", "medium 3"), 2, 3),
        (changed("unit pCi/L", "unit 3"), 2, 4),
        (changed("rate 18", "rate 100_000"), None, 0),
        (changed("rate 18", "rate 1000.01 per hour"), 3, 1),
        (changed("target 1_610", "target 1_000_000_001"), 4, 5),
        (changed("attenuation 1_000_000", "attenuation 999_999"), 5, 6),
        (changed("attenuation 1_000_000", "attenuation 1_000_001", soil), 5, 6),
        (changed("attenuation 1_000_000", "attenuation 0", soil), None, 0),
        (changed("child 350", "child 367"), 6, 9),
        (changed("adult 350 20 24", "adult 350 20 24:15"), 6, 10),
        (changed("adult 350 20 24", "adult 350 20 23:45"), None, 0),
        (changed("child 350 6", "child 350 0").replace("adult 350 20", "adult 350 0"), 6, 10),
        (changed("value 4.0", "value -0"), 7, 7),
        (changed("uncertainty 0.5", "uncertainty 0x7ff8000000000000"), 7, 8),
        (changed("value 4.0", "value 108_108"), 8, 7),
        (changed("value 4.0", "value 108_107"), None, 0),
        (changed("value 4.0", "value 30_000", water), 8, 7),
        (changed("uncertainty 0.5", "uncertainty 1e300"), 8, 8),
        (RADON[: RADON.index("member Rn")], 10, 0),
        (RADON + many, 10, 44),
        (changed("divisor 1_000", "divisor 0"), 12, 12),
        (changed("half-life 3.8235d", "half-life 12d"), 13, 13),
        (changed("half-life 3.10m", "half-life 60_001s"), 13, 14),
        (changed("half-life 3.10m", "half-life 60_000s"), None, 0),
        (changed("weight 61_134", "weight 4_000_000_001"), 13, 14),
        (changed("feed 99_980", "feed 0"), 14, 17),
        (changed("into 2", "into 0"), 16, 17),
        (changed("feed 99_980 from Po-218 into 2\n", ""), 16, 15),
        (half + "feed 50_000 from 2 into Po-218\n", 17, 18),
        (RADON + "feed 21 from Po-218 into 2\n", 18, 18),
        (RADON + "feed 20 from Po-218 into 2\n", None, 0),
    ):
        text = accounted(text)
        found = foreseen(text)
        assert (found[0] if found else (None, 0)) == (ground, line), (found, ground, line)
        assert refused(encode(text)) == ground, ground
        assert encode(decode(encode(text), "job")) == encode(text)  # so that encode knows its own files again


def test_manual():
    """The manual says every word, and its examples can be encoded."""
    manual = (HERE / "MANUAL.md").read_text(encoding="ascii")
    for word in (*LINE_WORDS, *COEFFICIENTS, *KINDS, *MEDIA, *UNITS, *LARGER_UNITS, *EXPOSURES, *NANOSECONDS):
        assert re.search(rf"(?<!\w){word}(?!\w)", manual), word
    example = manual[manual.index("    # A home") : manual.index("One line for each")]
    assert foreseen(example) == warned(example) == noted(example) == []
    example_set = manual[manual.index("    set Sample") : manual.index("It has one line `set`")]
    assert len(set_bytes(read_set(example_set), read_text(example)[1])) == 2 * 20


def check_cases(jobs):
    """Every job that has a text comes back from it byte for byte, and its ground is foreseen."""
    kept = 0
    for job in jobs:
        try:
            text = decode(job, "job")
        except Mistake:
            continue
        assert encode(text) == job
        found = foreseen(text)
        assert (found[0][0] if found else None) == refused(job)
        kept += 1
    print(f"{kept} jobs come back byte for byte, each with its ground foreseen")
    print(f"{len(jobs) - kept} jobs are too damaged to have a text")


def main():
    others = (test_shares, test_messages, test_second_set, test_target, test_looks_wrong, test_readings, test_command, test_files)
    count = run_tests(globals()) + sum(run_tests(vars(file)) for file in others)
    check_cases([job for job, _ in recorded.read_cases(recorded.JOB)])
    say_passed(count + 1)


if __name__ == "__main__":
    main()
