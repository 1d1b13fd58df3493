"""Are the recorded tables sharp? Each wrong reading of R-3 in document 02 must change some recorded answer.

    test_tables.py
"""

import functools

from recorded import TABLE
from wrong_readings import K_ONE_LESS, RATE_LIMITS, SHARES_OUT_FREE, book_but_before, in_place_of, run

# Texts of the reference that several mistakes are about.
ZERO = 'return "0.000E+00"'
SHARE = "share = Fraction(x, G)"
FIRST_DIGIT = "while share < Fraction(1, 10**places)"
ROUNDED = "floor(share * 10**places * 1_000 + Fraction(1, 2))"
TEN = "if thousandths == 10_000:"
FORM = 'f"{thousandths // 1_000}.{thousandths % 1_000:03d}E{sign}{places:02d}"'
WORDS = "[str(v)] + [entry(x) for x in reported_factors(v, book)]"
FACTORS = "entry(x) for x in reported_factors(v, book)"
LINE = '" ".join(words) + "\\n"'
LINES = '"".join(table_line(v, book) for v in rates)'
CHECK_3 = "        for v in rates:\n            check_rate(v)\n"
BOOK = "        book = read_book(book_bytes)\n"
CHECK_20 = "        refuse_if(not 1 <= len(rates) <= 200, 20)\n"
TEXT = "        text = table_text(rates, book)\n"
CHECK_21 = "        refuse_if(len(text) > room, 21)\n"
CALL = CHECK_3 + BOOK + CHECK_20 + TEXT + CHECK_21
in_order = in_place_of(CALL)


def before(ground, check):
    """A check of the call made before one ground of the book."""
    return in_order(CHECK_3, book_but_before(ground, check), CHECK_20, TEXT, CHECK_21)


WRONG_COUNT = "not 1 <= len(rates) <= 200, 20"
TOO_LONG = "sum(len(str(v)) + 10 * book_bytes[0] + 1 for v in rates) > room, 21"

# What is wrong, the reference's text, the text put in its place.
MISTAKES = [
    # A factor: rounding.
    ("halves down", ROUNDED, "-floor(Fraction(1, 2) - share * 10**places * 1_000)"),
    ("halves to even", ROUNDED, "round(share * 10**places * 1_000)"),
    ("halves to odd", ROUNDED, "round(share * 10**places * 1_000 + 1) - 1"),
    ("rounded down", ROUNDED, "floor(share * 10**places * 1_000)"),
    ("rounded up", ROUNDED, "-floor(-share * 10**places * 1_000)"),
    ("rounded to five digits, then to four", ROUNDED,
     "floor(Fraction(floor(share * 10**places * 10_000 + Fraction(1, 2)), 10) + Fraction(1, 2))"),
    ("the form that a library has", SHARE, 'share = Fraction(x, G)\n    return f"{x / G:.3E}"'),
    ("cut to twelve decimals first", SHARE, "share = Fraction(x * 10**12 // G, 10**12) or Fraction(1, G)"),
    ("three digits", ROUNDED, "10 * floor(share * 10**places * 100 + Fraction(1, 2))"),
    ("a fourth decimal", "1_000:03d}E", "1_000:03d}0E"),
    # A factor: the first digit, and what rounds up to ten.
    ("0.9997 as 1.000E+00", FIRST_DIGIT, "while share * 10**places * 1_000 + Fraction(1, 2) < 1_000"),
    ("ten left as 10.000", TEN, "if False:"),
    ("ten left as 9.999", ROUNDED, f"min(9_999, {ROUNDED})"),
    ("ten as 1.000 in the same place", "thousandths, places = 1_000, places - 1", "thousandths = 1_000"),
    ("ten moved a place the wrong way", "thousandths, places = 1_000, places - 1", "thousandths, places = 1_000, places + 1"),
    ("ten moved below 1 only", TEN, "if thousandths == 10_000 and places == 1:"),
    ("ten moved everywhere but below 1", TEN, "if thousandths == 10_000 and places > 1:"),
    ("first digit 0 allowed: all with E+00", FIRST_DIGIT, "while False"),
    ("first digit 0 allowed below E-09", FIRST_DIGIT, "while places < 9 and share < Fraction(1, 10**places)"),
    ("the point after two digits", FORM, 'f"{thousandths // 100}.{thousandths % 100:02d}E-{places + 1:02d}"'),
    # A factor: the exponent, zero, and the share.
    ("E-00 for E+00", 'sign = "+" if places == 0 else "-"', 'sign = "-"'),
    ("E+01 for E-01", 'sign = "+" if places == 0 else "-"', 'sign = "+"'),
    ("E00 without a sign", 'sign = "+" if places == 0 else "-"', 'sign = "" if places == 0 else "-"'),
    ("one digit for the exponent", "{places:02d}", "{places}"),
    ("three digits for the exponent", "{places:02d}", "{places:03d}"),
    ("a small e", "E{sign}", "e{sign}"),
    ("a comma for the point", "1_000}.{", "1_000},{"),
    ("zeros after the point lost", "1_000:03d}", "1_000}"),
    ("zero as 0.000E-00", ZERO, 'return "0.000E-00"'),
    ("zero as 0.000E-13", ZERO, 'return "0.000E-13"'),
    ("zero as 0.000E-99", ZERO, 'return "0.000E-99"'),
    ("zero as 0", ZERO, 'return "0"'),
    ("zero as 1.000E-99", ZERO, 'return "1.000E-99"'),
    ("one grain as zero", "if x == 0:", "if x <= 1:"),
    ("under half a thousandth as zero", "if x == 0:", "if x < Fraction(G, 2_000):"),
    ("the share of G - 1", SHARE, "share = Fraction(x, G - 1)"),
    ("the share of G + 1", SHARE, "share = Fraction(x, G + 1)"),
    ("a grain as 10^-12", SHARE, "share = Fraction(x, 10**12)"),
    ("per cent", SHARE, "share = Fraction(100 * x, G)"),
    ("grains as they are", "[entry(x) for x", "[str(x) for x"),
    # Which factors.
    ("the exact factor", FACTORS, "entry(x * G) for x in exact_factors(v, book)"),
    ("the exact factor in whole grains", FACTORS, "entry(floor(x * G)) for x in exact_factors(v, book)"),
    ("2i grains added", FACTORS,
     "entry(min(x + 2 * i, G)) for i, x in enumerate(reported_factors(v, book))"),
    ("i grains added", FACTORS,
     "entry(min(x + i, G)) for i, x in enumerate(reported_factors(v, book))"),
    ("the parent left out", WORDS, WORDS + "[1:]"),
    ("the parent airs too", FACTORS,
     "entry(x) for x in [G * K // (K + v * book.members[0].T)] + reported_factors(v, book)[1:]"),
    ("the share of the member's factor at rate 0", WORDS,
     "[str(v)] + [entry(x * G // max(1, y)) for x, y in zip(reported_factors(v, book), reported_factors(0, book))]"),
    ("the share of the member before", WORDS,
     "[str(v)] + [entry(x * G // max(1, y)) for x, y in zip(reported_factors(v, book), [G] + reported_factors(v, book))]"),
    ("the last member left out", WORDS, WORDS + "[:-1] if book.n > 1 else []"),
    ("the last member first", WORDS, WORDS + "[::-1]"),
    ("the member's number before each", WORDS, "[str(v)] + [f'{i} {entry(x)}' for i, x in enumerate(reported_factors(v, book))]"),
    ("factors of whole air changes", FACTORS, "entry(x) for x in reported_factors(v // 100 * 100, book)"),
    ("factors with the rate in air changes", FACTORS, "entry(x) for x in reported_factors(100 * v, book)"),
    ("one rounding of the factor, not two", "F = inflow // 100_000", "F = Fraction(inflow, 100_000)"),
    ("a factor rounded up", "F * K // (K + v * book.members[i].T)", "-(-F * K // (K + v * book.members[i].T))"),
    K_ONE_LESS,
    # The rate, the line and the text.
    ("the rate in air changes", "[str(v)] +", "[f'{v // 100}.{v % 100:02d}'] +"),
    ("the rate with leading zeros", "[str(v)] +", "[f'{v:06d}'] +"),
    ("the rate right-aligned", "[str(v)] +", "[f'{v:6d}'] +"),
    ("commas in the rate", "[str(v)] +", "[f'{v:,}'] +"),
    ("rate 0 as no digit at all", "[str(v)] +", "[str(v).lstrip('0')] +"),
    ("the rate in 16 bits", "[str(v)] +", "[str(v % 65_536)] +"),
    ("no rate", "[str(v)] +", ""),
    ("two spaces", '" ".join(words)', '"  ".join(words)'),
    ("a tab", '" ".join(words)', '"\\t".join(words)'),
    ("two spaces after the rate", "[str(v)] +", "[str(v) + ' '] +"),
    ("a space before the line feed", LINE, '" ".join(words) + " \\n"'),
    ("a space before the rate", LINE, '" " + " ".join(words) + "\\n"'),
    ("carriage return and line feed", LINE, '" ".join(words) + "\\r\\n"'),
    ("no line feeds", LINE, '" ".join(words)'),
    ("no last line feed", LINES, LINES + "[:-1]"),
    ("a line feed more at the end", LINES, LINES + ' + "\\n"'),
    ("a head above the lines", LINES, '"rate\\n" + ' + LINES),
    ("a zero byte at the end", LINES, LINES + ' + "\\0"'),
    ("rates sorted", "for v in rates)", "for v in sorted(rates))"),
    ("rates from the last to the first", "for v in rates)", "for v in reversed(rates))"),
    ("a rate repeated written once", "for v in rates)", "for v in dict.fromkeys(rates))"),
    ("the first line only", "for v in rates)", "for v in rates[:1])"),
    # Grounds: limits, numbers and order.
    ("199 for 200", "<= 200, 20)", "<= 199, 20)"),
    ("201 for 200", "<= 200, 20)", "<= 201, 20)"),
    ("any number of rates from 1", "not 1 <= len(rates) <= 200, 20", "not 1 <= len(rates), 20"),
    ("an empty list taken", "not 1 <= len(rates) <= 200, 20", "len(rates) > 200, 20"),
    ("one rate refused", "not 1 <= len(rates) <= 200, 20", "not 2 <= len(rates) <= 200, 20"),
    ("the number of rates in one byte", "not 1 <= len(rates) <= 200, 20", "not 1 <= len(rates) % 256 <= 200, 20"),
    ("over 200 cut to 200", CHECK_20, "        refuse_if(not rates, 20)\n        rates = rates[:200]\n"),
    ("20 for 3", CHECK_3, "        refuse_if(any(v > 100_000 for v in rates), 20)\n"),
    *RATE_LIMITS,
    ("the rate in 16 bits checked", "            check_rate(v)\n", "            check_rate(v % 65_536)\n"),
    ("only the first rate checked", "for v in rates:", "for v in rates[:1]:"),
    ("only the last rate checked", "for v in rates:", "for v in rates[-1:]:"),
    ("the first rate not checked", "for v in rates:", "for v in rates[1:]:"),
    ("the last rate not checked", "for v in rates:", "for v in rates[:-1]:"),
    ("only the first 200 rates checked", "for v in rates:", "for v in rates[:200]:"),
    ("rates not checked where their number is wrong", "for v in rates:", "for v in rates * (1 <= len(rates) <= 200):"),
    ("a rate out of range left out", CHECK_3, "        rates = [v for v in rates if v <= 100_000]\n"),
    ("20 before 3", *in_order(CHECK_20, CHECK_3, BOOK, TEXT, CHECK_21)),
    ("3 after 20", *in_order(BOOK, CHECK_20, CHECK_3, TEXT, CHECK_21)),
    ("3 after 18", *in_order(BOOK, CHECK_3, CHECK_20, TEXT, CHECK_21)),
    ("3 after 9", CHECK_3, "        refuse_if(len(book_bytes) < 8, 9)\n" + CHECK_3),
    ("20 before 9", *in_order(CHECK_3, CHECK_20, BOOK, TEXT, CHECK_21)),
    ("20 after 21", *in_order(CHECK_3, BOOK, TEXT, CHECK_21, CHECK_20)),
    *((f"20 before {ground}", *before(ground, WRONG_COUNT)) for ground in range(10, 19)),
    *((f"21 before {ground}", *before(ground, TOO_LONG)) for ground in range(10, 19)),
    ("20 as 19", "<= 200, 20)", "<= 200, 19)"),
    ("20 as 21", "<= 200, 20)", "<= 200, 21)"),
    ("21 as 19", "> room, 21)", "> room, 19)"),
    ("21 as 20", "> room, 21)", "> room, 20)"),
    ("19 too: a buffer shorter than n", CHECK_20, "        refuse_if(room < book.n, 19)\n" + CHECK_20),
    SHARES_OUT_FREE,
    # The lent buffer.
    ("21 at the exact length", "len(text) > room, 21", "len(text) >= room, 21"),
    ("one byte over the buffer taken", "len(text) > room, 21", "len(text) > room + 1, 21"),
    ("the last line feed need not fit", CHECK_21, "        refuse_if(len(text) - 1 > room, 21)\n        text = text[:room]\n"),
    ("21 by the longest text of so many lines", "len(text) > room, 21", "len(rates) * (6 + 10 * book.n + 1) > room, 21"),
    ("21 by the first line alone", CHECK_21, '        refuse_if(text.index("\\n") + 1 > room, 21)\n        text = text[:room]\n'),
    ("21 by the length of the first line for all", "len(text) > room, 21", 'len(rates) * (text.index("\\n") + 1) > room, 21'),
    ("the text cut at the buffer", CHECK_21, "        text = text[:room]\n"),
    ("the lines that fit", CHECK_21, '        text = text[:text.rfind("\\n", 0, room) + 1]\n'),
    ("21 where the buffer is longer", "len(text) > room, 21", "len(text) != room, 21"),
    ("the buffer filled up with spaces", CHECK_21, CHECK_21 + "        text = text.ljust(room)\n"),
    ("the buffer filled up with zeros", CHECK_21, CHECK_21 + "        text = text.ljust(room, '\\0')\n"),
]


def prepare(reference):
    reference.entry = functools.cache(reference.entry)  # the same factors come up often


if __name__ == "__main__":
    run(__doc__, TABLE, MISTAKES, prepare)
