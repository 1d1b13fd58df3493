"""Are the recorded tables from elsewhere sharp? Each wrong reading of R-8 in document 02 must change some recorded text.

    test_marks.py
"""

import functools

from recorded import MARKS
from wrong_readings import K_ONE_LESS, SHARES_OUT_FREE, between, run

# Texts of the reference that several mistakes are about.
RATE_FORM = '    refuse_if(not re.fullmatch(b"0|[1-9][0-9]*", word), 24)\n'
RATE_RANGE = "    refuse_if(len(word) > 6 or int(word) > 100_000, 24)\n"
RATE = RATE_FORM + RATE_RANGE + "    return int(word)\n"
FORM = 'rb"[1-9][.][0-9]{3}E(-[0-9]{2}|[+]00)|0[.]000E[+]00"'
NO_MINUS_00 = '    refuse_if(word.endswith(b"-00"), 24)\n'
PLACES = "    places = int(word[7:]) + 3  # of the last digit, after the point\n"
PRINTED = "    return Printed(Fraction(int(word[:1] + word[2:5]), 10**places), Fraction(1, 10**places))\n"
ENTRY = between("    refuse_if(not re.fullmatch(rb", "    places = int(word[7:])")
SPLIT = '    rate, *words = line.split(b" ")\n'
HOW_MANY = "    refuse_if(len(words) != n, 24)\n"
LINE = "    return read_rate(rate), [read_entry(word) for word in words]\n"
LINES = '    *lines, rest = text.split(b"\\n")\n'
COUNT = '    refuse_if(rest != b"" or not 1 <= len(lines) <= 200, 24)\n'
READ = "    return [read_line(line, n) for line in lines]\n"
INTERVAL = "    return x, min(x + 2 * i, G)\n"
ENDS = "    least, most = (printed.share - printed.unit / 2) * G, (printed.share + printed.unit / 2) * G\n"
IS_RIGHT = "least <= low and high <= most"
IS_WRONG = "high < least or most < low"
CLOSE = '    return "close"\n\n\ndef line_marks'
FACTORS = "enumerate(zip(entries, reported_factors(v, book)))]"
LINE_MARKS = "    return [mark(printed, *interval(i, x)) for i, (printed, x) in " + FACTORS + "\n"
MARK_ALL = between("    return [Mark(number, member, word)", "def marks_call(").rstrip("\n") + "\n"
BOOK = "        book = read_book(book_bytes)\n        lines = read_lines(text, book.n)\n"
COUNTS = between('    counts = "".join(f"{word} {sum(one.word', "    first = next((f")
FIRST = between("    first = next((f", '    return counts + f"first')
OUT = '    return counts + f"first {first}\\n"\n'


def interval_of(low, high):
    return INTERVAL, f"    return {low}, {high}\n"


def half_unit(half):
    """Another half unit, either way."""
    return ENDS, ENDS.replace("printed.unit / 2", f"({half})")


def zero_unit(unit):
    """Another unit of zero's last place."""
    return PRINTED, '    if word[:1] == b"0":\n' + f"        return Printed(Fraction(0), {unit})\n" + PRINTED


def rate(form, *steps):
    """The rate read otherwise: what must be its form, and the lines after it."""
    return RATE, f'    refuse_if(not re.fullmatch(b"{form}", word), 24)\n' + "".join(f"    {step}\n" for step in steps)


def entry(more, *steps):
    """Texts of this form are entries too, after these steps."""
    return ENTRY, ENTRY.replace(FORM, FORM[:-1] + f'|{more}"') + "".join(f"    {step}\n" for step in steps)


def line_as(changed):
    return SPLIT, SPLIT.replace("line.", f"{changed}.")


def text_as(changed):
    return LINES, LINES.replace("text.", f"{changed}.")


def before(ground):
    """24 before this ground of the book. Members are counted by the book's first byte, if it is there."""
    return BOOK, ("        try:\n            book = read_book(book_bytes)\n        except Refused as refusal:\n"
                  f"            if refusal.number == {ground}:\n"
                  "                read_lines(text, book_bytes[0] if book_bytes else 1)\n            raise\n"
                  "        lines = read_lines(text, book.n)\n")


EXACT = FACTORS.replace("reported_factors(v, book)", "[x * G for x in exact_factors(v, book)]")

# What is wrong, the reference's text, the text put in its place.
MISTAKES = [
    # The ends.
    ("the upper end not counted for right", IS_RIGHT, "least <= low and high < most"),
    ("the lower end not counted for right", IS_RIGHT, "least < low and high <= most"),
    ("wrong at the upper end", IS_WRONG, "high < least or most <= low"),
    ("wrong at the lower end", IS_WRONG, "high <= least or most < low"),
    ("no end counted for right", IS_RIGHT, "least < low and high < most"),
    # The interval.
    ("the reported factor alone", *interval_of("x", "x")),
    ("the top alone", *interval_of("min(x + 2 * i, G)", "min(x + 2 * i, G)")),
    ("the middle alone", *interval_of("min(x + i, G)", "min(x + i, G)")),
    ("i grains", *interval_of("x", "min(x + i, G)")),
    ("4i grains", *interval_of("x", "min(x + 4 * i, G)")),
    ("2 grains for every daughter", *interval_of("x", "min(x + 2, G)")),
    ("2i + 2 grains, members from 1", *interval_of("x", "min(x + 2 * i + 2, G)")),
    ("2i - 2 grains", *interval_of("x", "min(x + 2 * max(i - 1, 0), G)")),
    ("less than 2i grains: the top is not in it", *interval_of("x", "min(x + max(2 * i - 1, 0), G)")),
    ("a grain too many", *interval_of("x", "min(x + 2 * i + 1, G)")),
    ("2i grains below", *interval_of("max(0, x - 2 * i)", "x")),
    ("2i grains either way", *interval_of("max(0, x - 2 * i)", "min(x + 2 * i, G)")),
    ("i grains either way", *interval_of("max(0, x - i)", "min(x + i, G)")),
    ("the exact factor alone", LINE_MARKS, LINE_MARKS.replace(FACTORS, EXACT).replace("*interval(i, x)", "x, x")),
    ("the interval from the exact factor", FACTORS, EXACT),
    ("the factors at rate 0", FACTORS, FACTORS.replace("(v,", "(0,")),
    ("the rate in whole air changes", FACTORS, FACTORS.replace("(v,", "(v // 100 * 100,")),
    ("the rate in air changes", FACTORS, FACTORS.replace("(v,", "(100 * v,")),
    ("the rate one higher", FACTORS, FACTORS.replace("(v,", "(v + 1,")),
    ("the first line's rate for all", MARK_ALL, MARK_ALL.replace("line_marks(v,", "line_marks(lines[0][0],")),
    ("the last line's rate for all", MARK_ALL, MARK_ALL.replace("line_marks(v,", "line_marks(lines[-1][0],")),
    ("the members from the last to the first", FACTORS, FACTORS.replace("(v, book)", "(v, book)[::-1]")),
    K_ONE_LESS,
    # The half unit.
    ("a whole unit", *half_unit("printed.unit")),
    ("a quarter of a unit", *half_unit("printed.unit / 4")),
    ("half a unit of the third digit", *half_unit("printed.unit * 5")),
    ("half a unit of a fifth digit", *half_unit("printed.unit / 20")),
    ("0.0005 of G for all", *half_unit("Fraction(1, 2_000)")),
    ("0.0005 of the entry", *half_unit("printed.share / 2_000")),
    ("halves up only: none below", ENDS, ENDS.replace("(printed.share - printed.unit / 2)", "printed.share")),
    ("cut off: a whole unit above and none below", ENDS,
     "    least, most = printed.share * G, (printed.share + printed.unit) * G\n"),
    ("below 1.000 a tenth of it", ENDS, ENDS + "    if printed.share == 1_000 * printed.unit:\n"
     "        least = (printed.share - printed.unit / 20) * G\n"),
    ("ends at whole grains, outwards", ENDS, ENDS + "    least, most = floor(least), rounded_up(*most.as_integer_ratio())\n"),
    ("ends at whole grains, down", ENDS, ENDS + "    least, most = floor(least), floor(most)\n"),
    ("whole grains only", IS_WRONG, IS_WRONG + " or rounded_up(*max(least, low).as_integer_ratio()) > floor(min(most, high))"),
    ("a grain of a millionth of a millionth", ENDS, ENDS.replace("* G", "* 10**12")),
    ("shares of G - 1", ENDS, ENDS.replace("* G", "* (G - 1)")),
    ("zero's last place 10^-99", *zero_unit("Fraction(1, 10**99)")),
    ("zero's last place 10^-102", *zero_unit("Fraction(1, 10**102)")),
    ("zero has no half unit", *zero_unit("Fraction(0)")),
    ("zero's last place a grain", *zero_unit("Fraction(1, G)")),
    ("zero's last place 10^-4", *zero_unit("Fraction(1, 10_000)")),
    ("zero's last place 1", *zero_unit("Fraction(1)")),
    ("zero up to the smallest entry", *zero_unit("Fraction(2, 10**99)")),
    ("the exponent one too high", PLACES, PLACES.replace("+ 3", "+ 2")),
    ("the exponent's first digit lost", PLACES, PLACES.replace("word[7:]", "word[8:]")),
    # The marks.
    ("right with one end inside", IS_RIGHT, "least <= low <= most or least <= high <= most"),
    ("right with the factor inside", IS_RIGHT, "least <= low <= most"),
    ("right with the top inside", IS_RIGHT, "least <= high <= most"),
    ("right where the half unit is within the interval", IS_RIGHT, f"{IS_RIGHT} or low <= least and most <= high"),
    ("right where the entry is within the interval", IS_RIGHT, f"{IS_RIGHT} or low <= printed.share * G <= high"),
    ("wrong where the factor is outside", IS_WRONG, "not least <= low <= most"),
    ("wrong where the top is outside", IS_WRONG, "not least <= high <= most"),
    ("wrong where both ends are outside", IS_WRONG, "not least <= low <= most and not least <= high <= most"),
    ("wrong where the entry is outside the interval", IS_WRONG, "not low <= printed.share * G <= high"),
    ("all that is not right is wrong", IS_WRONG, "True"),
    ("wrong above only", IS_WRONG, "high < least"),
    ("wrong below only", IS_WRONG, "most < low"),
    ("close as right", CLOSE, CLOSE.replace("close", "right")),
    ("wrong as close", '        return "wrong"\n', '        return "close"\n'),
    ("right only where R-3 writes the same", LINE_MARKS,
     '    return ["right" if read_entry(entry(x).encode()) == printed else "wrong" for i, (printed, x) in ' + FACTORS + "\n"),
    ("right where R-3 writes the same", LINE_MARKS, LINE_MARKS.replace(
        "[mark(", '["right" if read_entry(entry(x).encode()) == printed else mark(')),
    ("the gas always right", LINE_MARKS, LINE_MARKS.replace("[mark(", '["right" if i == 0 else mark(')),
    # The counts and the first wrong one.
    ("lines from 0", MARK_ALL, MARK_ALL.replace("enumerate(lines, 1)", "enumerate(lines)")),
    ("members from 1", FIRST, FIRST.replace("{one.member}", "{one.member + 1}")),
    ("the member before the line", FIRST, FIRST.replace("{one.line} {one.member}", "{one.member} {one.line}")),
    ("the last wrong one", FIRST, FIRST.replace("in found", "in found[::-1]")),
    ("the first member by member", FIRST, FIRST.replace(
        "in found", "in sorted(found, key=lambda one: (one.member, one.line))")),
    ("the first that is not right", FIRST, FIRST.replace('== "wrong"', '!= "right"')),
    ("the first close one where none is wrong", FIRST,
     FIRST + '    if first == "none":\n    ' + FIRST.replace('"wrong"', '"close"')),
    ("the line alone", FIRST, FIRST.replace(" {one.member}", "")),
    ("0 0 for none", FIRST, FIRST.replace('"none"', '"0 0"')),
    ("no line for none", OUT, '    return counts + (f"first {first}\\n" if first != "none" else "")\n'),
    ("the entry's number in reading order", FIRST, FIRST.replace(
        'f"{one.line} {one.member}" for one in found', 'f"{k} {one.member}" for k, one in enumerate(found, 1)')),
    ("lines counted, not entries", COUNTS, COUNTS.replace("sum(one.word == word for one in found)",
                                                          "len({one.line for one in found if one.word == word})")),
    ("members counted, not entries", COUNTS, COUNTS.replace("sum(one.word == word for one in found)",
                                                            "len({one.member for one in found if one.word == word})")),
    ("the gas not counted", COUNTS, COUNTS.replace("in found)", "in found if one.member > 0)")),
    ("counts in one byte", COUNTS, COUNTS.replace("in found)", "in found) % 256")),
    ("counts up to the first wrong one", COUNTS, "    words = [one.word for one in found] + ['wrong']\n"
     + COUNTS.replace("in found)", "in found[: words.index('wrong') + 1])")),
    ("close ones right besides", COUNTS, COUNTS.replace(
        "one.word == word", "word in (one.word, one.word.replace('close', 'right'))")),
    ("wrong before close", COUNTS, COUNTS.replace('"close", "wrong"', '"wrong", "close"')),
    # The rate.
    ("leading zeros taken", *rate("[0-9]+", "refuse_if(int(word[-20:]) > 100_000, 24)", "return int(word[-20:])")),
    ("no digit taken as 0", *rate("0|[1-9][0-9]*|", 'refuse_if(len(word) > 6 or int(word or b"0") > 100_000, 24)',
                                  'return int(word or b"0")')),
    ("a sign taken", *rate("[+-]?(0|[1-9][0-9]{0,5})", "refuse_if(int(word) > 100_000, 24)", "return abs(int(word))")),
    ("0 refused", RATE_FORM, RATE_FORM.replace("0|", "")),
    ("100,001 taken", RATE_RANGE, RATE_RANGE.replace("100_000", "100_001")),
    ("100,000 refused", RATE_RANGE, RATE_RANGE.replace("> 100_000", ">= 100_000")),
    ("five digits at most", RATE_RANGE, RATE_RANGE.replace("> 6", "> 5")),
    ("any rate of six digits taken", RATE_RANGE, RATE_RANGE.replace(" or int(word) > 100_000", "")),
    ("a rate out of range is 3", RATE_RANGE, RATE_RANGE.replace("24", "3")),
    ("a rate out of range is 20", RATE_RANGE, RATE_RANGE.replace("24", "20")),
    ("a rate out of range taken as 100,000", *rate(
        "0|[1-9][0-9]*", "return 100_000 if len(word) > 6 else min(100_000, int(word))")),
    *((f"the rate in {bits} bits", *rate("0|[1-9][0-9]*", f"rate = int(word[-60:]) % 2**{bits}",
                                         "refuse_if(rate > 100_000, 24)", "return rate")) for bits in (16, 32, 64)),
    ("the rate's last six digits", *rate("0|[1-9][0-9]*", "refuse_if(int(word[-6:]) > 100_000, 24)", "return int(word[-6:])")),
    ("the rate with a point taken", *rate("[0-9.]{1,6}", "return floor(Fraction(word.decode()))")),
    ("only the first line's rate checked", READ,
     "    return [read_line(line if k == 0 else re.sub(b'^[0-9]+', b'100', line), n) for k, line in enumerate(lines)]\n"),
    # The form of an entry.
    ("E-00 taken", NO_MINUS_00, ""),
    ("E+05 taken", *entry("[1-9][.][0-9]{3}E[+]0[1-9]")),
    ("0.500E+00 taken", *entry("0[.][0-9]{3}E[+]00")),
    ("0.968E-01 taken", *entry("0[.][0-9]{2}[1-9]E-[0-9]{2}")),
    ("0.000E-05 taken", *entry("0[.]000E-[0-9]{2}")),
    ("0.000E-00 taken", ENTRY, ENTRY.replace("|0[.]000E[+]00", "|0[.]000E[+-]00").replace(
        'b"-00")', 'b"-00") and word[:1] != b"0"')),
    ("a small e taken", *entry("[1-9][.][0-9]{3}e(-[0-9]{2}|[+]00)")),
    ("a comma for the point taken", *entry("[1-9],[0-9]{3}E(-[0-9]{2}|[+]00)")),
    ("any byte for the point taken", *entry("[1-9].[0-9]{3}E(-[0-9]{2}|[+]00)")),
    ("the last of ten digits is a colon", *entry("[1-9:][.][0-9:]{3}E(-[0-9:]{2}|[+]00)", 'word = word.replace(b":", b"9")')),
    ("the first of ten digits is a slash", *entry("[1-9/][.][0-9/]{3}E(-[0-9/]{2}|[+]00)", 'word = word.replace(b"/", b"0")')),
    ("a plus before it taken", *entry("[+][1-9][.][0-9]{3}E(-[0-9]{2}|[+]00)", "word = word[-9:]")),
    ("three digits taken", *entry("[1-9][.][0-9]{2}E(-[0-9]{2}|[+]00)",
                                  'word = word if len(word) == 9 else word.replace(b"E", b"0E")')),
    ("one digit of the exponent taken", *entry("[1-9][.][0-9]{3}E(-[0-9]|[+]0)")),
    ("three digits of the exponent taken", *entry("[1-9][.][0-9]{3}E(-[0-9]{3}|[+]000)")),
    ("0 taken for zero", *entry("0", 'word = b"0.000E+00" if word == b"0" else word')),
    ("zero refused", FORM, FORM.replace("|0[.]000E[+]00", "")),
    ("9.999E+00 refused", NO_MINUS_00, NO_MINUS_00 + '    refuse_if(word.endswith(b"+00") and word[:5] > b"1.000", 24)\n'),
    ("from 2.000E+00 on refused", NO_MINUS_00, NO_MINUS_00 + '    refuse_if(word.endswith(b"+00") and word[:1] > b"1", 24)\n'),
    ("E-14 and less refused", NO_MINUS_00, NO_MINUS_00 + '    refuse_if(int(word[7:]) > 13, 24)\n'),
    ("E-99 refused", NO_MINUS_00, NO_MINUS_00 + '    refuse_if(int(word[7:]) > 98, 24)\n'),
    ("what is no entry is wrong", ENTRY, ENTRY.replace("    refuse_if(", "    if ", 1).replace(
        ", word), 24)\n", ", word):\n        return Printed(Fraction(9), Fraction(1, 1_000))\n", 1)),
    # The line.
    ("any blanks between", SPLIT, "    rate, *words = line.split() or [b'']\n"),
    ("two spaces taken", SPLIT, '    rate, *words = re.split(b" +", line)\n'),
    ("a tab taken", *line_as('line.replace(b"\\t", b" ")')),
    ("a comma taken for a space", *line_as('line.replace(b",", b" ")')),
    ("a zero byte taken for a space", *line_as('line.replace(b"\\0", b" ")')),
    ("a space of 160 taken", *line_as('line.replace(b"\\xa0", b" ")')),
    ("the top bit of a byte not looked at", *line_as("bytes(byte & 127 for byte in line)")),
    ("a carriage return before the line feed taken", *line_as('line.removesuffix(b"\\r")')),
    ("a blank after the line taken", *line_as('line.removesuffix(b" ")')),
    ("a blank before the line taken", *line_as('line.removeprefix(b" ")')),
    ("an entry too few taken", HOW_MANY, "    refuse_if(len(words) not in (n - 1, n), 24)\n"),
    ("an entry too many taken", HOW_MANY, "    refuse_if(len(words) not in (n, n + 1), 24)\n"),
    ("the line may end early", HOW_MANY, "    refuse_if(len(words) > n, 24)\n"),
    ("what follows the n entries not looked at", HOW_MANY, "    refuse_if(len(words) < n, 24)\n    words = words[:n]\n"),
    ("n and the rate", HOW_MANY, "    refuse_if(len(words) != n - 1, 24)\n"),
    ("any number of entries", HOW_MANY, ""),
    # The lines.
    ("the last line feed may be missing", *text_as('(text if text.endswith(b"\\n") else text + b"\\n")')),
    ("what follows the last line feed not looked at", COUNT, COUNT.replace('rest != b"" or ', "")),
    ("a carriage return alone ends a line", *text_as('text.replace(b"\\r", b"\\n")')),
    ("a line feed more at the end taken", *text_as('text.replace(b"\\n\\n", b"\\n")')),
    ("empty lines left out", COUNT, "    lines = [line for line in lines if line]\n" + COUNT),
    ("an empty line first left out", *text_as('text.removeprefix(b"\\n")')),
    ("a zero byte at the end taken", *text_as('text.rstrip(b"\\0")')),
    ("a mark of the byte order taken", *text_as('text.removeprefix(b"\\xef\\xbb\\xbf")')),
    ("an end of file of old taken", *text_as('text.rstrip(b"\\x1a")')),
    ("201 lines taken", COUNT, COUNT.replace("200", "201")),
    ("199 lines at most", COUNT, COUNT.replace("200", "199")),
    ("no line taken", COUNT, COUNT.replace("1 <= len(lines)", "0 <= len(lines)")),
    ("one line refused", COUNT, COUNT.replace("1 <= len(lines)", "2 <= len(lines)")),
    ("any number of lines", COUNT, COUNT.replace(" <= 200", "")),
    ("over 200 lines cut to 200", COUNT, COUNT.replace(" <= 200", "") + "    lines = lines[:200]\n"),
    ("over 33,400 bytes cut", *text_as("text[:33_400]")),
    ("33,399 bytes at most", COUNT, COUNT + "    refuse_if(len(text) > 33_399, 24)\n"),
    ("lines not of the form left out", READ, "    return [read_line(line, n) for line in lines if line.count(b' ') == n]\n"),
    ("the first line alone looked at", READ, READ.replace("in lines", "in lines[:1]")),
    ("the first line a head", READ, READ.replace("in lines", "in lines[1:]")),
    ("rates that do not rise refused", READ, "    made = [read_line(line, n) for line in lines]\n"
     "    refuse_if(any(a[0] > b[0] for a, b in zip(made, made[1:])), 24)\n    return made\n"),
    ("a rate that comes again refused", READ, "    made = [read_line(line, n) for line in lines]\n"
     "    refuse_if(len({v for v, _ in made}) < len(made), 24)\n    return made\n"),
    # The grounds and their order.
    *((f"24 before {ground}", *before(ground)) for ground in range(9, 19)),
    ("23 for no bytes", COUNT, '    refuse_if(text == b"", 23)\n' + COUNT),
    ("20 for the number of lines", COUNT, "    refuse_if(not 1 <= len(lines) <= 200, 20)\n" + COUNT),
    ("21 for a longer text", COUNT, "    refuse_if(len(text) > 33_400, 21)\n" + COUNT),
    ("11 for a line that hasn't n factors", HOW_MANY, HOW_MANY.replace("24", "11")),
    ("23 for an entry", ENTRY, ENTRY.replace("24", "23")),
    SHARES_OUT_FREE,
]


def prepare(reference):
    """The same lines and books come up often."""
    for name in ("read_book", "read_entry"):
        setattr(reference, name, functools.cache(getattr(reference, name)))


if __name__ == "__main__":
    run(__doc__, MARKS, MISTAKES, prepare)
