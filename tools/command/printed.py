"""The printed form of a table, one line for each rate: what keeps a text from it, in words.

Nothing is decided here. `marks` says whether a table has the form; of one that has not, these are the reasons that a person
can do something about, each told once, with the first line that it is found in.
"""

import re
from fractions import Fraction

from textform.files import UTF_16, is_bytes, text_of
from textform.text import LINE_WORDS, lines_said
from textform.words import Mistake, in_line, shown

from .numerals import count, listed

MOST_LINES, MOST_RATE = 200, 100_000
RATE = re.compile(r"0|[1-9][0-9]{0,5}")
DIGITS = re.compile(r"[0-9]+")
PER_HOUR = re.compile(r"[0-9]{1,3}[.,][0-9]{1,2}")
ENTRY = re.compile(r"[1-9]\.[0-9]{3}E(-(0[1-9]|[1-9][0-9])|\+00)|0\.000E\+00")
DECIMAL = re.compile(r"([0-9]*)\.([0-9]+)([eE]([+-]?[0-9]{1,3}))?")
DECIMAL_COMMA = re.compile(r"[0-9]*,[0-9]+([eE][+-]?[0-9]+)?")
FORM = "an entry is written d.dddE-dd or d.dddE+00, with a first digit of 1 to 9"
PARTING = {";": "semicolons", "\t": "tabs", "\u00a0": "non-breaking spaces"}
BOM = b"\xef\xbb\xbf"
ENDS = re.compile(r"\r\n?")


def looks_printed(text):
    """Whether a text begins as a table does, and not as a room."""
    words = text.partition("\n")[0].split()
    return len(words) > 1 and RATE.fullmatch(words[0]) is not None and ENTRY.fullmatch(words[1]) is not None


def reasons(data, names):
    """What is wrong, as lines that can follow the file's name. The names are those of the book's members."""
    if is_bytes(data) and data[:2] not in UTF_16:
        return ["is no table: it has a zero byte, as every job and every book has; the table stands first, as text"]
    try:
        text = text_of(data)
    except Mistake as mistake:
        return [in_line(mistake.line, mistake)]
    room = [line for word, _, line in lines_said(text) if word in LINE_WORDS]
    if room:
        return [in_line(room[0], "this looks like a room's text, and not like a table")]
    *lines, rest = ENDS.sub("\n", text).split("\n")
    return [*of_whole(data, text, lines, rest), *of_lines([*lines, rest] if rest else lines, names)]


# ---- The text as a whole ------------------------------------------------------------------------


def of_whole(data, text, lines, rest):
    """The rest is what follows the last line feed."""
    if not text:
        yield "is empty: a table has 1 to 200 lines"
    if data.startswith(BOM):
        yield "starts with a byte order mark: save it without one, as 'UTF-8' and not as 'UTF-8 with BOM'"
    if "\r" in text:
        said = "ends in a carriage return: save the file with line feeds alone ('Unix line ends')"
        yield in_line(text[: text.index("\r")].count("\n") + 1, said)
    if rest:
        yield in_line(len(lines) + 1, "no line feed ends it: the last line ends as the others do")
    if len(lines) + bool(rest) > MOST_LINES:
        yield f"has {len(lines) + bool(rest):,} lines, and a table at most 200: split it"


# ---- Line by line -------------------------------------------------------------------------------


def of_lines(lines, names):
    """Each kind of fault with the first line that has it, and in how many more lines it is."""
    found = {}
    for number, line in enumerate(lines, 1):
        for kind, said in faults(line, names):
            found.setdefault(kind, {}).setdefault(number, said)
    for places in found.values():
        number, said = next(iter(places.items()))
        more = f" (and {count(len(places) - 1, 'more line')})" if len(places) > 1 else ""
        yield in_line(number, f"{said}{more}")


def faults(line, names):
    """Each fault of a line, with its kind."""
    between, words = parted(line)
    if not words:
        yield "empty", "is empty: leave it out"
    elif not words[0][0].isdecimal() and words[0][0] not in ".+-":
        yield "heading", f"{shown(words[0])}: a line starts with its rate in digits, so leave a heading out"
    else:
        if between:
            yield "between", f"{between}: a single space stands between two numbers, and none before or after"
        yield from rate_faults(words[0])
        yield from entry_faults(words[1:], names)


def parted(line):
    """What stands between the words, if anything but single spaces, and the words."""
    words = words_between(f" {''.join(PARTING)}", line)
    if "," in line and not any(map(DECIMAL_COMMA.fullmatch, words)):
        return "parted by commas", words_between(f" ,{''.join(PARTING)}", line)
    for sign, name in PARTING.items():
        if sign in line:
            return f"parted by {name}", words
    return "" if line == " ".join(words) else "a space too many", words


def words_between(signs, line):
    return [word for word in re.split(f"[{signs}]+", line) if word]


def rate_faults(word):
    if RATE.fullmatch(word) and int(word) <= MOST_RATE:
        return
    if not DIGITS.fullmatch(word):
        yield "rate", f"rate {shown(word)}: whole hundredths per hour, {hundredths(word)}"
    elif word[0] == "0":
        yield "zeros", f"rate {shown(word)}: no zeros stand before it, so {shown(word.lstrip('0') or '0')}"
    else:
        yield "most", f"rate {shown(word)}: at most 100,000 hundredths per hour, which is 1,000 air changes"


def hundredths(word):
    """What a rate per hour is in hundredths. One without a fraction could be in either unit: no guess, but an example."""
    number = Fraction(word.replace(",", ".")) if PER_HOUR.fullmatch(word) else Fraction(0)
    return f"so {100 * number} for {word}" if number.denominator != 1 else "so 18 for 0.18"


def entry_faults(words, names):
    if len(words) != len(names):
        chain = listed(names) if len(names) > 1 else f"{names[0]} alone"
        yield "count", f"{count(len(words), 'entry', 'entries')}, and the chain has {count(len(names), 'member')}: {chain}"
    labels = names if len(words) == len(names) else [f"entry {i}" for i in range(1, len(words) + 1)]
    for label, word in zip(labels, words):
        if DECIMAL_COMMA.fullmatch(word):
            yield "comma", f"{label}, {shown(word)}: a decimal has a point and no comma{so(word.replace(',', '.'))}"
        elif not ENTRY.fullmatch(word):
            yield "entry", f"{label}, {shown(word)}: {FORM}{so(word)}"


def so(word):
    """The same number in the form, if it has as many digits."""
    said = respelled(word)
    return f", so {said}" if said else "; 0.9968 is 9.968E-01, and zero 0.000E+00"


def respelled(word):
    """A decimal of four digits in the form; one of more or fewer is none there, and nothing is rounded here."""
    parts = DECIMAL.fullmatch(word)
    digits = (parts[1] + parts[2]).lstrip("0") if parts else ""
    if len(digits) != 4:
        return ""
    power = 3 - len(parts[2]) + int(parts[4] or 0)
    if not -99 <= power <= 0:
        return ""
    return f"{digits[0]}.{digits[1:]}E{'-' if power else '+'}{-power:02}"
