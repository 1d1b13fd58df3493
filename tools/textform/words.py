"""The numbers and names in a line of a text: each is read exactly, or refused with what was expected and what was read."""

import math
import re
import struct
from decimal import ROUND_DOWN, Context, Decimal
from fractions import Fraction

MOST_CHARACTERS = 40  # of a number: any f64 and any field fits, and nothing takes long to read
MOST_EXPONENT_DIGITS = 3
NUMBER = re.compile(r"([0-9]+(_[0-9]+)*(\.[0-9]*)?|\.[0-9]+)([eE][+-]?(?P<exponent>[0-9]+))?\Z")
WHOLE = re.compile(r"[0-9]+(_[0-9]+)*\Z")
BITS = re.compile(r"0x[0-9a-fA-F]{16}\Z")


class Mistake(Exception):
    """What is wrong, and in which line of the text (0: in the text or the bytes as a whole)."""

    in_names = False  # whether it is wrong in the text that names were taken from

    def __init__(self, message, line=0):
        super().__init__(message)
        self.line = line


def in_line(line, said):
    """A message with its line before it; 0 is the text as a whole."""
    return f"line {line}: {said}" if line else str(said)


def placed(name, said):
    """A message with the file's name before it: `cellar.txt, line 3: ...`."""
    return f"{name}, {said}" if said.startswith("line ") else f"{name}: {said}"


def shown(word):
    """A word as a message can show it: short, and without characters that a screen cannot."""
    plain = word if word.isascii() and word.isprintable() else ascii(word)[1:-1]
    return plain if len(plain) <= MOST_CHARACTERS else f"{plain[:20]}... ({len(word):,} characters)"


def exact(word, what, line):
    """The exact number that a word says, or None where it says none."""
    parts = NUMBER.match(word)
    if not parts:
        return None
    if len(word) > MOST_CHARACTERS or len(parts["exponent"] or "") > MOST_EXPONENT_DIGITS:
        bound = f"a number has at most {MOST_CHARACTERS} characters, its exponent at most three digits"
        raise Mistake(f"{what} {shown(word)}: {bound}", line)
    return Fraction(word.replace("_", ""))


def hint(word, number, scale):
    """What may have been meant by a word that is not a whole number. A decimal above 1 could be in either unit: no guess."""
    if "," in word:
        return ", without commas"
    if scale and number is not None and not WHOLE.match(word) and number <= 1 and (number * scale).denominator == 1:
        return f", so {number * scale}"
    return ""


def whole(word, size, what, expected, line, scale=None):
    """A whole number that fits a field of `size` bytes. With a scale, a decimal is told what it is in the field's unit."""
    number = exact(word, what, line)
    if number is None or not WHOLE.match(word):
        raise Mistake(f"{what} {shown(word)}: {expected}{hint(word, number, scale)}", line)
    return fitting(int(number), size, f"{what} {word}: {expected}", line)


def spaced_name(words):
    """What to say where a name may have been written with a space, such as `Pb 214`."""
    for name, number in zip(words, words[1:]):
        if name.isalpha() and name[0].isupper() and WHOLE.match(number):
            return f"a name is one word, without a space, so {shown(name)}-{shown(number)}"
    return ""


def fitting(number, size, said, line):
    most = (1 << 8 * size) - 1
    if number > most:
        raise Mistake(f"{said}, at most {most:,}", line)
    return number


def one_of(words, names, what, line):
    """A listed name; a number stands for itself, so that a false one can be written too."""
    for meant in ("-".join(words), "".join(words)):
        if len(words) > 1 and meant in names:
            raise Mistake(f"{what} {' '.join(words)}: one word, without a space, so {meant}", line)
    word = " ".join(words)
    if word in names:
        return names.index(word)
    return whole(word, 1, what, f"one of {', '.join(names)}", line)


def bits_not_below(number):
    """The bits of the smallest f64 not below a number that is not negative; those of infinity where there is none."""
    try:
        near = float(number)
        near = math.nextafter(near, math.inf) if Fraction(near) < number else near
    except OverflowError:
        near = math.inf
    return struct.unpack("<Q", struct.pack("<d", near))[0]


def reading(word, what, unit, line, times=1):
    """The bits of the smallest f64 not below a decimal, times a whole number; or 0x and the 16 hexadecimal digits of the bits."""
    if BITS.match(word) and times == 1:
        return int(word, 16)
    number = exact(word[1:] if word[0] in "+-" else word, what, line)
    if number is None:
        form = f"a decimal number of {unit}" + (" (or 0x and 16 hexadecimal digits)" if times == 1 else ", and no bits")
        raise Mistake(f"{what} {shown(word)}: {form}{hint(word, None, None)}", line)
    number *= times
    bits = bits_not_below(number)
    if bits == 0x7FF << 52:
        raise Mistake(f"{what} {shown(word)}: too large: no f64 holds it, and screen takes far less", line)
    if word[0] != "-":
        return bits
    is_exact = number_of(bits) == number
    return 1 << 63 | (bits if is_exact else bits - 1)  # not below means nearer to zero


def number_of(bits):
    return Fraction(struct.unpack("<d", struct.pack("<Q", bits))[0])


def reading_text(bits):
    """The shortest decimal that is read as these bits; the bits themselves where it would be negative or none."""
    if bits >> 63 or bits >> 52 == 0x7FF:
        return f"0x{bits:016x}"
    held = Decimal(struct.unpack("<d", struct.pack("<Q", bits))[0])
    for digits in range(1, 18):  # 17 digits always do
        short = Context(prec=digits, rounding=ROUND_DOWN).plus(held)
        if bits_not_below(Fraction(short)) == bits:
            break
    return format(short, "f") if 1e-9 < short < 1e16 else str(short)
