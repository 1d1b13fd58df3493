"""Numbers as people read them. Nothing is rounded here but where a name says so."""

SMALL = "no one two three four five six seven eight nine ten eleven twelve thirteen fourteen fifteen sixteen".split()


def count(number, word, words=""):
    """`1 year`, `25 years`; `2 entries`, where the words for several are given."""
    return f"{number:,} {word}" if number == 1 else f"{number:,} {words or f'{word}s'}"


def in_words(number, word):
    """`seven daughters`."""
    return count(number, word).replace(f"{number:,}", SMALL[number]) if number < len(SMALL) else count(number, word)


def decimal(number, places):
    """A whole number of 10^-places as a decimal with all of its places, such as `0.18` for 18 hundredths."""
    whole, rest = divmod(number, 10**places)
    return f"{whole:,}.{rest:0{places}}" if places else f"{whole:,}"


def trimmed(text):
    """A decimal without the zeros at its end."""
    return text.rstrip("0").rstrip(".") if "." in text else text


def in_a_power(number, places):
    """A share of so many 10^-places, such as `4 in 1,000`."""
    if number == 0:
        return "0"
    digits = len(str(number)) - 1
    if digits > places:
        return trimmed(decimal(number, places))
    return f"{trimmed(decimal(number, digits))} in {10 ** (places - digits):,}"


def listed(words):
    return " and ".join([", ".join(words[:-1]), words[-1]]) if len(words) > 1 else "".join(words)
