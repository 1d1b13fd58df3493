"""`portfolio`: the factors of one book at many rates, as the proved program writes them (docs/PORTFOLIO.md).

There may be more lines than memory holds, so they go out as they come. Each is looked at before: it must be of the form, and of
the rate that is next in the run.
"""

import re

from textform.words import placed, shown

from .building import make_ready
from .given import book_given, told_of
from .printed import hundredths
from .programs import in_memory, streamed
from .tool import CLEARED, FAILED, Failure, Usage, check_files, put, tell
from .verdicts import ground_in_words

HIGHEST = 2**32 - 1  # a higher number counts as this one, as in the program
DIGITS = re.compile(r"[0-9]+")
LINE = re.compile(r"(?P<rate>[0-9]+)(?:(?: [0-9]+)+| refused (?P<ground>[0-9]+))")
LONGEST = 1_000  # characters; no line has as many


def portfolio(words):
    """The exit status, after a line for each rate."""
    check_files(words[:1])
    if len(words) != 4:
        raise Usage
    name, *limits = words
    first, highest, step = limits_of(*limits)
    with told_of(name):
        book = book_given(name)
    make_ready(["portfolio"])
    for remark in book.remarks:
        tell(remark.whole(name))
    lines = Lines(name, range(first, highest + 1, step))
    with in_memory(book.data) as lent:
        streamed("portfolio", lines.take, f"/dev/fd/{lent}", str(first), str(highest), str(step), lent=[lent])
    lines.end()
    return FAILED if lines.grounds else CLEARED


# ---- Which rates --------------------------------------------------------------------------------


def limits_of(*words):
    """The first rate, the one that no rate is above, and by how much each is higher than the one before."""
    first, highest, step = map(number_in, ("FROM", "TO", "STEP"), words)
    if first > highest:
        raise Failure(f"FROM {shown(words[0])}: more than TO {shown(words[1])}, so there is no rate")
    if step == 0:
        raise Failure(f"STEP {shown(words[2])}: 1 or more, since each rate is higher than the one before")
    return first, highest, step


def number_in(what, word):
    if not DIGITS.fullmatch(word):
        raise Failure(f"{what} {shown(word)}: whole hundredths per hour, {hundredths(word)}")
    return min(int(word.lstrip("0")[:11] or "0"), HIGHEST)


# ---- Their lines --------------------------------------------------------------------------------


class Lines:
    """What the program writes, put out line by line."""

    def __init__(self, name, rates):
        self.name, self.rates, self.rest, self.grounds = name, iter(rates), "", []

    def take(self, piece):
        *lines, self.rest = (self.rest + piece).split("\n")
        grounds = [ground for line in lines for ground in self.checked(line)]
        if len(self.rest) > LONGEST:
            raise no_answer(self.rest)
        put("".join(f"{line}\n" for line in lines))
        for ground in dict.fromkeys(grounds):
            self.tell_once(ground)

    def checked(self, line):
        """The ground of a line on which its rate is refused."""
        parts = LINE.fullmatch(line)
        if not parts or parts["rate"] != str(next(self.rates, None)):
            raise no_answer(line)
        return [int(parts["ground"])] if parts["ground"] else []

    def tell_once(self, ground):
        if ground not in self.grounds:
            self.grounds.append(ground)
            tell(placed(self.name, ground_in_words(ground)))

    def end(self):
        if self.rest or next(self.rates, None) is not None:
            raise Failure("portfolio: no whole answer: it ends within a line, or before the last rate")


def no_answer(line):
    return Failure(f"portfolio: no answer: {line[:60]!r}")
