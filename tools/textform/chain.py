"""The lines of a text into a chain book, each number with the line that it comes from."""

import re
from typing import NamedTuple

from .feeds import feed_of, numbered
from .half_life import FORM, NANOSECONDS, half_life
from .shares import check_accounted, rest_of
from .words import Mistake, shown, spaced_name, whole

COEFFICIENTS = {  # of a member, in the order of the bytes, each with its unit
    "inhalation-risk": "whole 10^-17 per pCi",
    "submersion-risk": "whole 10^-17 per year per pCi/m3",
    "inhalation-dose": "whole 10^-10 mrem per pCi",
    "submersion-dose": "whole 10^-10 mrem per year per pCi/m3",
    "weight": "whole alpha energy weight, such as ten-thousandths of MeV",
}
NAME = re.compile(r"[A-Za-z][A-Za-z0-9-]{0,39}\Z")


class Member(NamedTuple):
    name: str
    half_life: int
    given: dict  # the coefficients that its line states
    line: int

    def numbers(self):
        return [self.given.get(word, 0) for word in COEFFICIENTS]


class Book(NamedTuple):
    divisor: int
    members: list
    feeds: list
    rests: list  # what the text says of the shares that no feed carries on; the bytes say nothing of them
    line: int  # of the divisor

    def label(self, i):
        """What a message calls member i."""
        return self.members[i].name or f"member {i}"


# ---- A member line ------------------------------------------------------------------------------


def member_of(words, line):
    """A member line: a name, if any, then pairs of a word and its number."""
    name, given = pairs_of(words, ["half-life", *COEFFICIENTS], line)
    if "half-life" not in given:
        raise Mistake(f"member {name or ''}: needs a half-life, {FORM}".replace(" :", ":"), line)
    return Member(name, given.pop("half-life"), given, line)


def pairs_of(words, known, line):
    """The name, if any, and the number of each of the known words that is given."""
    name, pairs = (None, words) if not words or words[0] in known else (words[0], words[1:])
    if name is not None and not NAME.match(name):
        raise Mistake(f"member {shown(name)}: a name is a letter, then letters, digits and '-', at most 40 in all", line)
    for word in pairs[::2]:
        if word not in known:
            raise Mistake(not_a_pair(word, name, pairs, known), line)
    given = {}
    for word, number in zip(pairs[::2], pairs[1::2] + [None]):
        if word in given:
            raise Mistake(f"{word}: is given twice", line)
        if number is None:
            raise Mistake(f"{word}: no number stands after it", line)
        given[word] = half_life(number, line) if word == "half-life" else whole(number, 4, word, COEFFICIENTS[word], line)
    return name, given


def not_a_pair(word, name, pairs, known):
    """What to say of a word that stands where one of the member's words should."""
    before = pairs[: pairs.index(word)]
    spaced = spaced_name([name or "", word])
    if spaced and not before:
        return f"member {name} {shown(word)}: {spaced}"
    if before[-2:-1] == ["half-life"] and not before[-1][-1].isalpha():
        form = f"without a space, so {shown(before[-1])}{word}" if word in NANOSECONDS else FORM
        return f"half-life {shown(before[-1])} {shown(word)}: {form}"
    return f"a member has {', '.join(known)}, each with its number, and no {shown(word)}"


# ---- The book -----------------------------------------------------------------------------------


def book_of(text, kind):
    """The book. The kind says which coefficients every member states; None: a book alone, all of them."""
    expected = "whole tenths of pCi/L"
    if "divisor" not in text.fields:
        raise Mistake(f"the book has no line for divisor, {expected}")
    word, line = text.one("divisor", expected)
    divisor = whole(word, 2, "divisor", expected, line)
    if len(text.members) > 255 or len(text.feeds) > 255:
        raise Mistake("a book holds at most 255 members and 255 feeds")
    for i, member in enumerate(text.members):
        check_stated(member, i, kind)
    names, n = numbers_of_names(text.members), len(text.members)
    feeds = numbered([feed_of(words, names, n, line) for words, line in text.feeds])
    rests = [rest_of(word, words, names, n, line) for word, words, line in text.rests]
    book = Book(divisor, text.members, feeds, rests, line)
    check_accounted(book)
    return book


def stated(kind):
    """The coefficients that every member states."""
    words = list(COEFFICIENTS)
    return {0: words[0:2] + words[4:], 1: words[2:]}.get(kind, words)


def check_stated(member, i, kind):
    """A coefficient forgotten would count as 0 and could clear a room, so none may be left out."""
    for word in stated(kind):
        if word not in member.given:
            name = member.name or f"member {i}"
            raise Mistake(f"{name} has no {word} ({COEFFICIENTS[word]}): write it, and if it is 0, 0", member.line)


def numbers_of_names(members):
    names = {}
    for i, member in enumerate(members):
        if member.name in names:
            raise Mistake(f"member {member.name}: there is one already, in line {members[names[member.name]].line}", member.line)
        if member.name is not None:
            names[member.name] = i
    return names
