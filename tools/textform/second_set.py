"""The text of a second set of coefficients: its name, and the five numbers of each member of a room's chain, by the chain's
own names."""

import struct
from typing import NamedTuple

from .chain import COEFFICIENTS, Member, check_stated, numbers_of_names, pairs_of
from .remarks import MOST
from .text import SET, SET_TEXT, check_not_exchanged, lines_said
from .words import Mistake, shown

LONGEST_NAME = 60  # characters; it is shown at the head of a column


class SecondSet(NamedTuple):
    name: str  # of the adviser, or of the list
    members: list  # in the order of their lines, without half-lives


def read_set(source):
    lines = list(lines_said(source))
    check_not_exchanged(lines, SET_TEXT)
    named, members = None, []
    for word, rest, line in lines:
        if word == "member":
            members.append(set_member_of(rest, line))
        elif word != SET:
            raise Mistake(f"a line of a set starts with {SET} or member, not with {shown(word)}", line)
        elif named:
            raise Mistake(f"{SET}: was already given in line {named[1]}", line)
        else:
            named = name_of(rest, line), line
    if named is None:
        raise Mistake(f"no line '{SET} NAME' says whose coefficients they are")
    numbers_of_names(members)
    return SecondSet(named[0], members)


def name_of(words, line):
    name = " ".join(words)
    if not name:
        raise Mistake(f"{SET}: no name stands after it, of the adviser or of the list", line)
    if not name.isprintable():
        raise Mistake(f"{SET} {shown(name)}: the name has a sign that cannot be shown", line)
    if len(name) > LONGEST_NAME:
        raise Mistake(f"{SET} {shown(name)}: a name has at most {LONGEST_NAME} characters", line)
    return name


def set_member_of(words, line):
    """A member line as in a book, but with a name, without a half-life, and with all five numbers, none of them too large."""
    if "half-life" in words:
        raise Mistake("half-life: is the room's, and no set changes it, so leave it out", line)
    name, given = pairs_of(words, list(COEFFICIENTS), line)
    if name is None:
        raise Mistake("member: its name is missing, as the room's text has it", line)
    member = Member(name, None, given, line)
    check_stated(member, 0, None)
    for word, number in given.items():
        if number > MOST:
            raise Mistake(f"{name}, {word} {number}: at most {MOST:,}", line)
    return member


# ---- With a room's chain ------------------------------------------------------------------------


def in_order(second, book):
    """The set's members in the order of the book's, each of which has one line in it."""
    names = [member.name for member in book.members]
    if None in names:
        raise Mistake(f"member {names.index(None)} of the room's chain has no name, so no line of a set can be meant for it")
    given = {member.name: member for member in second.members}
    for member in second.members:
        if member.name not in names:
            raise Mistake(f"member {member.name}: the room's chain has no such name; it has {', '.join(names)}", member.line)
    missing = [name for name in names if name not in given]
    if missing:
        raise Mistake(f"no line for member {', '.join(missing)}, which the room's chain has")
    return [given[name] for name in names]


def with_set(second, book):
    """The book with the set's numbers in place of its own."""
    return book._replace(members=[
        own._replace(given=other.given) for own, other in zip(book.members, in_order(second, book))
    ])


def set_bytes(second, book):
    """Five numbers for each member of the book, in its order."""
    return b"".join(struct.pack("<5I", *member.numbers()) for member in in_order(second, book))
