"""The shares out of each member: a text says of all of them where they go, by `feed` or by `ends`.

The bytes say nothing of shares that end, so a feed forgotten there is no mistake. In a text it is one. Bytes with
more than the whole out of a member (ground 18) have a text too: it says so by `surplus`.
"""

from typing import NamedTuple

from .feeds import SHARES, member_number
from .words import Mistake, shown, spaced_name, whole


class Rest(NamedTuple):
    word: str  # ends: nothing in the chain follows these shares; surplus: the feeds carry so many over the whole
    share: int
    origin: int
    line: int


def rest_of(word, words, names, n, line):
    """A line `ends` or `surplus`."""
    if len(words) != 3 or words[1] != "from":
        form = spaced_name(words) or f"the line is {word} SHARE from MEMBER"
        raise Mistake(f"{word} {shown(' '.join(words))}: {form}", line)
    share = whole(words[0], 8, word, "whole hundred-thousandths", line, SHARES)
    if share == 0:
        raise Mistake(f"{word} 0: leave the line out", line)
    return Rest(word, share, member_number("from", words[2], names, n, line), line)


def shares_out(feeds, i):
    """What the feeds, each with its share and the member that it comes from, carry out of member i."""
    return sum(share for share, origin, *_ in feeds if origin == i)


def rest_lines(feeds, names):
    """The lines that say of each member what its feeds leave, or carry too many."""
    for i, name in enumerate(names):
        left = SHARES - shares_out(feeds, i)
        if left:
            yield f"{'ends' if left > 0 else 'surplus'} {abs(left)} from {name or i}"


def check_accounted(book):
    """A feed forgotten, or a share mistyped, leaves daughters out and could clear a room: no share goes unsaid."""
    for i, member in enumerate(book.members):
        found = wrong_with(book, i)
        if found:
            raise Mistake(f"{book.label(i)}: {found}", member.line)


def wrong_with(book, i):
    """What is wrong with the shares out of member i, or None."""
    out, ends, surplus = shares_out(book.feeds, i), said(book, "ends", i), said(book, "surplus", i)
    if ends and surplus:
        return "its shares cannot both end and be too many: leave out the line 'ends' or 'surplus'"
    total = out + ends - surplus
    counted = f"its shares out add up to {total:,} of {SHARES:,}"
    if total > SHARES:
        return f"{counted}, which is {total - SHARES:,} too many"
    if total == SHARES:
        return None
    missing = f"{counted}, {SHARES - total:,} missing"
    if surplus:
        return f"{missing}: its feeds carry no such surplus"
    ends_line = f"ends {SHARES - out:_} from {book.members[i].name or i}"
    return f"{missing}: look at its feed lines; shares that nothing in the chain follows are '{ends_line}'"


def said(book, word, i):
    return sum(rest.share for rest in book.rests if rest.word == word and rest.origin == i)
