"""The feed lines of a text: which share of what leaves a member goes into which."""

from typing import NamedTuple

from .words import Mistake, WHOLE, shown, spaced_name, whole

SHARES = 100_000  # out of each member, in all
FEED_FORM = "feed SHARE from MEMBER into MEMBER, and at the end 'number N' where feeds are numbered"


class Feed(NamedTuple):
    share: int
    origin: int
    into: int
    number: int
    line: int


def member_number(which, word, names, n, line):
    """The number of the member that a feed comes `from` or goes `into`."""
    if word in names:
        return names[word]
    if not WHOLE.match(word):
        raise Mistake(f"{which} {shown(word)}: no member line has this name", line)
    number = whole(word, 1, which, "a member's number", line)
    if number >= n:
        raise Mistake(f"{which} {word}: " + (f"the members are 0 to {n - 1}" if n else "there is no member"), line)
    return number


def feed_of(words, names, n, line):
    """A feed line; its number is None where it states none."""
    if len(words) not in (5, 7) or words[1] != "from" or words[3] != "into" or words[5:6] not in ([], ["number"]):
        form = spaced_name(words) or f"a feed line is {FEED_FORM}"
        raise Mistake(f"feed {shown(' '.join(words))}: {form}", line)
    share = whole(words[0], 4, "feed", "whole hundred-thousandths", line, SHARES)
    number = whole(words[6], 1, "number", "a whole number", line) if len(words) == 7 else None
    origin, into = member_number("from", words[2], names, n, line), member_number("into", words[4], names, n, line)
    return Feed(share, origin, into, number, line)


def numbered(feeds):
    """The feeds with their numbers: all given, or all by line."""
    if all(feed.number is None for feed in feeds):
        return [feed._replace(number=k) for k, feed in enumerate(feeds, 1)]
    taken = set()
    for feed in feeds:
        if feed.number is None:
            raise Mistake("some feeds have a number, so this one needs one too", feed.line)
        if not 1 <= feed.number <= len(feeds) or feed.number in taken:
            raise Mistake(f"number {feed.number}: the feeds' numbers are 1 to {len(feeds)}, each once", feed.line)
        taken.add(feed.number)
    return feeds
