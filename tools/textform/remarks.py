"""What to say about a text that was read: what `screen` can be expected to refuse, and notes. What looks wrong is in looks_wrong.

The limits are those of grounds 1 to 18, worked out again here. Nothing is decided by them: `screen` decides.
"""

from decimal import Decimal
from math import ceil
from typing import NamedTuple

from .chain import COEFFICIENTS
from .feeds import SHARES
from .half_life import half_life_text
from .hours import MOST_QUARTERS
from .indoors import PER_UNIT, share_indoors
from .shares import shares_out
from .text import GROUP, KINDS, MEDIA, UNITS, Group
from .words import number_of

MOST = 4_000_000_000  # of a concentration, a coefficient or a weight
MOST_IN_GROUP = Group(366, 100, MOST_QUARTERS, 100)
LONGEST_PARENT, LONGEST_LATER = 10**15, 60_000 * 10**9  # half-lives in nanoseconds


class Remark(NamedTuple):
    ground: int  # 0: none
    line: int
    said: str


# ---- Grounds of the job -------------------------------------------------------------------------


def job_grounds(job):
    found = list(unlisted(job)) + list(too_large(job)) + list(bad_groups(job)) + list(no_readings(job))
    if not any(remark.ground in (2, 7) for remark in found):
        found += reading_too_large(job)
    return found


def unlisted(job):
    for word, number, names in (("kind", job.kind, KINDS), ("medium", job.medium, MEDIA), ("unit", job.unit, UNITS)):
        if number >= len(names):
            yield Remark(2, job.lines[word], f"{word} {number}: one of {', '.join(names)}")


def too_large(job):
    if job.rate > 100_000:
        yield Remark(3, job.lines["rate"], f"rate {job.rate}: at most 100,000 hundredths per hour")
    if job.target > 1_000_000_000:
        yield Remark(4, job.lines["target"], f"target {job.target}: at most 1,000,000,000")
    if job.attenuation > 1_000_000:
        yield Remark(5, job.lines["attenuation"], f"attenuation {job.attenuation}: at most 1,000,000 millionths")
    elif job.medium == 0 and job.attenuation != 1_000_000:
        yield Remark(5, job.lines["attenuation"], f"attenuation {job.attenuation}: for indoor air 1,000,000 millionths, no other")


def group_line(job, word):
    return job.lines.get(word, job.lines.get("exposure"))


def bad_groups(job):
    for word, group in (("child", job.child), ("adult", job.adult)):
        for i, unit in enumerate(GROUP):
            if group[i] > MOST_IN_GROUP[i]:
                said = f"{word}, {unit}, {group.words()[i]}: at most {MOST_IN_GROUP.words()[i]}"
                yield Remark(6, group_line(job, word), said)
    if job.child.years + job.adult.years == 0:
        yield Remark(6, group_line(job, "adult"), "child and adult: one of the two needs years")


def no_readings(job):
    for word, bits in (("value", job.value), ("uncertainty", job.uncertainty)):
        if bits >> 63 or bits >> 52 & 0x7FF == 0x7FF:
            yield Remark(7, job.lines[word], f"{word}: not negative, and a finite number")


def reading_too_large(job):
    """The first part of the reading that is too large, if any."""
    scale = PER_UNIT[job.unit]
    value, uncertainty = (ceil(number_of(bits) * scale) for bits in (job.value, job.uncertainty))
    indoors = ceil((value + uncertainty) * share_indoors(job))
    parts = {"value": value, "uncertainty": uncertainty, "value and uncertainty": value + uncertainty, "indoors": indoors}
    for word, number in parts.items():
        if number > MOST:
            line = job.lines.get(word, job.lines["value"])
            in_unit = "" if word == "indoors" else f", which is {MOST // scale:,} {UNITS[job.unit]}"
            return [Remark(8, line, f"{word}, {amount(number)} mBq/m3: too large; at most {MOST:,}{in_unit}")]
    return []


def amount(number):
    """A long number by its first digits."""
    return f"{number:,}" if number < 10**15 else f"{Decimal(number):.1E}"


# ---- Grounds of the book ------------------------------------------------------------------------


def book_grounds(book):
    found = list(bad_counts(book))
    if book.divisor == 0:
        found.append(Remark(12, book.line, "divisor 0: not 0"))
    for i, member in enumerate(book.members):
        found += bad_member(i, member, book)
    for feed in book.feeds:
        found += bad_feed(feed, book)
    return found + list(unfed(book)) + list(shares_over(book))


def bad_counts(book):
    if not book.members:
        yield Remark(10, 0, "no member: a chain has 1 to 16")
    if len(book.members) > 16:
        yield Remark(10, book.members[16].line, f"{len(book.members)} members: at most 16")
    if len(book.feeds) > 64:
        yield Remark(10, book.feeds[64].line, f"{len(book.feeds)} feeds: at most 64")


def bad_member(i, member, book):
    most = LONGEST_LATER if i else LONGEST_PARENT
    if not 1 <= member.half_life <= most:
        said = f"{book.label(i)}, half-life {half_life_text(member.half_life)}: 1ns to {half_life_text(most)}"
        yield Remark(13, member.line, said)
    for word, number in zip(COEFFICIENTS, member.numbers()):
        if number > MOST:
            yield Remark(13, member.line, f"{book.label(i)}, {word} {number}: at most {MOST:,}")


def bad_feed(feed, book):
    if not 1 <= feed.share <= SHARES:
        yield Remark(14, feed.line, f"feed {feed.share}: a share is 1 to 100,000 hundred-thousandths")
    if feed.into == 0:
        yield Remark(16, feed.line, f"{book.label(0)} is the parent gas: nothing feeds it")
    if feed.origin >= feed.into:
        said = f"from {book.label(feed.origin)} into {book.label(feed.into)}"
        yield Remark(17, feed.line, f"{said}: a feed comes from an earlier member")


def unfed(book):
    fed = {feed.into for feed in book.feeds}
    for i, member in enumerate(book.members):
        if i and i not in fed:
            yield Remark(16, member.line, f"{book.label(i)}: nothing feeds it")


def shares_over(book):
    for i in range(len(book.members)):
        out = shares_out(book.feeds, i)
        if out > SHARES:
            line = [feed.line for feed in book.feeds if feed.origin == i][-1]
            yield Remark(18, line, f"{book.label(i)}: {out:,} of 100,000 shares out, which is too many")


def grounds(job, book):
    """What `screen` can be expected to refuse, in the order in which it looks."""
    found = (job_grounds(job) if job else []) + book_grounds(book)
    return sorted(found, key=lambda remark: remark.ground)


# ---- Notes --------------------------------------------------------------------------------------


def notes(job, book):
    """What is allowed, and deserves a second look."""
    return list(early_ends(book))


def early_ends(book):
    """Shares that end although the chain goes on after them: where it ends as a whole, nothing has to be said."""
    last = max((feed.origin for feed in book.feeds), default=-1)
    for rest in book.rests:
        if rest.word == "ends" and rest.origin <= last:
            said = f"ends {rest.share:,} from {book.label(rest.origin)}: nothing follows them, and the chain goes on"
            yield Remark(0, rest.line, f"{said} from {book.label(last)}")
