"""The bytes of a job and its book, or of a book alone, into a text."""

import struct

from .chain import COEFFICIENTS, numbers_of_names
from .half_life import half_life_text
from .hours import may_be_whole_hours
from .shares import rest_lines
from .target import target_text
from .text import EXPOSURES, GROUPS, KINDS, MEDIA, UNITS, Group, Text
from .words import Mistake, reading_text

JOB = 48  # bytes, before the book


def is_book(data):
    return len(data) >= 8 and len(data) == 8 + 32 * data[0] + 8 * data[1]


def listed_text(number, names):
    return names[number] if number < len(names) else str(number)


def need_zero(data, where):
    if any(data):
        raise Mistake(f"a zero byte of {where} isn't zero, so no text says the same")


def old_hours(group):
    """What a group's hours are if the job is an old one."""
    hours = group.quarter_hours
    return f"  # or {hours} hours, if the job was written in whole hours, as jobs used to be" if hours else ""


def group_lines(child, adult):
    numbers = [" ".join((word, *group.words())) for word, group in zip(GROUPS, (child, adult))]
    if may_be_whole_hours(child.quarter_hours, adult.quarter_hours):
        return [f"{line}{old_hours(group)}" for line, group in zip(numbers, (child, adult))]
    for name, groups in EXPOSURES.items():
        if groups == (child, adult):
            return [f"exposure {name}  # {', '.join(numbers)}"]
    return numbers


def decode_job(data):
    v, kind, medium, unit, zero, target, AF, value, uncertainty = struct.unpack_from("<IBBB1sIIQQ", data)
    groups = struct.unpack_from("<8H", data, 32)
    need_zero(zero, "the job")
    return [
        "# Job",
        f"rate {v} hundredths",
        f"kind {listed_text(kind, KINDS)}",
        f"medium {listed_text(medium, MEDIA)}",
        f"unit {listed_text(unit, UNITS)}",
        f"target {target_text(target, kind)}",
        f"attenuation {AF}",
        f"value {reading_text(value)}",
        f"uncertainty {reading_text(uncertainty)}",
    ] + group_lines(Group(*groups[:4]), Group(*groups[4:]))


def walked(first, feeds):
    """(member, feed number) in walking order; every feed must come up exactly once."""
    order, seen = [], set()
    for i, number in enumerate(first):
        while number != 0:
            if number > len(feeds):
                raise Mistake(f"the chain of member {i} leads to feed {number}, but there are {len(feeds)}")
            if number in seen:
                raise Mistake(f"feed {number} comes up twice")
            seen.add(number)
            order.append((i, number))
            number = feeds[number - 1][2]
    for number in range(1, len(feeds) + 1):
        if number not in seen:
            raise Mistake(f"feed {number} never comes up, so no line can say into which member it leads")
    return order


def names_of(source, members):
    """The members' names in a text, which must be of the same chain."""
    if source is None:
        return [None] * len(members)
    try:
        return same_chain_names(source, members)
    except Mistake as mistake:
        mistake.in_names = True
        raise


def same_chain_names(source, members):
    """The names, where the text has as many members, with the same half-lives."""
    named = Text(source).members
    numbers_of_names(named)
    if not named:
        raise Mistake("has no member line; '>' into this file would have emptied it before it was read: give OUT instead")
    if len(named) != len(members):
        raise Mistake(f"is of another chain: it has {len(named)} members, the bytes {len(members)}")
    for i, (ours, theirs) in enumerate(zip(named, members)):
        if ours.half_life != theirs[0]:
            lives = f"{half_life_text(ours.half_life)}, the bytes {half_life_text(theirs[0])}"
            raise Mistake(f"is of another chain: its member {i} has the half-life {lives}", ours.line)
    return [member.name for member in named]


def member_lines(members, names):
    lines = []
    for i, member in enumerate(members):
        need_zero(member[7], f"member {i}")
        pairs = " ".join(f"{word} {number}" for word, number in zip(COEFFICIENTS, member[1:6]))
        name = f"{names[i]} " if names[i] else ""
        lines.append(f"member {name}half-life {half_life_text(member[0])} {pairs}  # member {i}")
    return lines


def feed_lines(members, feeds, names):
    lines, order = [], walked([member[6] for member in members], feeds)
    is_plain = [number for _, number in order] == list(range(1, len(feeds) + 1))
    for into, number in order:
        share, origin, _, zeros = feeds[number - 1]
        need_zero(zeros, f"feed {number}")
        if origin >= len(members):
            raise Mistake(f"feed {number} comes from member {origin}, but they are 0 to {len(members) - 1}")
        said = f"feed {share} from {names[origin] or origin} into {names[into] or into}"
        lines.append(said if is_plain else f"{said} number {number}")
    return lines


def decode_book(data, names_source=None):
    n, m, W, zeros = struct.unpack_from("<BBH4s", data)
    need_zero(zeros, "the book's head")
    members = [struct.unpack_from("<Q5IB3s", data, 8 + 32 * i) for i in range(n)]
    feeds = [struct.unpack_from("<IBB2s", data, 8 + 32 * n + 8 * k) for k in range(m)]
    names = names_of(names_source, members)
    lines = ["# Book", f"divisor {W}"] + member_lines(members, names) + feed_lines(members, feeds, names)
    return lines + list(rest_lines(feeds, names))


def decode(data, form=None, names_source=None):
    """The text of the bytes. The form is 'job' or 'book'; None lets the length tell. Names come from another text."""
    fits = {"book": is_book(data), "job": len(data) >= JOB and is_book(data[JOB:])}
    if form is None and fits["book"] and fits["job"]:
        raise Mistake("the length fits a book alone and a job with its book: say --book or --job")
    if form is None and not fits["book"] and not fits["job"]:
        raise Mistake(f"the length, {len(data):,} bytes, fits neither a book nor a job with its book")
    if form is not None and not fits[form]:
        raise Mistake(f"the length, {len(data):,} bytes, does not fit a {form}")
    if form == "book" or (form is None and fits["book"]):
        lines = decode_book(data, names_source)
    else:
        lines = decode_job(data) + decode_book(data[JOB:], names_source)
    return "".join(line + "\n" for line in lines)
