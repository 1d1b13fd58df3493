"""A job and its book into their bytes."""

import struct

from .text import read_text


def tie(feeds, n):
    """Each member's first feed, and each feed's next: the chains in the order of the lines."""
    first, after, last = [0] * n, {}, {}
    for feed in feeds:
        if feed.into in last:
            after[last[feed.into]] = feed.number
        else:
            first[feed.into] = feed.number
        last[feed.into] = feed.number
    return first, after


def book_bytes(book):
    first, after = tie(book.feeds, len(book.members))
    data = struct.pack("<BBH4x", len(book.members), len(book.feeds), book.divisor)
    for member, head in zip(book.members, first):
        data += struct.pack("<Q5IB3x", member.half_life, *member.numbers(), head)
    for feed in sorted(book.feeds, key=lambda feed: feed.number):
        data += struct.pack("<IBB2x", feed.share, feed.origin, after.get(feed.number, 0))
    return data


def job_bytes(job):
    head = struct.pack("<IBBBx", job.rate, job.kind, job.medium, job.unit)
    head += struct.pack("<IIQQ", job.target, job.attenuation, job.value, job.uncertainty)
    return head + struct.pack("<8H", *job.child, *job.adult)


def all_bytes(job, book):
    """Job and book, or a book alone."""
    return (job_bytes(job) if job else b"") + book_bytes(book)


def encode(source):
    """The bytes of a text."""
    return all_bytes(*read_text(source))
