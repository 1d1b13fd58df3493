"""Bytes of jobs, books and second sets, for the tests and the recorded cases. It checks nothing: damage must be possible."""

import struct


def bits(number):
    """The 64 bits of a float, as a whole number."""
    return struct.unpack("<Q", struct.pack("<d", number))[0]


def pack_job(v=0, kind=0, medium=0, unit=2, zero=0, target=0, AF=1_000_000, value=0, uncertainty=0,
             child=(350, 6, 96, 10), adult=(350, 20, 96, 20)):
    """The 48 bytes of a job; value and uncertainty are given by their bits, a group's third number in quarter hours."""
    head = struct.pack("<IBBBBIIQQ", v, kind, medium, unit, zero, target, AF, value, uncertainty)
    return head + struct.pack("<4H", *child) + struct.pack("<4H", *adult)


def pack_numbers(inhalation_risk=0, submersion_risk=0, inhalation_dose=0, submersion_dose=0, w=0):
    """A member's five numbers, which stand in its record; a second set is these alone, member by member."""
    return struct.pack("<5I", inhalation_risk, submersion_risk, inhalation_dose, submersion_dose, w)


def pack_member(T, inhalation_risk=0, submersion_risk=0, inhalation_dose=0, submersion_dose=0, w=0,
                first=0, zeros=b"\0\0\0"):
    numbers = pack_numbers(inhalation_risk, submersion_risk, inhalation_dose, submersion_dose, w)
    return struct.pack("<Q", T) + numbers + struct.pack("<B3s", first, zeros)


def pack_feed(share, from_, next_=0, zeros=b"\0\0"):
    return struct.pack("<IBB2s", share, from_, next_, zeros)


def pack_book(members, feeds, W=1_000, n=None, m=None, zeros=b"\0\0\0\0"):
    """The book of packed members and feeds; n and m may be given falsely."""
    n = len(members) if n is None else n
    m = len(feeds) if m is None else m
    return struct.pack("<BBH4s", n, m, W, zeros) + b"".join(members) + b"".join(feeds)


if __name__ == "__main__":
    print(__doc__)
