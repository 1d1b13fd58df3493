"""The proved programs' answers. What is not wholly an answer is a failure, and never taken for one."""

import contextlib
import fcntl
import os
import re
import select
import subprocess
from typing import NamedTuple, Optional

from .building import path_of
from .tool import Failure

LONGEST = 60  # seconds; an answer takes a few thousandths of one, and so does each part of a long one
PIECE = 1 << 16  # bytes; as many as wait at most to be read
STANDARD_INPUT = "/dev/stdin"  # as a file's name
FIRST_OTHER = 3  # the first number of an open file that is neither the input nor an output
REPORT = re.compile(
    r"(?:factor \d+ \d+\n)+"
    r"concentration (?P<concentration>\d+)\n"
    r"verdict (?P<verdict>below|close|above)\n"
    r"level (?P<level>\d+)\n"
    r"equilibrium (?P<equilibrium>none|\d+)\n"
    r"working (?P<working>none|\d+)\n"
)
RATE = re.compile(r"rate (?P<rate>none|\d+)\n")
PARTNER = re.compile(rf"set (?P<set>[12])\n{REPORT.pattern}{RATE.pattern}")
SECOND = "2"  # the number of a set that was lent
REFUSED = re.compile(r"refused (\d+)\n")


class Refused(Exception):
    """The number of the ground on which a program refuses."""

    def __init__(self, ground):
        super().__init__(ground)
        self.ground = ground


class Report(NamedTuple):
    """What `screen` answers of an accepted job; None where it writes `none`."""

    concentration: int  # mBq/m3
    verdict: str
    level: int  # mBq/m3
    equilibrium: Optional[int]  # millionths
    working: Optional[int]  # micro working levels


def asked(name, data, *words, lent=()):
    """The lines that a program writes for what it is given; besides its input it has the open files that are lent it."""
    command = [path_of(name), *words]
    try:
        done = subprocess.run(command, input=data, capture_output=True, timeout=LONGEST, check=False, pass_fds=lent)
    except OSError as error:
        raise Failure(f"{name}: no answer: {error.strerror or error}")
    except subprocess.TimeoutExpired:
        raise Failure(f"{name}: no answer within {LONGEST} seconds")
    said = done.stderr.decode(errors="replace").strip().removeprefix(f"{name}: ")
    if done.returncode != 0 or not done.stdout:
        raise Failure(f"{name}: {said or f'no answer (status {done.returncode})'}")
    return done.stdout.decode("ascii", errors="replace")


def streamed(name, take, *words, lent=()):
    """Gives `take` what a program writes, piece by piece as it comes. The lines that it says of itself go where the command's go."""
    command = [path_of(name), *words]
    try:
        program = subprocess.Popen(command, stdin=subprocess.DEVNULL, stdout=subprocess.PIPE, pass_fds=lent)
    except OSError as error:
        raise Failure(f"{name}: no answer: {error.strerror or error}")
    with program:
        try:
            while piece := next_piece(name, program.stdout.fileno()):
                take(piece.decode("ascii", errors="replace"))
        except BaseException:
            program.kill()
            raise
    if program.returncode != 0:
        raise Failure(f"{name}: no whole answer (status {program.returncode})")


def next_piece(name, output):
    """What is there to be read, or nothing at the end."""
    if not select.select([output], [], [], LONGEST)[0]:
        raise Failure(f"{name}: nothing more within {LONGEST} seconds")
    return os.read(output, PIECE)


@contextlib.contextmanager
def in_memory(data):
    """The number of an open file with these bytes, for a program that takes a file: one in memory, so that none is left behind.
    It is never that of an input or output that the command has not, at which a program would find its own."""
    first_free = os.memfd_create("lent")
    other = fcntl.fcntl(first_free, fcntl.F_DUPFD_CLOEXEC, FIRST_OTHER)
    os.close(first_free)
    with open(other, "wb") as file:
        file.write(data)
        file.flush()
        yield file.fileno()


def matched(name, form, text):
    """The parts of an answer; a refusal is raised, and anything else is none."""
    refused, parts = REFUSED.fullmatch(text), form.fullmatch(text)
    if refused:
        raise Refused(int(refused[1]))
    if not parts:
        raise Failure(f"{name}: no answer: {text[:60]!r}")
    return parts


def number(word):
    return None if word == "none" else int(word)


def report_in(parts):
    counts = (number(parts[word]) for word in ("level", "equilibrium", "working"))
    return Report(int(parts["concentration"]), parts["verdict"], *counts)


def report_of(text):
    return report_in(matched("screen", REPORT, text))


# ---- By a second set of coefficients ------------------------------------------------------------


def partner_lines(data, second):
    """What `partner` writes of a job by a set, which it takes as a file."""
    with in_memory(second) as lent:
        return asked("partner", data, f"/dev/fd/{lent}", lent=[lent])


def by_second_set(text, data):
    """The report and the lowest rate in `partner`'s lines on a job, which must be by the set that was lent it."""
    parts = matched("partner", PARTNER, text)
    if parts["set"] != SECOND:
        raise Failure(f"partner: its answer is by set {parts['set']}, and not by the one that was lent it, so it is not shown")
    return agreed(data, report_in(parts), number(parts["rate"]), "partner", "its lowest rate")


# ---- A room -------------------------------------------------------------------------------------


def screened(data, second=None):
    """The report on a job, by the room's own coefficients or by a second set of them."""
    return report_of(asked("screen", data)) if second is None else judged(data, second)[0]


def judged(data, second=None):
    """The report on a job, and the lowest rate at which it is 'below', in hundredths per hour, or None."""
    if second is not None:
        return by_second_set(partner_lines(data, second), data)
    lowest = number(matched("fan", RATE, asked("fan", data))["rate"])
    return agreed(data, screened(data), lowest, "screen", "fan")


def agreed(data, report, lowest, who, other):
    """The two, which are proved to agree. Programs that do not are no programs of one source, and neither is believed."""
    rate = int.from_bytes(data[:4], "little")
    if (report.verdict == "below") != (lowest is not None and lowest <= rate):
        raise Failure(f"{who} says {report.verdict!r} at rate {rate}, and {other} does not agree, so there is no answer")
    return report, lowest
