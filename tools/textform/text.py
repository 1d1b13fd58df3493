"""A text, line by line, into the numbers of a job and its book, each with the line that it comes from."""

import re
from typing import NamedTuple

from .chain import book_of, member_of
from .hours import hours_text, quarters_of
from .target import KINDS, target_of
from .words import Mistake, exact, fitting, one_of, reading, shown, whole

MEDIA = ("indoor-air", "soil-gas", "groundwater")
UNITS = ("pCi/L", "pCi/m3", "Bq/m3")
LARGER_UNITS = {"Bq/L": 1_000}  # of a text alone, each so many Bq/m3, which is the unit in the bytes
GROUP = ("days per year", "years", "hours per day", "m3 breathed per day")
GROUPS = ("child", "adult")
JOB_WORDS = ("rate", "kind", "medium", "unit", "target", "attenuation", "value", "uncertainty", *GROUPS)
ROOM_WORDS = JOB_WORDS + ("exposure",)
LINE_WORDS = ROOM_WORDS + ("divisor", "member", "feed", "ends", "surplus")
SET = "set"  # a line of the other form of text
ROOM_TEXT, SET_TEXT = "a room's text", "a set of coefficients"


class Group(NamedTuple):
    days: int  # per year
    years: int
    quarter_hours: int  # per day
    breathing: int  # m3 per day

    def words(self):
        """The numbers as a line says them, which has hours for the quarter hours."""
        return str(self.days), str(self.years), hours_text(self.quarter_hours), str(self.breathing)


EXPOSURES = {  # the defaults by name: child, adult
    "residential": (Group(350, 6, 96, 10), Group(350, 20, 96, 20)),
    "worker": (Group(0, 0, 0, 0), Group(250, 25, 32, 60)),
}


class Job(NamedTuple):
    rate: int
    kind: int
    medium: int
    unit: int
    target: int
    attenuation: int
    value: int  # the bits of an f64
    uncertainty: int
    child: Group
    adult: Group
    lines: dict  # the line of each word


# ---- Lines --------------------------------------------------------------------------------------


def lines_of(source):
    return re.split(r"\r\n|\r|\n", source)


def words_of(line):
    """A line's words, without its comment."""
    return line.split("#")[0].split()


def lines_said(source):
    """Each line that says something: its first word, its other words, and its number."""
    for line, raw in enumerate(lines_of(source), 1):
        words = words_of(raw)
        if words:
            yield words[0], words[1:], line


def check_not_exchanged(lines, wanted):
    """One of the two forms of text in the place of the other. Both have member lines."""
    found = {
        ROOM_TEXT: [line for word, _, line in lines if word in LINE_WORDS and word != "member"],
        SET_TEXT: [line for word, _, line in lines if word == SET],
    }
    other = SET_TEXT if wanted == ROOM_TEXT else ROOM_TEXT
    if found[other] and not found[wanted]:
        raise Mistake(f"this looks like {other}, and not like {wanted}", found[other][0])


class Text:
    """The fields, members, feeds and other shares that the lines of a text say."""

    def __init__(self, source):
        self.fields, self.members, self.feeds, self.rests = {}, [], [], []
        lines = list(lines_said(source))
        check_not_exchanged(lines, ROOM_TEXT)
        for word, rest, line in lines:
            self.take(word, rest, line)

    def take(self, word, rest, line):
        if word not in LINE_WORDS:
            raise Mistake(f"a line starts with one of {', '.join(LINE_WORDS)}, not with {shown(word)}", line)
        if word == "member":
            self.members.append(member_of(rest, line))
        elif word == "feed":
            self.feeds.append((rest, line))
        elif word in ("ends", "surplus"):
            self.rests.append((word, rest, line))
        elif word in self.fields:
            raise Mistake(f"{word}: was already given in line {self.fields[word][1]}", line)
        elif not rest:
            raise Mistake(f"{word}: nothing stands after it", line)
        else:
            self.fields[word] = (rest, line)

    def is_empty(self):
        return not (self.fields or self.members or self.feeds or self.rests)

    def one(self, word, expected):
        """The single word of a field, and its line."""
        rest, line = self.fields[word]
        if len(rest) != 1:
            raise Mistake(f"{word} {shown(' '.join(rest))}: {expected}, alone", line)
        return rest[0], line

    def has_job(self):
        """Whether there is a job: all of its lines, or none."""
        given = [word for word in ROOM_WORDS if word in self.fields]
        missing = [word for word in JOB_WORDS if word not in self.fields]
        if "exposure" in self.fields:
            self.check_exposure_alone()
            missing = [word for word in missing if word not in GROUPS]
        if given and missing:
            raise Mistake(f"the job has no line for {', '.join(missing)}", self.fields[given[0]][1])
        return bool(given)

    def check_exposure_alone(self):
        for word in GROUPS:
            if word in self.fields:
                named, line = self.fields["exposure"][1], self.fields[word][1]
                raise Mistake(f"{word}: line {named} gives both groups by name, so leave one of the two out", line)


# ---- The job ------------------------------------------------------------------------------------


def job_of(text):
    """The job, or None where the text is a book alone."""
    if not text.has_job():
        return None
    kind, (unit, *said) = listed(text, "kind", KINDS), unit_of(text)
    attenuation, line = text.one("attenuation", "whole millionths")
    child, adult = groups_of(text)
    return Job(
        rate_of(*text.fields["rate"]),
        kind,
        listed(text, "medium", MEDIA),
        unit,
        target_of(text.fields["target"][0], kind, text.fields["target"][1]),
        whole(attenuation, 4, "attenuation", "whole millionths", line, 10**6),
        reading_of(text, "value", *said),
        reading_of(text, "uncertainty", *said),
        child,
        adult,
        {word: line for word, (_, line) in text.fields.items()},
    )


def listed(text, word, names):
    rest, line = text.fields[word]
    return one_of(rest, names, word, line)


def unit_of(text):
    """The unit in the bytes; the one that the text says, and how many of the first it is."""
    rest, line = text.fields["unit"]
    words = [word.replace("\u00b3", "3") for word in rest]
    unit = one_of(words, (*UNITS, *LARGER_UNITS), "unit", line)
    if words[0] in LARGER_UNITS:
        return UNITS.index("Bq/m3"), words[0], LARGER_UNITS[words[0]]
    return unit, UNITS[unit] if unit < len(UNITS) else "the unit", 1


def reading_of(text, word, unit_name, times):
    value, line = text.one(word, f"a decimal number of {unit_name} (its unit is the line 'unit')")
    return reading(value, word, unit_name, line, times)


def rate_of(words, line):
    """`18`, `18 hundredths` or `0.18 per hour`, in hundredths of an air change per hour."""
    said = f"rate {shown(' '.join(words))}"
    if words[1:] in ([], ["hundredths"]):
        return whole(words[0], 4, "rate", "whole hundredths per hour", line, 100)
    number = exact(words[0], "rate", line)
    if words[1:] != ["per", "hour"] or number is None:
        raise Mistake(f"{said}: whole hundredths per hour, such as '18 hundredths' or '18', or '0.18 per hour'", line)
    if (number * 100).denominator != 1:
        raise Mistake(f"{said}: no more than two decimals; the lower of the two nearest is the safer one", line)
    return fitting(int(number * 100), 4, f"{said}: hundredths", line)


def groups_of(text):
    if "exposure" not in text.fields:
        return group_of(text, "child"), group_of(text, "adult")
    word, line = text.one("exposure", "residential or worker")
    if word not in EXPOSURES:
        raise Mistake(f"exposure {shown(word)}: residential or worker; any other by the lines child and adult", line)
    return EXPOSURES[word]


def group_of(text, word):
    """A group's line. Its hours may be several words, such as `7 h 45`: they are all between the years and the last word."""
    rest, line = text.fields[word]
    if len(rest) < 4:
        raise Mistake(f"{word} {shown(' '.join(rest))}: 4 numbers, {', '.join(GROUP)}", line)
    what = [f"{word}, {unit}," for unit in GROUP]
    days, years, breathing = (whole(rest[i], 2, what[i], "a whole number", line) for i in (0, 1, -1))
    return Group(days, years, quarters_of(rest[2:-1], what[2], line), breathing)


def read_text(source):
    """The job (None in a book alone) and the book that a text says."""
    text = Text(source)
    if text.is_empty():
        raise Mistake("the text is empty: no line of it says anything; examples/radon.txt is a whole one")
    job = job_of(text)
    return job, book_of(text, job.kind if job else None)
