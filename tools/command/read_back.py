"""What was read, in words and units: from the job's bytes, so that it says what the programs get."""

from textform.hours import hours_text
from textform.indoors import HENRY
from textform.text import EXPOSURES, KINDS, LARGER_UNITS, MEDIA, UNITS
from textform.words import reading_text

from .numerals import count, decimal, in_a_power, in_words, listed, trimmed

SHOWN_UNITS = {"pCi/m3": "pCi/m³", "Bq/m3": "Bq/m³"}
RISK = KINDS.index("risk")
INDOOR_AIR, GROUNDWATER = MEDIA.index("indoor-air"), MEDIA.index("groundwater")


def read_lines(job, book, said):
    """A line for each thing that was read. What a text said is looked at for its unit alone, which the bytes may not have."""
    return [rate_line(job), target_line(job), reading_line(job, said), *exposure_lines(job), chain_line(book)]


def name_of(names, number):
    """A listed name; a number that the list doesn't have stays one."""
    return names[number] if number < len(names) else f"number {number}"


def unit_of(job):
    unit = name_of(UNITS, job.unit)
    return SHOWN_UNITS.get(unit, unit)


def meter_unit(job, said):
    """The unit of the meter, which the text may say with another name than the bytes, and how many of theirs it is."""
    unit = said.get("unit")
    return (unit, LARGER_UNITS[unit]) if unit in LARGER_UNITS else (unit_of(job), 1)


def medium_of(job):
    return name_of(MEDIA, job.medium).replace("-", " ")


def rate_line(job):
    return f"{decimal(job.rate, 2)} air changes per hour"


def target_line(job):
    kind = name_of(KINDS, job.kind)
    if job.kind == RISK:
        return f"{kind}, target {in_a_power(job.target, 9)}"
    return f"{kind}, target {trimmed(decimal(job.target, 3))} mrem a year"


def reading_line(job, said):
    reading = f"{' + '.join(same_places(job.value, job.uncertainty))} {unit_of(job)}"
    if said.get("unit") in LARGER_UNITS:
        reading = f"{said['value']} + {said['uncertainty']} {said['unit']} ({reading})"
    return f"{medium_of(job)}, {reading}{carried(job)}"


def same_places(*bits):
    """The decimals that are read as these bits, with as many places each: 4.0 and 0.4."""
    words = [reading_text(each) for each in bits]
    if not all(word.replace(".", "").isdigit() for word in words):
        return words
    places = max(len(word.partition(".")[2]) for word in words)
    return [f"{word.partition('.')[0]}.{word.partition('.')[2]:0<{places}}" if places else word for word in words]


def carried(job):
    """How the reading gets into the room's air."""
    if job.medium == INDOOR_AIR:
        return ""
    water = f"{decimal(HENRY, 2)} and by " if job.medium == GROUNDWATER else ""
    return f", multiplied by {water}the attenuation {trimmed(decimal(job.attenuation, 6))}"


def exposure_lines(job):
    groups = {"child": job.child, "adult": job.adult}
    name = next((name for name, both in EXPOSURES.items() if both == (job.child, job.adult)), None)
    told = {word: group for word, group in groups.items() if any(group)} or groups
    alone = len(told) == 1
    for word, group in told.items():
        who = ", ".join(part for part in (name, None if name and alone else word) if part)
        yield f"{who}, {group_words(group)}"


def group_words(group):
    stay = f"{count(group.days, 'day')} a year for {count(group.years, 'year')}"
    hours = "1 hour" if group.quarter_hours == 4 else f"{hours_text(group.quarter_hours)} hours"
    return f"{stay}, {hours} a day, {group.breathing} m³ of air a day"


def chain_line(book):
    labels = [book.label(i) for i in range(len(book.members))]
    if len(labels) == 1:
        return f"{labels[0]} alone, no daughters"
    origins = {feed.origin for feed in book.feeds}
    ends = [label for i, label in enumerate(labels) if i not in origins]
    return f"{labels[0]} and {in_words(len(labels) - 1, 'daughter')}, ending with {listed(ends)}"
