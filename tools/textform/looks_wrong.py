"""What looks wrong and is within screen's limits: each is a warning, in words, since the room may be cleared by it.

A level at its largest looks wrong too. It takes the proved program to know one, so this is not the place for it.
"""

from .half_life import half_life_text
from .remarks import Remark, group_line
from .source_000 import printed_half_life
from .target import KINDS, target_text
from .text import GROUP, MEDIA

FASTEST = 2_000  # hundredths per hour
HIGHEST_TARGET = 1_000_000  # in the bytes' unit: 1 in 1,000, or 1,000 mrem per year
FEWEST_MILLIONTHS = 100
USUAL_MILLIONTHS = {1: "30_000", 2: "1_000"}  # of soil gas and groundwater: the defaults of source 001
INHALATION = ("inhalation-risk", "inhalation-dose")
SUBMERSION = ("submersion-risk", "submersion-dose")


def warnings(job, book):
    """What looks wrong, in the order of the lines. The job is None in a book alone."""
    found = list(gas_alone(book)) + list(half_lives(book))
    if job is not None:
        for looked in (rate_high, target_high, attenuation_low, nothing_read, nobody_exposed):
            found += looked(job)
        found += nothing_inhaled(job, book)
    return sorted(found, key=lambda remark: remark.line)


# ---- The book -----------------------------------------------------------------------------------


def gas_alone(book):
    if len(book.members) == 1:
        yield Remark(0, book.members[0].line, f"{book.label(0)} stands alone: no daughter is counted")


def half_lives(book):
    """The unit of a half-life is easily mistyped, and a wrong one may leave out all that follows."""
    for member in book.members:
        printed = printed_half_life(member.name)
        if printed and abs(member.half_life - printed[1]) * 100 > printed[1]:
            said = f"{member.name}: half-life {half_life_text(member.half_life)}, where source 000 prints {printed[0]}"
            yield Remark(0, member.line, said)


# ---- The job ------------------------------------------------------------------------------------


def per_hour(hundredths):
    return f"{hundredths // 100}.{hundredths % 100:02}"


def rate_high(job):
    """`fan` writes hundredths, so that its `rate 90` may have been copied as 90 per hour."""
    if job.rate > FASTEST:
        said = f"rate {job.rate:_}: {per_hour(job.rate)} air changes per hour, more than 20"
        if job.rate % 100 == 0:
            meant = job.rate // 100
            said += f"; if fan's 'rate {meant}' was meant, that is 'rate {per_hour(meant)} per hour'"
        yield Remark(0, job.lines["rate"], said)


def target_high(job):
    if job.target > HIGHEST_TARGET and job.kind < len(KINDS):
        said = f"target {target_text(job.target, job.kind)}: more than {target_text(HIGHEST_TARGET, job.kind)}"
        yield Remark(0, job.lines["target"], f"{said}{('', ' per year')[job.kind]}")


def attenuation_low(job):
    if job.attenuation < FEWEST_MILLIONTHS and job.medium in USUAL_MILLIONTHS:
        said = f"attenuation {job.attenuation}: millionths, and fewer than {FEWEST_MILLIONTHS}"
        usual = f"source 001 has {USUAL_MILLIONTHS[job.medium]} for {MEDIA[job.medium]}"
        yield Remark(0, job.lines["attenuation"], f"{said}; {usual}")


def nothing_read(job):
    """No meter reads 0 without an uncertainty: more likely the lines are still to be filled in."""
    if job.value == job.uncertainty == 0:
        yield Remark(0, job.lines["value"], "value 0 and uncertainty 0: as if there were no gas, so every room is 'below'")


def nobody_exposed(job):
    """Every group that has years has none of something: of days, hours or breathing."""
    lacking = []
    for word, group in (("child", job.child), ("adult", job.adult)):
        if group.years:
            lacking.append([f"{word}, {unit}, 0" for unit, number in zip(GROUP, group) if not number])
    if lacking and all(lacking):
        said = "; ".join(part for parts in lacking for part in parts)
        yield Remark(0, group_line(job, "adult"), f"{said}: as if nobody breathed here")


def nothing_inhaled(job, book):
    if job.kind >= len(KINDS) or not book.members:
        return
    inhalation, submersion = INHALATION[job.kind], SUBMERSION[job.kind]
    if all_zero(book, inhalation):
        said = f"every {inhalation} is 0, so what is breathed does not count"
        if all_zero(book, submersion):
            said = f"every {inhalation} and {submersion} is 0, so every room is 'below'"
        yield Remark(0, job.lines["kind"], f"kind {KINDS[job.kind]}: {said}")


def all_zero(book, word):
    return not any(member.given[word] for member in book.members)
