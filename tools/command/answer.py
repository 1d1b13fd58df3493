"""One room's answer as lines: what was read, the verdict, and the figures of the proved programs in units."""

from textform.remarks import MOST

from .meter import level_on_meter
from .numerals import decimal
from .read_back import INDOOR_AIR, medium_of, meter_unit, read_lines
from .verdicts import AT_ITS_LARGEST, ground_in_words, meaning


def answer_rows(given, report, rate):
    """The answer to an accepted job. The programs' word on it comes after what was read."""
    return [*read_rows(given), *largest_rows(report), *judged_rows(given, report, rate)]


def read_rows(given):
    rows = [("read", line) for line in read_lines(*given.read, given.said)] if given.read else []
    return rows + [(remark.kind, remark.placed()) for remark in given.remarks]


def largest_rows(report, whose=""):
    if report.level == MOST:
        yield "warning", f"{whose}{AT_ITS_LARGEST}"


def judged_rows(given, report, rate, second=None):
    """What the programs say, by the room's own coefficients or by a second set of them."""
    verdict, *figures = compared_rows(given, report, rate, second)
    return [verdict, concentration_row(report), *figures]


def compared_rows(given, report, rate, second=None):
    """What another set of coefficients may change: all but the concentration."""
    job = given.read[0]
    unit, size = meter_unit(job, given.said)
    reading = level_on_meter(report.level, job, given.data, size, second)
    return [
        ("verdict", meaning(report.verdict, job.kind)),
        ("level", f"{report.level:,} mBq/m³ indoors, the highest concentration that is 'below'"),
        ("level", f"{reading} {unit} on the meter{in_medium(job)}, without uncertainty, rounded down"),
        ("lowest rate", rate_words(rate)),
        ("equilibrium", "none" if report.equilibrium is None else f"factor {decimal(report.equilibrium, 6)}"),
        ("working level", "none" if report.working is None else decimal(report.working, 6)),
    ]


def concentration_row(report):
    return "concentration", f"{report.concentration:,} mBq/m³ indoors, rounded up"


def in_medium(job):
    return "" if job.medium == INDOOR_AIR else f" in {medium_of(job)}"


def rate_words(rate):
    return "no rate is enough" if rate is None else f"{decimal(rate, 2)} per hour (rate {rate})"


def refused_rows(given, ground):
    """A refused job: what could be read of it, and why; the lines that foresaw the refusal stand with it."""
    return [*read_rows(given), ("refused", ground_in_words(ground))]
