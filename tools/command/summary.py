"""What the rooms of a table came to, worst first."""

from fractions import Fraction

from .answer import rate_words
from .layout import rows
from .numerals import count
from .verdicts import OUTCOMES, tally

MOST_SHOWN = 20  # rooms of a kind; the table of results has all


def summary(found, results):
    """How many of each, then the rooms that are not cleared, of the cleared the one nearest to its level, and what looks wrong."""
    lines = tally(judged.kind for judged in found) + "\n"
    for kind in reversed(OUTCOMES):
        of_kind = sorted((judged for judged in found if judged.kind == kind), key=excess, reverse=True)
        most = 1 if kind == "below" else MOST_SHOWN
        lines += rows((kind, row_of(judged)) for judged in of_kind[:most])
        if len(of_kind) > most:
            lines += rows([("", f"and {len(of_kind) - most:,} more {kind}, in {results}")])
    return lines + warnings(found, results)


def warnings(found, results):
    """What looks wrong in rooms that have a verdict, since some may be cleared by it: each once, with the first such room."""
    told = {}
    for judged in found:
        for remark in judged.remarks() if judged.report else []:
            told.setdefault((remark.kind, remark.said), []).append(judged)
    shown = [(kind, f"{first_of(rooms)}: {said}") for (kind, said), rooms in told.items()]
    lines = rows(shown[:MOST_SHOWN])
    return lines + (rows([("", f"and {len(shown) - MOST_SHOWN:,} more, in {results}")]) if len(shown) > MOST_SHOWN else "")


def first_of(rooms):
    others = f" and {count(len(rooms) - 1, 'more room')}" if len(rooms) > 1 else ""
    return f"{rooms[0].name}, line {rooms[0].line}{others}"


def excess(judged):
    """How many times the level the concentration is; those without figures keep their order."""
    if judged.report is None:
        return Fraction(-judged.line)
    return Fraction(judged.report.concentration, judged.report.level or 1)


def row_of(judged):
    name = judged.name or "(no name)"
    if judged.report is None:
        return f"{name}, line {judged.line}: {judged.why}"
    report = judged.report
    return f"{name}: {report.concentration:,} mBq/m³, level {report.level:,}; lowest rate {rate_words(judged.rate)}"
