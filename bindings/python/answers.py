"""What the tests of the calls share: the recorded cases, and the library's answers as the programs write them."""

import ctypes
import pathlib
import sys

ROOT = pathlib.Path(__file__).resolve().parents[2]
sys.path.insert(0, str(ROOT / "docs" / "src"))

import recorded
from jelmorand._library import LIBRARY, Figures


def recorded_bodies(kind=recorded.JOB):
    return [body for body, _ in recorded.read_cases(kind)]


def recorded_answers(kind):
    return [answer for _, answer in recorded.read_cases(kind)]


def text_of(report):
    """The text that a report with these fields has."""
    working = report.working
    lines = [f"factor {i} {grains}" for i, grains in enumerate(report.factors)]
    lines += [f"concentration {report.concentration}", f"verdict {report.verdict}", f"level {report.level}"]
    lines += [f"equilibrium {working.equilibrium if working else 'none'}", f"working {working.micro if working else 'none'}"]
    return "".join(line + "\n" for line in lines)


def lent_figures(job, room, call=LIBRARY.jelmorand_screen, beside=()):
    """The answer, the figures and the whole list; each number was 7 before the call. What is lent beside the job stands between."""
    figures, places = Figures(*[7] * 6), (ctypes.c_uint64 * room)(*[7] * room)
    answer = call(job, len(job), *beside, ctypes.byref(figures), places, room)
    return answer, [getattr(figures, name) for name, _ in figures._fields_], list(places)


def expected_figures(text, room):
    """The same by a report's text."""
    lines = [line.split(" ") for line in text.splitlines()]
    factors = [int(line[2]) for line in lines if line[0] == "factor"]
    refusal = int(lines[0][1]) if lines[0][0] == "refused" else 19 if len(factors) > room else 0
    if refusal:
        return -refusal, [7] * 6, [7] * room
    words = {line[0]: line[1] for line in lines if line[0] != "factor"}
    verdict = 1 + ("below", "close", "above").index(words["verdict"])
    numbers = [2**64 - 1 if words[name] == "none" else int(words[name]) for name in ("concentration", "level", "equilibrium", "working")]
    return len(factors), [verdict, *numbers, len(factors)], factors + [7] * (room - len(factors))


def rate_text(rate):
    """The line that `fan` writes of a rate."""
    return f"rate {'none' if rate is None else rate}\n"
