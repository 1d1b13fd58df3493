"""The texts that the tests change, and what they ask of one."""

import pathlib

from textform import looks_wrong, remarks
from textform.chain import numbers_of_names
from textform.feeds import feed_of
from textform.shares import rest_lines
from textform.text import Text, read_text
from textform.words import Mistake

EXAMPLES = pathlib.Path(__file__).resolve().parents[1] / "examples"
ROOMS = sorted(path for path in EXAMPLES.glob("*.txt") if path.stem != "partner")  # that one is a set of coefficients
RADON = """\
rate 18
kind risk            # a comment
medium indoor-air
unit pCi/L
target 1_610
attenuation 1_000_000
value 4.0
uncertainty 0.5
child 350 6 24 10
adult 350 20 24 20

divisor 1_000
member Rn-222 half-life 3.8235d inhalation-risk 0 submersion-risk 0 weight 0
member Po-218 half-life 3.10m inhalation-risk 1000 submersion-risk 0 weight 61_134
member half-life 26.8m inhalation-risk 0 submersion-risk 7 weight 0   # no name: only its number
feed 100_000 from Rn-222 into Po-218
feed 99_980 from Po-218 into 2
ends 20 from Po-218
ends 100_000 from 2
"""
ALONE = """\
divisor 75
member half-life 1ns inhalation-risk 0 submersion-risk 0 inhalation-dose 0 submersion-dose 0 weight 0
member A half-life 1ns weight 0 inhalation-risk 0 submersion-risk 0 inhalation-dose 0 submersion-dose 0
"""


def example(name):
    return (EXAMPLES / f"{name}.txt").read_text(encoding="utf-8")


def changed(old, new, text=RADON):
    assert text.count(old) == 1, old
    return text.replace(old, new)


def accounted(text):
    """The text with the lines `ends` and `surplus` that its feeds ask."""
    lines = [line for line in text.splitlines() if not line.startswith(("ends", "surplus"))]
    kept = Text("\n".join(lines))
    names = numbers_of_names(kept.members)
    feeds = [feed_of(words, names, len(kept.members), line) for words, line in kept.feeds]
    return "\n".join([*lines, *rest_lines(feeds, [member.name for member in kept.members])])


def mistake_of(call, *arguments):
    try:
        call(*arguments)
    except Mistake as mistake:
        return f"line {mistake.line}: {mistake}"
    raise AssertionError(f"no mistake found in {arguments}")


def foreseen(text):
    return [(remark.ground, remark.line) for remark in remarks.grounds(*read_text(text))]


def noted(text):
    return [f"line {note.line}: {note.said}" for note in remarks.notes(*read_text(text))]


def warned(text):
    return [f"line {warning.line}: {warning.said}" for warning in looks_wrong.warnings(*read_text(text))]
