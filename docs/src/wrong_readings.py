"""Are recorded cases sharp? The harness for wrong readings of the documents: each is planted in the reference's source,
and the reference must then give another answer to some recorded case.

A wrong reading is what is wrong, the reference's text and the text put in its place. A test is a list of them; it may say
how a reference is prepared before it is asked, and which of the recorded cases are tried.
"""

import pathlib
import types

import recorded
from plain_help import answer_help
from tally import say_passed

SOURCE = pathlib.Path(__file__).with_name("reference.py").read_text(encoding="utf-8")


# ---- Texts for a list of wrong readings ----------------------------------------------------------


def between(start, end):
    """The reference's text from one place up to another."""
    return SOURCE[SOURCE.index(start) : SOURCE.index(end)]


def in_place_of(text):
    """What makes a wrong reading of other lines, or of the same in another order, in place of these."""
    return lambda *lines: (text, "".join(lines))


def book_but_before(ground, check):
    """The lines of a call that read the book, with a check of the call made before this ground of the book and all later ones."""
    return ("        try:\n            book = read_book(book_bytes)\n        except Refused as refusal:\n"
            f"            refuse_if(refusal.number >= {ground} and {check})\n            raise\n")


# Rows of several lists: what every call rests on.
K_ONE_LESS = ("K one less", "K = 249_532_985_160_000", "K = 249_532_985_159_999")
SHARES_OUT_FREE = ("18 not made", "if feed.from_ == i) > 100_000", "if feed.from_ == i) > 10**9")
SHARES_IN = ("shares into a member limited", "if feed.from_ == i) > 100_000", "if feed in [feeds[k] for k in chains[i]]) > 100_000")
RATE_LIMITS = [
    ("a rate of 100,000 refused", "refuse_if(v > 100_000, 3)", "refuse_if(v >= 100_000, 3)"),
    ("a rate of 100,001 taken", "refuse_if(v > 100_000, 3)", "refuse_if(v > 100_001, 3)"),
]


# ---- Trying them ---------------------------------------------------------------------------------


def as_it_is(reference):
    """A reference that is asked without preparation."""


def every(cases):
    return cases


def reference_from(source):
    """The reference with the given source."""
    module = types.ModuleType("reference_under_test")
    exec(compile(source, "reference_under_test", "exec"), module.__dict__)
    return module


def answers(source, kind, prepare, bodies):
    """What a reference with the given source answers; a crash counts as an answer of its own."""
    reference = reference_from(source)
    prepare(reference)
    answer = recorded.answers_of(kind, reference)
    for body in bodies:
        try:
            yield answer(body)
        except Exception as error:
            yield repr(error)


def recorded_cases(kind, prepare=as_it_is):
    """The recorded cases of one kind, each with the reference's answer, which is the recorded one."""
    cases = recorded.read_cases(kind)
    for text, (body, right) in zip(answers(SOURCE, kind, prepare, [body for body, _ in cases]), cases):
        assert text == right, ("the recorded answers are the reference's", body, text, right)
    print(f"{len(cases)} recorded answers are the reference's")
    return cases


def changed(texts, cases, enough):
    """How many answers differ, counted up to `enough`, or all where that is None."""
    count = 0
    for text, (_, right) in zip(texts, cases):
        count += text != right
        if count == enough:
            break
    return count


def check_seen(mistakes, kind, prepare, cases, enough):
    """Tries every wrong reading."""
    bodies, missed = [body for body, _ in cases], []
    for what, old, new in mistakes:
        assert SOURCE.count(old) == 1, (what, SOURCE.count(old))
        count = changed(answers(SOURCE.replace(old, new), kind, prepare, bodies), cases, enough)
        print(f"{count:5d} answers {'and more ' if count == enough else ''}change: {what}")
        if count == 0:
            missed.append(what)
    assert not missed, missed
    print(f"{len(mistakes)} wrong readings, each seen by the recorded cases")


def run(description, kind, mistakes, prepare=as_it_is, choose=every, enough=None):
    """A file of such a test: the recorded answers are the reference's, and no wrong reading gives all the chosen ones."""
    answer_help(description)
    check_seen(mistakes, kind, prepare, choose(recorded_cases(kind, prepare)), enough)
    say_passed(1 + len(mistakes))


if __name__ == "__main__":
    print(__doc__)
