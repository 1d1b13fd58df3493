"""`screen`: the verdict on rooms, each a text or a job. No file is written, so no room is judged on an older one."""

from .answer import answer_rows, refused_rows
from .building import make_ready
from .given import job_given
from .layout import rows
from .lent import lender_of
from .options import options_of
from .outcomes import Outcome, lines_outcome, outcome_of, show_lines
from .partner import in_place, side_by_side
from .programs import Refused, asked, by_second_set, judged, partner_lines, report_of
from .tool import Failure, put
from .verdicts import status, tally


def screen(words):
    """The exit status, after each file's answer."""
    options = options_of(words)
    lender = lender_of(options.set_name) if options.set_name else None
    make_ready(programs_of(options))
    kinds = [show(name, options, lender) for name in options.names]
    if not options.is_report and len(kinds) > 1:
        put(f"{tally(kinds)}{', each by the worse of its two verdicts' if options.is_both else ''}\n")
    return status(kinds)


def programs_of(options):
    own = ["screen"] if options.is_report else ["screen", "fan"]
    if not options.set_name:
        return own
    return ["partner", *own] if options.is_both else ["partner"]


def show(name, options, lender):
    shown = show_lines if options.is_report else show_words
    return shown(name, outcome_of(name, lambda name: answer(name, options, lender)), len(options.names) > 1)


def show_words(name, outcome, is_one_of_several):
    """Where there are several files, those that are not answered have their place among them."""
    if not is_one_of_several:
        return show_lines(name, outcome, False)
    put(f"{name}\n{outcome.text or rows([(outcome.kind, outcome.why)])}\n")
    return outcome.kind


def answer(name, options, lender):
    if lender is None:
        return by_its_own(job_given(name), options)
    return by_set(job_given(name, needs_names=True), options, lender)


def by_its_own(given, options):
    """By the room's own coefficients: the lines of the proved program, or the answer in words."""
    if options.is_report:
        return lines_outcome(given, asked("screen", given.data), lambda text: report_of(text).verdict)
    return in_words(given, alone)


def by_set(given, options, lender):
    """The same by a second set, or in words by both."""
    second = lender.bytes_for(given)
    given = lender.told_to(given, options.is_both)
    if options.is_report:
        lines = partner_lines(given.data, second)
        return lines_outcome(given, lines, lambda text: by_second_set(text, given.data)[0].verdict)
    return in_words(given, side_by_side if options.is_both else in_place, lender, second)


def in_words(given, judge, *lent):
    try:
        return Outcome(*judge(given, *lent))
    except Refused as refused:
        return Outcome("refused", rows(refused_rows(given, refused.ground)))


def alone(given):
    """The verdict, and the answer by the room's own coefficients."""
    report, rate = judged(given.data)
    if given.read is None:
        raise Failure("screen accepts it, but it could not be read back, so nothing is shown")
    return report.verdict, rows(answer_rows(given, report, rate))
