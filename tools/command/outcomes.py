"""What comes of one file that a program was to answer."""

from typing import NamedTuple

from textform.words import Mistake, in_line, placed

from .programs import Refused, matched
from .tool import Failure, put, tell
from .verdicts import ground_in_words


class Outcome(NamedTuple):
    kind: str  # one of verdicts.OUTCOMES, or 'answered'
    text: str  # what is shown of an answer; empty where there is none
    why: str = ""  # there is none, or a refusal in words
    remarks: tuple = ()  # to be told beside an answer that does not show them


def outcome_of(name, answer):
    """What keeps a file from an answer is no reason for others to wait."""
    try:
        return answer(name)
    except Mistake as mistake:
        return Outcome("refused", "", in_line(mistake.line, mistake))
    except Failure as failure:
        return Outcome("unanswered", "", str(failure))


def lines_outcome(given, text, kind_of):
    """The lines of a proved program as it writes them, if they are an answer; of a refusal there are words besides."""
    try:
        return Outcome(kind_of(text), text, "", given.remarks)
    except Refused as refused:
        return Outcome("refused", text, ground_in_words(refused.ground), given.remarks)


def answered(program, form):
    """The kind of the program's lines where they have this form."""

    def kind_of(text):
        matched(program, form, text)
        return "answered"

    return kind_of


def show_lines(name, outcome, is_one_of_several):
    """Lines to standard output, under the file's name where they could be another's; remarks and reasons to standard error."""
    for remark in outcome.remarks:
        tell(remark.whole(name))
    if outcome.text:
        put((f"{name}\n" if is_one_of_several else "") + outcome.text)
    if outcome.why:
        tell(placed(name, outcome.why))
    return outcome.kind
