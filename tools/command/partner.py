"""A room by a second set of coefficients: in place of its own, or beside them."""

from .answer import compared_rows, concentration_row, judged_rows, largest_rows, read_rows
from .layout import beside, rows
from .programs import judged
from .tool import Failure
from .verdicts import both_verdicts, worse

OWN = "the room's own"


def in_place(given, lender, second):
    """The verdict, and the answer by the second set alone."""
    report, rate = judged(given.data, second)
    whose = ("coefficients", f"those of {lender.shown()}, in place of {OWN}")
    shown = [*read_rows(given), *largest_rows(report), whose, *judged_rows(given, report, rate, second)]
    return report.verdict, rows(shown)


def side_by_side(given, lender, second):
    """The worse of the two verdicts, and both answers."""
    name = lender.second.name
    own, other = judged(given.data), judged(given.data, second)
    if own[0].concentration != other[0].concentration:
        raise Failure("screen and partner do not agree on the concentration, so there is no answer")
    head = [
        *read_rows(given),
        *largest_rows(own[0], f"by {OWN}: "),
        *largest_rows(other[0], f"by {name}: "),
        ("coefficients", f"{OWN}, and beside them those of {lender.shown()}"),
        concentration_row(own[0]),
    ]
    left = [("", OWN), *compared_rows(given, *own)]
    right = [("", name), *compared_rows(given, *other, second)]
    verdicts = own[0].verdict, other[0].verdict
    return worse(verdicts), rows(head) + beside(left, right) + rows([both_verdicts(*verdicts, f"{OWN} coefficients", name)])
