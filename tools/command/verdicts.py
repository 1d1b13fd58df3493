"""The verdicts and what else can come of a room: in words, counted, and as an exit status."""

from textform.grounds import GROUNDS
from textform.target import KINDS

from .numerals import count
from .tool import CLEARED, FAILED, NOT_CLEARED

OUTCOMES = ("below", "close", "above", "refused", "unanswered")  # from best to worst
MEANINGS = {
    "below": "cleared at this rate, for this chain: the exact {} is at most the target",
    "close": "not cleared: the exact {} and the target differ by no more than the rounding can make; measure again or air more",
    "above": "not cleared: the exact {} is more than the target",
}
AT_ITS_LARGEST = (
    "the level is at its largest: this room cannot be 'close' or 'above', whatever the meter says; "
    "probably a coefficient is missing"
)


def meaning(verdict, kind):
    return f"{verdict}, so {MEANINGS[verdict].format(KINDS[kind])}"


def ground_in_words(ground):
    """A refusal's number, what is wrong, and where to look."""
    if ground not in GROUNDS:
        return f"ground {ground}, which this tool does not know"
    wrong, look = GROUNDS[ground]
    return f"ground {ground}: {wrong} Where to look: {look}."


def worse(verdicts):
    return max(verdicts, key=OUTCOMES.index)


def both_verdicts(one, other, by_one, by_other):
    """What two verdicts on one room come to."""
    if one == other:
        end = "the room is cleared by both" if one == "below" else "neither clears the room"
        return "they agree", f"both say {one!r}: {end}"
    if "below" not in (one, other):
        return "they differ", f"{one!r} by {by_one}, {other!r} by {by_other}: neither clears the room"
    clears, not_clears = (by_one, by_other) if one == "below" else (by_other, by_one)
    only = f"it is cleared only for a reader who goes by {clears}"
    return "they differ", f"the room is cleared by {clears}, and not by {not_clears}: {only}"


def status(outcomes):
    if any(outcome in ("refused", "unanswered") for outcome in outcomes):
        return FAILED
    return CLEARED if all(outcome == "below" for outcome in outcomes) else NOT_CLEARED


def tally(outcomes):
    """`3 rooms: 1 below, 1 close, 1 refused`."""
    outcomes = list(outcomes)
    told = [f"{outcomes.count(kind):,} {kind}" for kind in OUTCOMES if kind in outcomes]
    return f"{count(len(outcomes), 'room')}: {', '.join(told) or 'none'}"
