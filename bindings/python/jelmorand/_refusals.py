"""Why a call is refused. The sentences are the library's."""

from typing import Dict

from ._library import LIBRARY


def _sentence(number: int) -> str:
    return LIBRARY.jelmorand_refusal_sentence(number).decode("ascii")


def _grounds() -> Dict[int, str]:
    """The library's list, which starts at 1, up to the first number that it does not know."""
    unknown, grounds = _sentence(0), {}
    while _sentence(len(grounds) + 1) != unknown:
        grounds[len(grounds) + 1] = _sentence(len(grounds) + 1)
    return grounds


GROUNDS = _grounds()
"""The grounds for refusal by number, in checking order save that 22 comes straight after 3, and 23 and 24 straight after 18, in the
words of the C header."""


class Refused(ValueError):
    """A job, a call for factors, one of many rates or a table that is refused, for the first of the grounds that is met.

    `number` is the ground's number, the one that a refused report prints, and `sentence` says what is wrong. A number that is not
    among the GROUNDS is a refusal all the same.
    """

    number: int
    sentence: str

    def __init__(self, number: int) -> None:
        self.number = number
        self.sentence = _sentence(number)
        super().__init__(f"refused {number}: {self.sentence}")

    def __reduce__(self):
        return Refused, (self.number,)


def answered(answer: int) -> int:
    """The answer itself where it is not negative, and minus the refusal's number otherwise: every call answers so."""
    if answer < 0:
        raise Refused(-answer)
    return answer
