"""The harness for recorders: it makes the recorded cases of one kind, with the reference's answers.

A recorder says what its calls are: those typed with their answers from the documents, and those drawn from a fixed seed,
the same every time. The harness asks the reference, holds it to the typed answers and to what else the recorder checks,
and counts: how many answers there are of each sort, of which there must be enough.
"""

import typing

import reference as ref
from draws import Random
from recorded import Kind


def nothing(*_):
    return []


def equal(typed, answer):
    return typed == answer


class Recorder(typing.NamedTuple):
    """One kind's calls, each a tuple of the parts that the reference's function takes."""

    kind: Kind
    least: int  # of each sort that is counted
    sorts: typing.Callable  # the calls and their answers to the count of each sort
    typed: typing.Callable = nothing  # the calls typed from the documents, each with its answer as one part more
    drawn: typing.Callable = nothing  # the generator of random numbers to the other calls
    seed: int = 0
    agrees: typing.Callable = equal  # is the reference's answer the typed one?
    check: typing.Callable = nothing  # what else the calls and their answers must keep
    typed_last: bool = False


class Made(typing.NamedTuple):
    bodies: list
    texts: list
    counts: dict


def calls_of(recorder):
    """The parts of each call, and the typed answer or None, in the order of the record."""
    typed = [(tuple(parts), right) for *parts, right in recorder.typed()]
    drawn = [(parts, None) for parts in recorder.drawn(Random(recorder.seed))]
    return drawn + typed if recorder.typed_last else typed + drawn


def answered(recorder, calls):
    """The reference's answers; where one was typed it must be that."""
    answer, answers = getattr(ref, recorder.kind.asks), []
    for parts, right in calls:
        answers.append(answer(*parts))
        assert right is None or recorder.agrees(right, answers[-1]), (parts, right, answers[-1])
    return answers


def make(recorder):
    """The bodies, what is written of each, and how many there are of each sort."""
    both = calls_of(recorder)
    answers, calls = answered(recorder, both), [parts for parts, _ in both]
    recorder.check(calls, answers)
    bodies = [recorder.kind.pack(*parts) for parts in calls]
    texts = [recorder.kind.text(answer, *parts) for answer, parts in zip(answers, calls)]
    counts = recorder.sorts(calls, answers)
    assert min(counts.values()) >= recorder.least, counts
    return Made(bodies, texts, counts)


def outcomes(answers, name, grounds):
    """How many calls are answered, under this name, and how many are refused for each of these grounds."""
    counts = {name: sum(not isinstance(answer, int) for answer in answers)}
    return counts | {f"refused {number}": answers.count(number) for number in grounds}


if __name__ == "__main__":
    print(__doc__)
