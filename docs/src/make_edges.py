"""Recorded factor calls: both edges of every refusal, all of them typed. make_recorded.py writes them."""

import factor_edges
from recorded import FACTORS
from recorder import Recorder, outcomes


def sorts(calls, answers):
    return outcomes(answers, "filled", (3, *range(9, 20)))


RECORDER = Recorder(kind=FACTORS, least=1, sorts=sorts, typed=factor_edges.edges)


if __name__ == "__main__":
    print(__doc__)
