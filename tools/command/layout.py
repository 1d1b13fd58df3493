"""Lines with a label before them, aligned, and none longer than a terminal shows; alone or in two columns."""

import textwrap
from itertools import zip_longest

WIDTH = 100
LABEL = 15
GAP = "   "  # between two columns
COLUMN = (WIDTH - LABEL - len(GAP)) // 2


def rows(pairs):
    """Pairs of a label and a line; a label that comes again at once is left out."""
    lines, before = [], None
    for label, said in pairs:
        lines += row("" if label == before else label, said)
        before = label
    return "".join(line + "\n" for line in lines)


def row(label, said):
    """One line, or as many as it takes, with nothing under the label."""
    room = WIDTH - LABEL
    parts = textwrap.wrap(said, room, break_long_words=False, break_on_hyphens=False) or [""]
    return [f"{head:<{LABEL}}{part}".rstrip() for head, part in zip([label] + [""] * len(parts), parts)]


def beside(left, right):
    """Two lists of pairs with the same labels: each label once, and what stands after it in two columns."""
    lines, before = [], None
    for (label, one), (_, other) in zip(left, right):
        cells = zip_longest(*(textwrap.wrap(said, COLUMN, break_on_hyphens=False) for said in (one, other)), fillvalue="")
        for part, part_beside in cells:
            head = "" if label == before else label
            lines.append(f"{head:<{LABEL}}{part:<{COLUMN}}{GAP}{part_beside}".rstrip())
            before = label
    return "".join(line + "\n" for line in lines)
