"""The words after `screen`: the rooms' files, and the options, each of which is given once at most."""

from typing import NamedTuple

from .tool import Usage, check_files

REPORT, COEFFICIENTS, BOTH = "--report", "--coefficients", "--both"
OPTIONS = (REPORT, COEFFICIENTS, BOTH)


class Options(NamedTuple):
    names: list  # of the rooms' files
    set_name: str  # of the file of a second set; empty where none is given
    is_report: bool
    is_both: bool


def options_of(words):
    names, given, rest = [], {}, iter(words)
    for word in rest:
        if word in given:
            raise Usage(f"{word} is given twice")
        if word in OPTIONS:
            given[word] = next(rest, "") if word == COEFFICIENTS else word
        elif word.startswith("-"):
            raise Usage(f"{word} is no such option")
        else:
            names.append(word)
    check_files(names)
    check_together(given)
    return Options(names, given.get(COEFFICIENTS, ""), REPORT in given, BOTH in given)


def check_together(given):
    set_name = given.get(COEFFICIENTS)
    if set_name is not None and (not set_name or set_name.startswith("-")):
        raise Usage(f"no file's name stands after {COEFFICIENTS}")
    if BOTH in given and set_name is None:
        raise Usage(f"{BOTH} goes with {COEFFICIENTS}")
    if BOTH in given and REPORT in given:
        raise Usage(f"{REPORT} shows one answer alone, and {BOTH} two")
