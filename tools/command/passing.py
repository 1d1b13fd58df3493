"""The commands that pass on: to the text tool, and to the proved programs, whose lines come out as they are.

A text is made into bytes in memory. `table` and `opening` take their book by a file's name, which is their standard input.
"""

import re

import book as tool

from .building import make_ready
from .given import book_given, job_given
from .outcomes import answered, lines_outcome, outcome_of, show_lines
from .programs import RATE, STANDARD_INPUT, asked
from .tool import CLEARED, FAILED, Usage, check_files

TABLE = re.compile(r"(\d+( \d\.\d{3}E[+-]\d\d)+\n)+")
FACTORS = re.compile(rf"(factor \d+ \d+\n)+|{TABLE.pattern}")


def to_tool(command):
    """A command of the text tool, in its words."""

    def passed(words):
        tool.run([command, *words])
        return CLEARED

    return passed


def fan(names):
    """The lowest rate at which each room is 'below'."""
    check_files(names)
    make_ready(["fan"])

    def answer(name):
        given = job_given(name)
        return lines_outcome(given, asked("fan", given.data), answered("fan", RATE))

    return status_of([show_lines(name, outcome_of(name, answer), len(names) > 1) for name in names])


def of_book(program, form, fewest):
    """A program that takes a book and numbers."""

    def passed(words):
        check_files(words[:1])
        if len(words) <= fewest:
            raise Usage
        make_ready([program])

        def answer(name):
            given = book_given(name)
            return lines_outcome(given, asked(program, given.data, STANDARD_INPUT, *words[1:]), answered(program, form))

        return status_of([show_lines(words[0], outcome_of(words[0], answer), False)])

    return passed


def status_of(kinds):
    return CLEARED if all(kind == "answered" for kind in kinds) else FAILED
