"""The commands by name, and what they have in common: the usage, the outputs and the exit status."""

import sys

import book

from .check import check
from .passing import FACTORS, TABLE, fan, of_book, to_tool
from .portfolio import portfolio
from .rooms import rooms
from .screen import screen
from .tool import CLEARED, FAILED, STOPPED, Failure, Usage, put, tell


def tool_form(command):
    """What follows a command of the text tool, as its own usage has it."""
    words = next(line.split() for line in book.USAGE.splitlines() if line.split()[1] == command)
    return " ".join(words[2:])


COMMANDS = {  # each with what follows it, and what it is for
    "screen": (screen, "[--report] FILE.. [--coefficients SET [--both]]", "the verdict on texts or jobs"),
    "rooms": (rooms, "[--force] BOOK.txt ROOMS.csv RESULTS.csv", "many rooms of one book"),
    "fan": (fan, "FILE..", "the lowest rate that is 'below'"),
    "table": (of_book("table", TABLE, 0), "FILE [RATE..]", "shares in the air at each rate"),
    "portfolio": (portfolio, "FILE FROM TO STEP", "factors at many rates"),
    "check": (check, "[--report] TABLE BOOK", "a table from elsewhere, marked"),
    "opening": (of_book("opening", FACTORS, 1), "FILE RATE MINUTES.. [every N]", "shares after periods of airing"),
    "encode": (to_tool("encode"), tool_form("encode"), "a text into a job, book or set"),
    "decode": (to_tool("decode"), tool_form("decode"), "a job or a book into a text"),
    "explain": (to_tool("explain"), tool_form("explain"), "what 'refused NUMBER' means"),
    "--help": (None, "", "these lines; see docs/COMMAND.md"),
}


def form(name):
    return f"./jelmorand {name} {COMMANDS[name][1]}".rstrip()


def usage():
    width = max(len(form(name)) for name in COMMANDS)
    return "".join(f"{form(name):<{width}}  {what}\n" for name, (_, _, what) in COMMANDS.items())


def run(words):
    if words in (["--help"], ["-h"], ["help"]):
        put(usage())
        return CLEARED
    if not words or words[0] not in COMMANDS or words[0] == "--help":
        said = f"{words[0]}: no such command; " if words else ""
        raise Failure(f"{said}the commands are {', '.join(COMMANDS)}")
    if words[1:] in (["--help"], ["-h"]):
        put(f"usage: {form(words[0])}\n")
        return CLEARED
    if "" in words:
        raise Failure("a word is empty, where a file's name or a number should stand")
    try:
        return COMMANDS[words[0]][0](words[1:])
    except Usage as wrong:
        why = f" ({wrong})" if str(wrong) else ""
        raise Failure(f"usage: {form(words[0])}{why}")


def main(words):
    for output in (sys.stdout, sys.stderr):
        if output is not None:
            output.reconfigure(errors="replace")  # such as a cubic metre, where the terminal has none
    try:
        return run(words)
    except Failure as failure:
        tell(failure)
    except KeyboardInterrupt:
        tell(STOPPED)
    return FAILED
