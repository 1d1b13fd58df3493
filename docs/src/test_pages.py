"""What the README and the pages show typed is run, and must write what they show.

    test_pages.py [--write]

In an indented block a line that starts with `$ ` is a command, and the lines up to the next one are all that it writes, on
both outputs. A page's commands run one after the other in a folder of their own, in which the repository's folders stand.
Commands that need programs are left out where these are not built, and a line says so. --write puts into the pages what is
written now.
"""

import os
import pathlib
import re
import subprocess
import sys
import tempfile

from plain_help import answer_help
from tally import say_passed

ROOT = pathlib.Path(__file__).resolve().parents[2]
sys.path.insert(0, str(ROOT / "tools"))

from command.building import is_late  # noqa: E402

PAGES = ("README.md", *(f"docs/{name}.md" for name in (
    "COMMAND", "ROOMS", "TEXT", "FAN", "TABLE", "PORTFOLIO", "CHECK", "OPENING", "COEFFICIENTS", "REFUSALS")))
INDENT = "    "
COMMAND = INDENT + "$ "
PROGRAMS = ("screen", "fan", "table", "opening")
MORE = {  # what is asked where this stands in a command
    " --coefficients ": "partner",
    "./jelmorand check ": "marks",
    "./jelmorand portfolio ": "portfolio",
}


def parts_of(page):
    """The page's lines in parts: a command with what it is shown to write, or other lines without a command."""
    command, lines, page = None, [], page.splitlines(keepends=True)
    for line, after in zip(page, page[1:] + [""]):
        if line.startswith(COMMAND) or (command and not is_written(line, after)):
            yield command, lines
            command, lines = None, []
        if line.startswith(COMMAND):
            command = line[len(COMMAND) :].rstrip("\n")
        else:
            lines.append(line)
    yield command, lines


def is_written(line, after):
    """Whether a line below a command is of what it writes: an empty one is, if more of that comes after it."""
    return line.startswith(INDENT) or (line == "\n" and after.startswith(INDENT) and not after.startswith(COMMAND))


def programs_in(command):
    """The built programs that a command needs; the one command may ask any of them, and some only for what they alone answer."""
    if "./jelmorand" in command:
        return *PROGRAMS, *(program for said, program in MORE.items() if said in command)
    return re.findall(r"crates/(\w+)/out/", command)


def is_ready(command):
    """Whether the programs of a command are built and new: the test proves and builds none."""
    return not any(is_late(name) for name in programs_in(command))


def written(command, folder):
    """The lines that a command writes, as a page shows them."""
    env = os.environ | {"PYTHONDONTWRITEBYTECODE": "1", "PYTHONUTF8": "1"}
    said = subprocess.run(command, shell=True, cwd=folder, env=env, stdin=subprocess.DEVNULL, stdout=subprocess.PIPE,
                          stderr=subprocess.STDOUT, timeout=300, check=False)
    return [(INDENT + line).rstrip(" ") + "\n" for line in said.stdout.decode().splitlines()]


def with_outputs(page):
    """The page as its commands have it, and how many ran and were left out."""
    text, ran, left = "", 0, 0
    with tempfile.TemporaryDirectory() as folder:
        for path in ROOT.iterdir():
            if path.name != ".git":
                pathlib.Path(folder, path.name).symlink_to(path)
        for command, lines in parts_of(page):
            if command is None:
                text += "".join(lines)
                continue
            ready = is_ready(command)
            ran, left = ran + ready, left + (not ready)
            text += f"{COMMAND}{command}\n" + "".join(written(command, folder) if ready else lines)
    return text, ran, left


def check(name, write):
    """How many commands of the page ran."""
    path = ROOT / name
    page = path.read_text(encoding="utf-8")
    now, ran, left = with_outputs(page)
    if left:
        print(f"{name}: {left} commands were left out, since the programs are not built or not new")
    if write:
        path.write_text(now, encoding="utf-8")
    assert write or now == page, f"{name} shows something else; test_pages.py --write puts in what is written now"
    return ran


def main():
    answer_help(__doc__)
    write = sys.argv[1:] == ["--write"]
    ran = sum(check(name, write) for name in PAGES)
    print(f"{ran} commands write what {len(PAGES)} pages show")
    say_passed(len(PAGES))


if __name__ == "__main__":
    main()
