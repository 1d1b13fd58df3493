"""The proved programs: where they stand, whether they are as new as their sources, and how they are proved and built."""

import os
import shutil
import subprocess
import time

from .crates import LIST, below, sources
from .tool import ROOT, Failure, tell

SAMPLE = str(ROOT / "examples" / "radon.book")
TRIAL = {  # the arguments of the run with which a program is built; with none it answers an empty job
    "table": [SAMPLE, "18"],
    "opening": [SAMPLE, "18", "1"],
    "portfolio": [SAMPLE, "18", "18", "1"],
    "marks": [SAMPLE, SAMPLE],  # any bytes do for a table: they are refused
    "partner": [SAMPLE],  # any bytes do for a set: the empty job beside them is refused first
}
LAST_LINES = 5  # of what the prover said, where it failed


def path_of(name):
    return ROOT / "crates" / name / "out" / name


def is_late(name):
    """Whether a program is not there, or one of its sources was changed after it was built."""
    program = path_of(name)
    if not program.is_file():
        return True
    built = program.stat().st_mtime_ns
    files = [LIST] + [path for crate in below([name]) for path in sources(crate)]
    return any(path.stat().st_mtime_ns > built for path in files)


def make_ready(names):
    """Proves and builds those of the programs that are late. An old one is never used."""
    late = [name for name in names if is_late(name)]
    if late:
        build(late)


def build(late):
    crates, began = below(late), time.time_ns()
    why = f"{' and '.join(late)}: {state(late)}"
    if shutil.which("rt") is None:
        raise Failure(f"{why}, and rt, which proves and builds, was not found; docs/CHECKING.md says what it is")
    tell(f"{why}; proving and building {len(crates)} crates, which can take half an hour")
    for done, crate in enumerate(crates):
        tell(f"proving {crate} ({done + 1} of {len(crates)}, {len(crates) - done - 1} left)")
        prove(crate, crate in late)
    for name in late:
        os.utime(path_of(name), ns=(began, began))  # what was changed meanwhile is newer


def state(late):
    is_old = all(path_of(name).is_file() for name in late)
    return "the source has changed since it was built" if is_old else "not built yet"


def prove(crate, is_program):
    """Proves a crate, and builds it for those above it; a program is run once, since that builds it."""
    words = ["rt", "run", "--", *TRIAL.get(crate, [])] if is_program else ["rt", "lib"]
    outputs = {"stdin": subprocess.DEVNULL, "stdout": subprocess.PIPE, "stderr": subprocess.STDOUT}
    done = subprocess.run(words, cwd=ROOT / "crates" / crate, check=False, **outputs)
    if done.returncode != 0 or (is_program and not path_of(crate).is_file()):
        for line in done.stdout.decode(errors="replace").splitlines()[-LAST_LINES:]:
            tell(f"    {line}")
        command = " ".join(words[:2])
        raise Failure(f"{crate}: not proved and built ('{command}' in crates/{crate} ended with status {done.returncode})")
