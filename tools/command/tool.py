"""What the command has in common with the text tool: its files, its outputs, and a failure's line."""

import pathlib

from book import Failure, Usage, put, read_file, read_source, tell, within  # noqa: F401  (for the other modules)

ROOT = pathlib.Path(__file__).resolve().parents[2]


CLEARED, NOT_CLEARED, FAILED = 0, 1, 2  # the exit statuses
STOPPED = "stopped"


def check_files(names, fewest=1):
    """As many files' names as are needed, and none that starts with a dash: it would be an option, and there is no such one."""
    if len(names) < fewest or any(name.startswith("-") for name in names):
        raise Usage
