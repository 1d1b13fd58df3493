"""How a file of tests ends: with a line that says how many there were, which docs/src/test adds up."""

import pathlib
import sys


def run_tests(names):
    """Runs each function whose name starts with test_; the answer is how many there were."""
    tests = [call for name, call in names.items() if name.startswith("test_") and callable(call)]
    for test in tests:
        test()
    return len(tests)


def say_passed(count):
    print(f"{pathlib.Path(sys.argv[0]).stem}: {count} tests passed")


if __name__ == "__main__":
    print(__doc__)
