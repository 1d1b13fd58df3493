"""The command ./jelmorand, as a user runs it, on the programs that are built here and else on stand-ins.

    test_jelmorand.py
"""

import pathlib
import sys

HERE = pathlib.Path(__file__).resolve().parent
sys.path.insert(0, str(HERE.parent / "docs" / "src"))

import test_building  # noqa: E402  (the tests use the reference, which stands there)
import test_check  # noqa: E402
import test_coefficients  # noqa: E402
import test_passing  # noqa: E402
import test_portfolio  # noqa: E402
import test_rooms  # noqa: E402
import test_screening  # noqa: E402
from tally import run_tests, say_passed  # noqa: E402


def main():
    modules = (test_screening, test_coefficients, test_building, test_rooms, test_passing, test_check, test_portfolio)
    say_passed(sum(run_tests(vars(module)) for module in modules))


if __name__ == "__main__":
    main()
