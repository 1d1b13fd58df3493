"""Chain balance and screening of radon, thoron and actinon indoors, from the proved library.

    import jelmorand
    report = jelmorand.screen(open("room.job", "rb").read())
    print(report.verdict, report.concentration, report.level)

A job is 48 bytes, followed by a chain book; docs/FORMAT.md has the bytes, and Job and Book write them. Its exposure is in quarter
hours per day, 0 to 96: a job written in whole hours, as jobs used to be, must not be passed.

The shared object is the file that JELMORAND_SO names, or libjelmorand.so beside this file. The functions in it are proved to answer
what their contracts in crates/jelmorand say, for every input; this package, which calls them, is not proved.
"""

from ._books import Book
from ._calls import LowestRate, factors, factors_after, lowest_rate, lowest_rate_with, report, table
from ._coefficients import Coefficients, CoefficientSet
from ._jobs import JOB_LENGTH, RESIDENTIAL, WORKER, Exposure, Group, Job, Kind, Medium, Unit
from ._limits import COEFFICIENTS_LENGTH, MAX_MEMBERS, MAX_MINUTES, MAX_PERIODS, MAX_RATES, REPORT_ROOM, TABLE_ROOM
from ._marks import Marks, Place, marks
from ._rates import factors_at_rates
from ._refusals import GROUNDS, Refused
from ._screening import Report, WorkingLevels, screen, screen_with
from ._version import __version__

__all__ = [
    "COEFFICIENTS_LENGTH",
    "GROUNDS",
    "JOB_LENGTH",
    "MAX_MEMBERS",
    "MAX_MINUTES",
    "MAX_PERIODS",
    "MAX_RATES",
    "REPORT_ROOM",
    "RESIDENTIAL",
    "TABLE_ROOM",
    "WORKER",
    "Book",
    "CoefficientSet",
    "Coefficients",
    "Exposure",
    "Group",
    "Job",
    "Kind",
    "LowestRate",
    "Marks",
    "Medium",
    "Place",
    "Refused",
    "Report",
    "Unit",
    "WorkingLevels",
    "__version__",
    "factors",
    "factors_after",
    "factors_at_rates",
    "lowest_rate",
    "lowest_rate_with",
    "marks",
    "report",
    "screen",
    "screen_with",
    "table",
]
