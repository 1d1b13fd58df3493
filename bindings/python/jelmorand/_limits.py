"""The sizes that the C header names."""

MAX_MEMBERS = 16
"""The most members that a book has."""

REPORT_ROOM = 922
"""No report has more bytes than this."""

MAX_RATES = 200
"""The most rates that a table has."""

TABLE_ROOM = 33_400
"""No table has more bytes than this."""

MAX_PERIODS = 32
"""The most periods that `factors_after` takes."""

MAX_MINUTES = 1_440
"""The most minutes that a period has."""

COEFFICIENTS_LENGTH = 20
"""The bytes of one member in a second set of coefficients."""

NO_RATE = 100_001
"""What the library answers for a lowest rate where there is none: one more than the highest rate."""
