"""The version of this package, and which versions of the library fit it."""

__version__ = "0.10.0"


def number_of(version: str) -> int:
    """A version as the library says it: major * 1,000,000 + minor * 1,000 + patch."""
    major, minor, patch = map(int, version.split("."))
    return major * 1_000_000 + minor * 1_000 + patch


def text_of(number: int) -> str:
    return f"{number // 1_000_000}.{number // 1_000 % 1_000}.{number % 1_000}"


def fits(library: int) -> bool:
    """Whether a library of that version answers as this package expects: the same major and minor number, no lower patch number."""
    own = number_of(__version__)
    return library // 1_000 == own // 1_000 and library >= own
