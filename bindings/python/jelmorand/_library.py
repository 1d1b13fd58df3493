"""The shared object: where it is, the types of its functions, and whether it is of this package's version."""

import ctypes
import os
import pathlib

from ._version import __version__, fits, text_of

_NUMBER, _SIZE, _BYTES, _ROOM = ctypes.c_uint32, ctypes.c_size_t, ctypes.c_char_p, ctypes.POINTER(ctypes.c_char)
_NUMBERS, _PLACES = ctypes.POINTER(ctypes.c_uint32), ctypes.POINTER(ctypes.c_uint64)
_ANSWERS = ctypes.POINTER(ctypes.c_int64)


class Figures(ctypes.Structure):
    """The header's struct jelmorand_figures."""

    _fields_ = [(name, ctypes.c_uint64) for name in ("verdict", "concentration", "level", "equilibrium", "working", "count")]


_ARGUMENTS = {
    "jelmorand_version": [],
    "jelmorand_factors": [_NUMBER, _BYTES, _SIZE, _PLACES, _SIZE],
    "jelmorand_factors_after": [_NUMBERS, _SIZE, _BYTES, _SIZE, _PLACES, _SIZE],
    "jelmorand_factors_at_rates": [_NUMBERS, _SIZE, _BYTES, _SIZE, _SIZE, _ANSWERS, _SIZE, _PLACES, _SIZE],
    "jelmorand_table": [_NUMBERS, _SIZE, _BYTES, _SIZE, _ROOM, _SIZE],
    "jelmorand_marks": [_BYTES, _SIZE, _BYTES, _SIZE, _PLACES],
    "jelmorand_report": [_BYTES, _SIZE, _ROOM, _SIZE],
    "jelmorand_screen": [_BYTES, _SIZE, ctypes.POINTER(Figures), _PLACES, _SIZE],
    "jelmorand_screen_with": [_BYTES, _SIZE, _BYTES, _SIZE, _NUMBERS, ctypes.POINTER(Figures), _PLACES, _SIZE],
    "jelmorand_lowest_rate": [_BYTES, _SIZE],
    "jelmorand_lowest_rate_with": [_BYTES, _SIZE, _BYTES, _SIZE, _NUMBERS],
    "jelmorand_refusal_sentence": [ctypes.c_int64],
}


def shared_object() -> pathlib.Path:
    """The whole path of the shared object: a name without a folder would be looked for among the system's libraries."""
    named = os.environ.get("JELMORAND_SO")
    path = pathlib.Path(named).resolve() if named else pathlib.Path(__file__).resolve().with_name("libjelmorand.so")
    if not path.is_file():
        raise ImportError(f"{path} is not there: bindings/README.md says how to make it; JELMORAND_SO can name another file")
    return path


def _check_version(library: ctypes.CDLL, path: pathlib.Path) -> None:
    """A library of another version may take a job's bytes for something else."""
    try:
        library.jelmorand_version.restype = ctypes.c_int64
        version = library.jelmorand_version()
    except AttributeError:
        raise ImportError(f"{path} does not say its version, and this package is for version {__version__}") from None
    if not fits(version):
        raise ImportError(f"{path} is version {text_of(version)}, and this package is for version {__version__}")


def _library() -> ctypes.CDLL:
    path = shared_object()
    library = ctypes.CDLL(str(path))
    _check_version(library, path)
    for name, arguments in _ARGUMENTS.items():
        if not hasattr(library, name):
            raise ImportError(f"{path} has no {name}: bindings/README.md says how to make it")
        function = getattr(library, name)
        function.argtypes, function.restype = arguments, ctypes.c_int64
    library.jelmorand_refusal_sentence.restype = ctypes.c_char_p
    return library


LIBRARY = _library()
