"""The files of the text tool: what is read, what may be replaced, and what is set aside."""

import os
import stat

from .decode import decode
from .words import Mistake, in_line, placed

LONGEST_FILE = 1_000_000  # bytes; the longest text and the longest job are far below
ASIDE = ".old"
UTF_16 = (b"\xff\xfe", b"\xfe\xff")


class Failure(Exception):
    """A line to end with, and the exit status."""

    def __init__(self, message, status=1):
        super().__init__(message)
        self.status = status


class Usage(Failure):
    """The words after a command are none that it takes."""

    def __init__(self, message=""):
        super().__init__(message, 2)


# ---- Reading ------------------------------------------------------------------------------------


def read_file(path, longest=LONGEST_FILE, otherwise=", so neither a text nor a job"):
    try:
        with open(path, "rb") as file:
            data = file.read(longest + 1)
    except OSError as error:
        raise Failure(f"{path}: {error.strerror or error}")
    if len(data) > longest:
        raise Failure(f"{path}: longer than {longest:,} bytes{otherwise}")
    return data


def is_bytes(data):
    """Every job and every book has a zero byte, and no text has one."""
    return 0 in data


def text_of(data):
    """A text; the mark that some editors put at the start of one (a BOM) is skipped."""
    if data[:2] in UTF_16:
        raise Mistake("is text in UTF-16; save the file as UTF-8")
    if is_bytes(data):
        raise Mistake("is no text: it has a zero byte, as every job and every book has; 'decode' makes a text of those")
    try:
        return data.decode("utf-8-sig")
    except UnicodeDecodeError as error:
        said = f"the byte {data[error.start]:#04x} is not text in UTF-8; save the file as UTF-8"
        raise Mistake(said, data[: error.start].count(b"\n") + 1)


def read_source(path):
    """The text in a file."""
    try:
        return text_of(read_file(path))
    except Mistake as mistake:
        raise Failure(placed(path, in_line(mistake.line, mistake)))


# ---- What is there already ----------------------------------------------------------------------


def is_ours(data):
    """Whether decode can read the bytes as a job or as a book. An empty file has nothing to lose."""
    for form in ("job", "book"):
        try:
            decode(data, form)
            return True
        except Mistake:
            pass
    return not data


def why_kept(path):
    """Why a file that is there, by its name or through a link, must stay as it is; None where it may be replaced."""
    if not os.path.isfile(path):
        return None
    if not os.stat(path).st_mode & 0o222 or not os.access(path, os.W_OK):
        return "is read-only"
    try:
        data = read_file(path)
    except Failure:
        return "cannot be read as a job or a book"
    return None if is_ours(data) else "is there already, and neither a job nor a book"


def check_replaceable(source, out):
    """The text is never written over, by whichever name, and nothing else but a job or a book."""
    if os.path.exists(source) and os.path.exists(out) and os.path.samefile(source, out):
        raise Failure(f"{out}: is the text itself; give the job another name")
    why = why_kept(out)
    if why:
        raise Failure(f"{out}: {why}, so it was left as it was; give the job another name")


def set_aside(out, of="this text", why_kept=why_kept):
    """The line that says what became of an old file after a failure: it must not be taken for the new one."""
    if not os.path.isfile(out):
        return None
    old = f"{out}{ASIDE}"
    why = why_kept(old)
    try:
        if not why:
            os.replace(out, old)  # of a link only the link
    except OSError as error:
        why = f"cannot be written: {error.strerror or error}"
    if why:
        return f"{out}: is the old one, not of {of}, and could not be set aside: {old} {why}"
    return f"{out}: was there, not of {of}, so it is set aside as {old}"


# ---- Writing ------------------------------------------------------------------------------------


def write_file(path, data):
    """All of the bytes, or the old file as it was."""
    if os.path.exists(path) and not os.path.isfile(path):
        with open(path, "wb") as file:  # such as /dev/stdout: there is no old file
            file.write(data)
        return
    write_beside(os.path.realpath(path), data)


def write_beside(path, data, check=lambda: None):
    """The bytes are written beside the path, and then take its name and its mode, if the last check lets them."""
    beside = f"{path}.{os.getpid()}.part"
    try:
        write_new(beside, data)
        if os.path.exists(path):
            os.chmod(beside, stat.S_IMODE(os.stat(path).st_mode))
        check()
        os.replace(beside, path)
    except BaseException:
        if os.path.exists(beside):
            os.unlink(beside)
        raise


def write_new(path, data):
    """A file that is not there yet; where it is, an error."""
    with open(path, "xb") as file:
        try:
            file.write(data)
            file.flush()
            os.fsync(file.fileno())
        except BaseException:
            os.unlink(path)
            raise
