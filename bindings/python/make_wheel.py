"""Makes the wheel that `pip install` asks for, with the standard library alone, so that nothing is fetched: the package with the shared
object beside it, the one that JELMORAND_SO names or that is beside the package's files already."""

import base64
import csv
import hashlib
import io
import os
import pathlib
import re
import zipfile

HERE = pathlib.Path(__file__).resolve().parent
PACKAGE = HERE / "jelmorand"
SHARED_OBJECT = "libjelmorand.so"
TAG = "py3-none-linux_x86_64"


def shared_object():
    named = os.environ.get("JELMORAND_SO")
    # pip runs this in a folder of its own choice, which is not where the caller named a file from.
    if named and not os.path.isabs(named):
        raise SystemExit(f"JELMORAND_SO is {named}, a relative path: give the whole path of the shared object")
    path = pathlib.Path(named) if named else PACKAGE / SHARED_OBJECT
    if not path.is_file():
        raise SystemExit(f"{path} is not there: `bindings/install PREFIX` makes it, and JELMORAND_SO names it")
    return path


def project():
    """The words of pyproject.toml, and the version of the package."""
    words = dict(re.findall(r'^([a-z-]+) = "(.*)"$', (HERE / "pyproject.toml").read_text("utf-8"), re.MULTILINE))
    version = re.search(r'^__version__ = "(.*)"$', (PACKAGE / "_version.py").read_text("utf-8"), re.MULTILINE)[1]
    return dict(words, version=version)


def metadata(words):
    lines = (
        ("Metadata-Version", "2.1"),
        ("Name", words["name"]),
        ("Version", words["version"]),
        ("Summary", words["description"]),
        ("Requires-Python", words["requires-python"]),
        ("Classifier", "Private :: Do Not Upload"),
    )
    return "".join(f"{name}: {value}\n" for name, value in lines)


def files(words, info):
    """The name and the bytes of each file of the wheel."""
    sources = sorted(path for path in PACKAGE.iterdir() if path.suffix == ".py" or path.name == "py.typed")
    yield from ((f"jelmorand/{path.name}", path.read_bytes()) for path in sources)
    yield f"jelmorand/{SHARED_OBJECT}", shared_object().read_bytes()
    yield f"{info}/METADATA", metadata(words).encode()
    yield f"{info}/WHEEL", f"Wheel-Version: 1.0\nGenerator: jelmorand\nRoot-Is-Purelib: false\nTag: {TAG}\n".encode()


def recorded(name, data):
    """A file's row in the wheel's record."""
    digest = base64.urlsafe_b64encode(hashlib.sha256(data).digest()).rstrip(b"=").decode()
    return name, f"sha256={digest}", len(data)


def build_wheel(wheel_directory, config_settings=None, metadata_directory=None):
    """Writes the wheel into the folder and answers its name, as PEP 517 asks."""
    words = project()
    info = f"jelmorand-{words['version']}.dist-info"
    packed = list(files(words, info))
    record = io.StringIO()
    csv.writer(record, lineterminator="\n").writerows([*(recorded(*file) for file in packed), (f"{info}/RECORD", "", "")])
    packed.append((f"{info}/RECORD", record.getvalue().encode()))
    name = f"jelmorand-{words['version']}-{TAG}.whl"
    with zipfile.ZipFile(pathlib.Path(wheel_directory) / name, "w", zipfile.ZIP_DEFLATED) as wheel:
        for inner, data in packed:
            # A time of its own would make every wheel another one.
            wheel.writestr(zipfile.ZipInfo(inner), data, zipfile.ZIP_DEFLATED)
    return name
