"""A copy of what the command needs, in a folder of its own, for its tests.

The programs in it are the repository's where they are built and as new as their sources, and else stand-ins that answer
with the reference. Every crate has one source file, which is older than the programs.
"""

import contextlib
import os
import pathlib
import shutil
import subprocess
import sys
import tempfile

from command import building, crates

ROOT = pathlib.Path(__file__).resolve().parents[1]
EXAMPLES = ROOT / "examples"
PROGRAMS = ("screen", "fan", "partner", "table", "opening", "marks", "portfolio")
LONG_AGO = 10**9  # seconds; when the sources of the copy were changed

STAND_IN = f"""#!{sys.executable}
import sys
sys.path[:0] = {[str(ROOT / "docs" / "src"), str(ROOT / "tools")]!r}
import stand_ins
sys.stdout.write(stand_ins.{{name}}(sys.argv[1:]))
"""


class House:
    def __init__(self, folder):
        self.folder = folder
        shutil.copy(ROOT / "jelmorand", folder)
        shutil.copy(ROOT / "crates.txt", folder)
        ignored = shutil.ignore_patterns("__pycache__", "test_*", "house.py", "stand_ins.py")
        shutil.copytree(ROOT / "tools", folder / "tools", ignore=ignored)
        shutil.copytree(EXAMPLES, folder / "examples")
        for name in crates.listed():
            (folder / "crates" / name / "src").mkdir(parents=True)
            self.source(name).write_text("// a source\n")
        for path in (folder / "crates.txt", *map(self.source, crates.listed())):
            os.utime(path, (LONG_AGO, LONG_AGO))
        for name in PROGRAMS:
            self.put_program(name)

    def source(self, crate):
        return self.folder / "crates" / crate / "src" / "lib.rt"

    def program(self, name):
        return self.folder / "crates" / name / "out" / name

    def put_program(self, name, script=None):
        """The program, or a script of a test in its place."""
        path = self.program(name)
        path.parent.mkdir(parents=True, exist_ok=True)
        if script is None and not building.is_late(name):
            shutil.copyfile(building.path_of(name), path)
        else:
            path.write_text(script or STAND_IN.format(name=name))
        path.chmod(0o755)

    def write(self, name, text):
        (self.folder / name).write_bytes(text if isinstance(text, bytes) else text.encode())
        return name

    def run(self, *words, path=None, stdout=subprocess.PIPE):
        """Status, standard output and standard error of ./jelmorand in the copy."""
        env = dict(os.environ, PYTHONDONTWRITEBYTECODE="1", PYTHONIOENCODING="utf-8")
        env.update({"PATH": str(path)} if path else {})
        words = [sys.executable, "./jelmorand", *map(str, words)]
        done = subprocess.run(words, cwd=self.folder, env=env, stdout=stdout, stderr=subprocess.PIPE, timeout=300, check=False)
        out, said = (done.stdout or b"").decode(), done.stderr.decode()
        assert "Traceback" not in said, said
        return done.returncode, out, said

    def files(self):
        return sorted(str(path.relative_to(self.folder)) for path in self.folder.rglob("*"))


@contextlib.contextmanager
def house():
    with tempfile.TemporaryDirectory() as folder:
        yield House(pathlib.Path(folder))


def house_test(test):
    """A test that gets a house of its own."""

    def within():
        with house() as made:
            test(made)

    return within


def changed(text, *pairs):
    """A text with each old part, which stands in it once, replaced by a new one."""
    for old, new in pairs:
        assert text.count(old) == 1, old
        text = text.replace(old, new)
    return text


def example(name, *pairs):
    return changed((EXAMPLES / f"{name}.txt").read_text(encoding="utf-8"), *pairs)
