"""What bindings/install writes, what pip makes of bindings/python, and the lines for .cargo/config.toml and the programs in C and Rust of
bindings/README.md. Nothing is fetched, and nothing is left behind.

    JELMORAND_LIB=$(pwd)/crates/jelmorand/out python3 bindings/test_install.py
"""

import os
import pathlib
import re
import shutil
import subprocess
import sys
import tempfile
import unittest

BINDINGS = pathlib.Path(__file__).resolve().parent
PAGE = (BINDINGS / "README.md").read_text("utf-8")
HEADER = (BINDINGS / "c" / "jelmorand.h").read_text("ascii")
NUMBER = int(re.search(r"#define JELMORAND_VERSION (\d+)\n", HEADER)[1])
SERIES = f"{NUMBER // 1_000_000}.{NUMBER // 1_000 % 1_000}"
VERSION = f"{SERIES}.{NUMBER % 1_000}"
# What the page says that its programs for a book at many rates print, that in C and that in Rust as well as the one in Python.
AT_RATES = re.search(r"All three print .*?\n\n((?:    .*\n)+)", PAGE)[1].replace("    ", "")


def run(*words, **changed):
    """A command that must succeed: what it writes to standard output. Other words by name go into the environment, or to `cwd`."""
    made = tried(*words, **changed)
    assert made.returncode == 0, (words, made.stdout, made.stderr)
    return made.stdout


def tried(*words, cwd="/", **environment):
    kept = {name: value for name, value in os.environ.items() if name not in ("JELMORAND_SO", "PYTHONPATH", "DESTDIR")}
    kept.update({name: str(value) for name, value in environment.items()})
    return subprocess.run(list(map(str, words)), cwd=cwd, env=kept, capture_output=True, text=True)


class Folder(unittest.TestCase):
    """Each test has a folder of its own, which goes with it."""

    def setUp(self):
        kept = tempfile.TemporaryDirectory()
        self.addCleanup(kept.cleanup)
        self.folder = pathlib.Path(kept.name)

    def installed(self):
        run(BINDINGS / "install", self.folder / "there")
        return self.folder / "there"


class Install(Folder):
    FILES = {"include/jelmorand.h", "lib/libjelmorand.a", f"lib/libjelmorand.so.{VERSION}", f"lib/libjelmorand.so.{SERIES}",
             "lib/libjelmorand.so", "lib/pkgconfig/jelmorand.pc"}

    def files(self, folder):
        return {str(path.relative_to(folder)) for path in folder.rglob("*") if not path.is_dir()}

    def test_files(self):
        there = self.installed()
        self.assertEqual(self.files(there), self.FILES)
        self.assertEqual((there / "lib" / "libjelmorand.so").resolve().name, f"libjelmorand.so.{VERSION}")
        self.assertEqual((there / "include" / "jelmorand.h").read_text("ascii"), HEADER)

    def test_again(self):
        self.installed()
        self.assertEqual(self.files(self.installed()), self.FILES)

    def test_relative_prefix(self):
        """It counts from the folder one is in."""
        run(BINDINGS / "install", "there", cwd=self.folder)
        self.assertEqual(self.files(self.folder / "there"), self.FILES)
        self.assertIn(f"prefix={self.folder}/there\n", (self.folder / "there/lib/pkgconfig/jelmorand.pc").read_text("ascii"))

    def test_destdir(self):
        run(BINDINGS / "install", "/usr", DESTDIR=self.folder)
        self.assertEqual(self.files(self.folder / "usr"), self.FILES)
        self.assertIn("prefix=/usr\n", (self.folder / "usr/lib/pkgconfig/jelmorand.pc").read_text("ascii"))

    def test_name_for_the_loader(self):
        said = run("readelf", "-d", self.installed() / "lib" / "libjelmorand.so")
        self.assertIn(f"Library soname: [libjelmorand.so.{SERIES}]", said)

    def test_only_calls_are_seen(self):
        said = run("nm", "-D", "--defined-only", self.installed() / "lib" / "libjelmorand.so")
        declared = re.findall(r"^(?:int64_t |const char \*)(jelmorand_\w+)\(", HEADER, re.MULTILINE)
        self.assertEqual(sorted(line.split()[2] for line in said.splitlines()), sorted(declared))

    @unittest.skipUnless(shutil.which("pkg-config"), "there is no pkg-config")
    def test_program_with_the_shared_object(self):
        """Linked by pkg-config's flags, it asks the loader for the series."""
        there = self.installed()
        asked = {"PKG_CONFIG_PATH": there / "lib" / "pkgconfig"}
        flags = run("pkg-config", "--cflags", "--libs", "jelmorand", **asked).split()
        self.assertEqual(run("pkg-config", "--modversion", "jelmorand", **asked), VERSION + "\n")
        run("cc", "-o", self.folder / "smoke", BINDINGS / "c" / "smoke.c", *flags)
        self.assertIn("smoke: ", run(self.folder / "smoke", LD_LIBRARY_PATH=there / "lib"))
        (there / "lib" / f"libjelmorand.so.{SERIES}").unlink()
        self.assertIn(f"libjelmorand.so.{SERIES}", tried(self.folder / "smoke", LD_LIBRARY_PATH=there / "lib").stderr)

    def test_program_with_the_archive(self):
        there = self.installed()
        run("cc", f"-I{there}/include", "-o", self.folder / "smoke", BINDINGS / "c" / "smoke.c", there / "lib" / "libjelmorand.a")
        self.assertIn("smoke: ", run(self.folder / "smoke"))

    def test_page_s_program(self):
        there, source = self.installed(), self.folder / "page.c"
        source.write_text(re.search(r"<<'C'\n(.*?\n)C\n", PAGE, re.DOTALL)[1], "ascii")
        run("cc", "-std=c11", f"-I{there}/include", "-o", self.folder / "page", source, there / "lib" / "libjelmorand.a")
        self.assertEqual(run(self.folder / "page", cwd=BINDINGS.parent), AT_RATES)

    def test_no_prefix(self):
        for words in ((), ("one", "two")):
            made = tried(BINDINGS / "install", *words, cwd=self.folder)
            self.assertEqual((made.returncode, made.stderr), (2, "usage: bindings/install PREFIX\n"))
        self.assertEqual(self.files(self.folder), set())

    def test_no_archive(self):
        made = tried(BINDINGS / "install", self.folder / "there", JELMORAND_LIB="/nowhere")
        self.assertEqual((made.returncode, made.stderr), (1, "/nowhere/libjelmorand.a is not there: run `rt lib` in crates/jelmorand\n"))

    def test_other_version(self):
        """Nothing is written where the archive is not of the header's version."""
        source = self.folder / "other.c"
        source.write_text(f"long long jelmorand_version(void) {{ return {NUMBER + 1}; }}\n", "ascii")
        run("cc", "-c", "-o", self.folder / "other.o", source)
        run("ar", "rcs", self.folder / "libjelmorand.a", self.folder / "other.o")
        made = tried(BINDINGS / "install", self.folder / "there", JELMORAND_LIB=self.folder)
        self.assertEqual((made.returncode, made.stderr), (1, f"{self.folder}/libjelmorand.a is not of the header's version, {VERSION}\n"))
        self.assertFalse((self.folder / "there").exists())


@unittest.skipIf(tried(sys.executable, "-m", "pip", "--version").returncode, "there is no pip")
class Pip(Folder):
    def pip(self, **environment):
        """The page's line, with a folder of the test's own."""
        line = re.search(r"^    python3 -m (pip install .*)$", PAGE, re.MULTILINE)[1]
        words = line.replace("target/site", str(self.folder / "site")).split()
        return tried(sys.executable, "-B", "-m", *words, cwd=BINDINGS.parent, PIP_NO_COMPILE=1, PIP_DISABLE_PIP_VERSION_CHECK=1, **environment)

    def test_package(self):
        """It needs neither variable afterwards, and says which Python it asks for."""
        made = self.pip(JELMORAND_SO=self.installed() / "lib" / "libjelmorand.so")
        self.assertEqual(made.returncode, 0, made.stderr)
        shutil.rmtree(self.folder / "there")
        site = self.folder / "site"
        line = "import jelmorand; print(jelmorand.__file__, jelmorand.__version__, jelmorand.GROUNDS[1])"
        said = run(sys.executable, "-B", "-c", line, PYTHONPATH=site)
        self.assertEqual(said, f"{site}/jelmorand/__init__.py {VERSION} the job has fewer than 48 bytes\n")
        self.assertTrue((site / "jelmorand" / "py.typed").is_file())
        metadata = (site / f"jelmorand-{VERSION}.dist-info" / "METADATA").read_text("utf-8")
        self.assertIn("\nRequires-Python: >=3.9\n", metadata)

    def test_no_shared_object(self):
        for named, said in (("/nowhere/it.so", "/nowhere/it.so is not there"), ("it.so", "JELMORAND_SO is it.so, a relative path")):
            made = self.pip(JELMORAND_SO=named)
            self.assertNotEqual(made.returncode, 0)
            self.assertIn(said, made.stdout + made.stderr)
        self.assertFalse((self.folder / "site").exists())


class Cargo(Folder):
    PROGRAM = 'fn main() { println!("{} {}", jelmorand::VERSION, jelmorand::Refusal::JobTooShort); }\n'
    MANIFEST = f"""[package]
name = "user"
version = "0.0.0"
edition = "2021"

[dependencies]
jelmorand = {{ path = "{BINDINGS}/rust" }}
"""

    def write(self, *files):
        for name, text in (("Cargo.toml", self.MANIFEST), *files):
            (self.folder / name).parent.mkdir(exist_ok=True)
            (self.folder / name).write_text(text, "utf-8")

    def test_config_lines(self):
        """A project with the page's lines builds without JELMORAND_LIB in the environment."""
        lines = re.search(r"```toml\n(.*?)```", PAGE, re.DOTALL)[1]
        run(BINDINGS / "install", self.folder / "target" / "installed")
        self.write((".cargo/config.toml", lines), ("src/main.rs", self.PROGRAM))
        words = ("env", "-u", "JELMORAND_LIB", "cargo", "run", "--offline", "--quiet")
        said = run(*words, cwd=self.folder, CARGO_TARGET_DIR=self.folder / "built")
        self.assertEqual(said, f"{NUMBER} the job has fewer than 48 bytes\n")

    def test_page_s_program(self):
        self.write(("src/main.rs", re.search(r"```rust\n(.*?)```", PAGE, re.DOTALL)[1]))
        words = ("cargo", "run", "--offline", "--quiet", "--manifest-path", self.folder / "Cargo.toml")
        lib = self.installed() / "lib"
        self.assertEqual(run(*words, cwd=BINDINGS.parent, JELMORAND_LIB=lib, CARGO_TARGET_DIR=self.folder / "built"), AT_RATES)


if __name__ == "__main__":
    unittest.main()
