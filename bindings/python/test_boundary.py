"""Where Python and the shared object meet: the package against the C header, refusals, and shared objects that do not fit.

    JELMORAND_SO=target/libjelmorand.so python3 bindings/python/test_boundary.py
"""

import os
import pathlib
import pickle
import re
import subprocess
import sys
import tempfile
import unittest

import jelmorand
from jelmorand import _library, _limits, _marks, _refusals, _screening, _version

ROOT = pathlib.Path(__file__).resolve().parents[2]


class Header(unittest.TestCase):
    """What the package says again of the header."""

    HEADER = (ROOT / "bindings" / "c" / "jelmorand.h").read_text("ascii")

    def defined(self, name):
        return int(re.search(rf"#define JELMORAND_{name} (\d+)\n", self.HEADER)[1])

    def test_version(self):
        number = _version.number_of(jelmorand.__version__)
        self.assertEqual(number, self.defined("VERSION"))
        self.assertEqual(number, _library.LIBRARY.jelmorand_version())
        self.assertEqual(_version.text_of(number), jelmorand.__version__)
        manifest = (ROOT / "bindings" / "rust" / "Cargo.toml").read_text("utf-8")
        self.assertIn(f'\nversion = "{jelmorand.__version__}"\n', manifest)

    def test_sizes(self):
        names = ("REPORT_ROOM", "MAX_MEMBERS", "TABLE_ROOM", "MAX_RATES", "MAX_PERIODS", "MAX_MINUTES", "NO_RATE", "COEFFICIENTS_LENGTH")
        for name in names:
            self.assertEqual(getattr(_limits, name), self.defined(name))

    def test_figures(self):
        struct_text = re.search(r"struct jelmorand_figures \{\n(.*?)\};", self.HEADER, re.DOTALL)[1]
        self.assertEqual(re.findall(r"uint64_t (\w+);", struct_text), [name for name, _ in _library.Figures._fields_])
        verdicts = re.search(r"enum jelmorand_verdict \{ (.*) \};", self.HEADER)[1]
        named = ", ".join(f"JELMORAND_{word.upper()} = {number}" for number, word in _screening.VERDICTS.items())
        self.assertEqual(verdicts, named)

    def test_sets(self):
        named = ", ".join(f"JELMORAND_{one.name}_SET = {one.value}" for one in jelmorand.CoefficientSet)
        self.assertIn(f"enum jelmorand_coefficient_set {{ {named} }};", self.HEADER)

    def test_marks(self):
        self.assertIn(f"uint64_t marks[{len(_marks._Numbers())}]);", self.HEADER)

    def test_declarations(self):
        """Every call that the header declares has its arguments' types here, and no other has."""
        declared = re.findall(r"^(?:int64_t |const char \*)(jelmorand_\w+)\(([^;]*)\);", self.HEADER, re.MULTILINE)
        counts = {name: 0 if arguments == "void" else arguments.count(",") + 1 for name, arguments in declared}
        self.assertEqual(counts, {name: len(types) for name, types in _library._ARGUMENTS.items()})


class Refusals(unittest.TestCase):
    def test_sentences_are_the_header_s(self):
        listed = re.findall(r'GROUND\((\d+), \w+, \\\n +"(.*)"\)', Header.HEADER)
        self.assertEqual({int(number): sentence for number, sentence in listed}, jelmorand.GROUNDS)
        self.assertEqual(list(jelmorand.GROUNDS), list(range(1, 25)))

    def test_unknown_number(self):
        with self.assertRaises(jelmorand.Refused) as caught:
            _refusals.answered(-25)
        refused = caught.exception
        self.assertEqual(str(refused), "refused 25: a ground that this version does not know")
        self.assertEqual(pickle.loads(pickle.dumps(refused)).number, 25)

    def test_what_is_raised(self):
        with self.assertRaises(jelmorand.Refused) as caught:
            jelmorand.screen(b"")
        refused = caught.exception
        self.assertEqual((refused.number, refused.sentence), (1, "the job has fewer than 48 bytes"))
        self.assertEqual(str(refused), "refused 1: the job has fewer than 48 bytes")
        self.assertEqual(pickle.loads(pickle.dumps(refused)).number, 1)


class SharedObject(unittest.TestCase):
    def imported(self, folder, shared_object):
        """What importing the package in that folder with that JELMORAND_SO writes to standard error."""
        environment = dict(os.environ, JELMORAND_SO=str(shared_object), PYTHONPATH=str(pathlib.Path(__file__).resolve().parent))
        made = subprocess.run([sys.executable, "-B", "-c", "import jelmorand"], cwd=folder, env=environment, capture_output=True, text=True)
        return made.stderr

    def imported_made_of(self, text):
        """The same of a shared object that is made of a C text."""
        with tempfile.TemporaryDirectory() as folder:
            made = pathlib.Path(folder) / "made.so"
            compiler = ["cc", "-shared", "-fPIC", "-x", "c", "-", "-o", made]
            subprocess.run(compiler, input=text, text=True, check=True)
            return self.imported(folder, made)

    def test_relative_name(self):
        """A name without a folder means the file in the folder one is in."""
        used = _library.shared_object()
        self.assertEqual(self.imported(used.parent, used.name), "")

    def test_missing_file(self):
        self.assertIn("ImportError: /nowhere/libjelmorand.so is not there", self.imported("/", "/nowhere/libjelmorand.so"))

    def test_other_versions(self):
        own = _version.number_of(jelmorand.__version__)
        for version in (own + 1_000, own - 1_000, own + 1_000_000):
            said = self.imported_made_of(f"long long jelmorand_version(void) {{ return {version}; }}")
            self.assertIn(f"made.so is version {_version.text_of(version)}, and this package is for version {jelmorand.__version__}", said)

    def test_no_version(self):
        self.assertIn("made.so does not say its version", self.imported_made_of("int other;"))

    def test_missing_call(self):
        own = _version.number_of(jelmorand.__version__)
        said = self.imported_made_of(f"long long jelmorand_version(void) {{ return {own}; }}")
        self.assertIn("ImportError", said)
        self.assertIn("made.so has no jelmorand_factors: bindings/README.md says how to make it", said)

    def test_versions_that_fit(self):
        own = _version.number_of(jelmorand.__version__)
        self.assertTrue(all(_version.fits(version) for version in (own, own + 1, own + 999)))
        self.assertFalse(any(_version.fits(version) for version in (own - 1, own + 1_000, own - 1_000, own + 1_000_000)))


if __name__ == "__main__":
    unittest.main()
