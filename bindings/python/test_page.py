"""The examples in Python of bindings/README.md print what the page says. Those in C and Rust are in bindings/test_install.py.

    JELMORAND_SO=target/libjelmorand.so python3 bindings/python/test_page.py
"""

import os
import pathlib
import re
import subprocess
import sys
import unittest

HERE = pathlib.Path(__file__).resolve().parent
ROOT = HERE.parents[1]


class Page(unittest.TestCase):
    def test_examples(self):
        page = (ROOT / "bindings" / "README.md").read_text("utf-8")
        examples = re.findall(r"<<'END'\n(.*?)\nEND\n```\n\n.*?\n\n((?:    .*?\n)+)", page, re.DOTALL)
        self.assertEqual(len(examples), page.count("<<'END'"))
        for lines, printed in examples:
            environment = dict(os.environ, PYTHONPATH=str(HERE))
            made = subprocess.run([sys.executable, "-B", "-c", lines], cwd=ROOT, env=environment, capture_output=True, text=True)
            self.assertEqual(made.stdout, printed.replace("    ", ""), made.stderr)


if __name__ == "__main__":
    unittest.main()
