"""What ./jelmorand proves and builds before it asks a program, with a stand-in for the prover."""

import os
import sys

from command import crates
from house import ROOT, house_test
from test_coefficients import mild, set_of

WORKROOM = "examples/workroom.txt"
PROVER = f"""#!{sys.executable}
import os, pathlib, shutil, sys
crate = pathlib.Path.cwd()
with open(crate.parent.parent / "asked", "a") as file:
    print(crate.name, *sys.argv[1:], file=file)
if crate.name == os.environ.get("FAILS"):
    print("many lines\\nlib.rt:3: cannot be proved")
    sys.exit(1)
if sys.argv[1] == "run" and not (crate / "out" / crate.name).exists():  # what is proved already is left as it is
    (crate / "out").mkdir(exist_ok=True)
    shutil.copy(crate / "made", crate / "out" / crate.name)
"""


def put_prover(home):
    """A folder with nothing but a prover, which builds the program that stands beside the source."""
    (home.folder / "bin").mkdir()
    (home.folder / "bin" / "rt").write_text(PROVER)
    (home.folder / "bin" / "rt").chmod(0o755)
    for name in ("screen", "fan", "partner", "table", "marks", "portfolio"):
        home.program(name).rename(home.folder / "crates" / name / "made")
    return home.folder / "bin"


def asked(home):
    """What the prover was asked since the last time."""
    path = home.folder / "asked"
    lines = path.read_text().splitlines() if path.exists() else []
    path.unlink(missing_ok=True)
    return lines


@house_test
def test_first_run(home):
    """Every crate below the programs is proved, each after those that it uses; the second run asks for nothing."""
    path = put_prover(home)
    status, out, said = home.run("screen", WORKROOM, path=path)
    needed = crates.below(["screen", "fan"])
    assert status == 1 and "verdict        above" in out
    assert said.splitlines()[0].startswith(f"screen and fan: not built yet; proving and building {len(needed)} crates, ")
    progress = [f"proving {crate} ({i} of {len(needed)}, {len(needed) - i} left)" for i, crate in enumerate(needed, 1)]
    assert said.splitlines()[1:] == progress and progress[-1].startswith("proving fan") and "proving book" in said
    manual = (ROOT / "docs" / "COMMAND.md").read_text(encoding="utf-8")
    assert "".join(f"    {line}\n" for line in said.splitlines()[:2]) in manual
    assert asked(home) == [f"{crate} lib" for crate in needed[:-2]] + ["screen run --", "fan run --"]
    assert home.run("screen", WORKROOM, path=path) == (1, out, "") and asked(home) == []


@house_test
def test_partner(home):
    """A second set asks for `partner` alone, and with --both for all three; a run of it needs a file that stands for a set."""
    path = put_prover(home)
    lent = ("screen", WORKROOM, "--coefficients", home.write("set.txt", set_of("workroom", mild)))
    assert home.run(*lent, path=path)[0] == 0
    assert asked(home)[-1].startswith("partner run -- /") and not home.program("screen").exists()
    assert home.run(*lent, path=path)[0] == 0 and asked(home) == []
    assert home.run(*lent, "--both", path=path)[0] == 1
    assert [line for line in asked(home) if " run" in line] == ["screen run --", "fan run --"]
    home.write("wrong.txt", "set A\nmumble\n")
    home.program("partner").unlink()
    status, _, said = home.run(*lent[:-1], "wrong.txt", path=path)
    assert status == 2 and said.startswith("wrong.txt, line 2: ") and asked(home) == []  # before anything is built


@house_test
def test_check(home):
    """A table from elsewhere asks for `marks`, and for `table` where its wrong entries are shown; `marks` is run with two files."""
    path = put_prover(home)
    files = "examples/a-1.table", "examples/actinon.txt"
    assert home.run("check", "--report", *files, path=path)[0] == 1
    runs = [line for line in asked(home) if " run" in line]
    assert len(runs) == 1 and runs[0].startswith("marks run -- /") and runs[0].count(" /") == 2
    assert not home.program("table").exists()
    assert home.run("check", *files, path=path)[0] == 1
    assert [line.split()[:2] for line in asked(home) if " run" in line] == [["table", "run"]]
    assert home.run("check", *files, path=path)[0] == 1 and asked(home) == []
    home.program("marks").unlink()
    status, _, said = home.run("check", "none.table", files[1], path=path)
    assert (status, said) == (2, "none.table: No such file or directory\n") and asked(home) == []  # before anything is built


@house_test
def test_portfolio(home):
    """A run over many rates asks for its own program alone, which is run at one rate to build it."""
    path = put_prover(home)
    limits = "0", "36", "18"
    status, out, said = home.run("portfolio", "examples/radon.txt", *limits, path=path)
    needed = crates.below(["portfolio"])
    assert status == 0 and out.count("\n") == 3 and said.startswith(f"portfolio: not built yet; proving and building {len(needed)} crates, ")
    *libraries, last = asked(home)
    assert libraries == [f"{crate} lib" for crate in needed[:-1]] and "portfolios lib" in libraries and "balance lib" in libraries
    assert last.startswith("portfolio run -- /") and last.endswith("/examples/radon.book 18 18 1")
    assert home.run("portfolio", "examples/radon.txt", *limits, path=path) == (0, out, "") and asked(home) == []
    home.program("portfolio").unlink()
    for words in (("none.txt", *limits), ("examples/radon.txt", "0", "0.36", "18")):
        assert home.run("portfolio", *words, path=path)[0] == 2 and asked(home) == []  # before anything is built


def test_order():
    """A crate comes after all that it uses, and no crate that the programs do without is proved."""
    needed, uses = crates.below(["screen", "fan"]), crates.listed()
    for i, name in enumerate(needed):
        assert all(library in needed[:i] for library in uses[name] if library in uses), name
    assert {"minutes", "tables", "table", "portfolios", "jelmorand"}.isdisjoint(needed) and "verdict" in needed
    assert set(crates.below(["table"])) >= {"table", "tables", "book"} and "verdict" not in crates.below(["table"])


@house_test
def test_newer_source(home):
    """A program is built again after a change in any of its crates, in the list of crates, and in no other crate."""
    path = put_prover(home)
    home.run("screen", WORKROOM, path=path)
    asked(home)
    for changed, again in (("book", ["screen run --", "fan run --"]), ("fan", ["fan run --"]), ("tables", [])):
        os.utime(home.source(changed))
        status, out, said = home.run("screen", WORKROOM, path=path)
        assert status == 1 and "above" in out and ("the source has changed since it was built" in said) == (again != [])
        assert [line for line in asked(home) if " run" in line] == again, changed
        assert home.run("screen", WORKROOM, path=path) == (1, out, "") and asked(home) == [], "built again without a change"
    proof = home.source("book").parent.parent / "proofs" / "Deep" / "New.antt"
    proof.parent.mkdir(parents=True)
    proof.write_text("-- a proof\n")
    home.run("screen", WORKROOM, path=path)
    assert "fan run --" in asked(home)
    os.utime(home.folder / "crates.txt")
    home.run("screen", WORKROOM, path=path)
    assert "fan run --" in asked(home)


@house_test
def test_failed_proof(home):
    """An old program is never asked where its source has changed and is not proved."""
    path = put_prover(home)
    home.run("screen", WORKROOM, path=path)
    os.utime(home.source("verdict"))
    os.environ["FAILS"] = "verdict"
    try:
        status, out, said = home.run("screen", WORKROOM, path=path)
    finally:
        del os.environ["FAILS"]
    last = "verdict: not proved and built ('rt lib' in crates/verdict ended with status 1)\n"
    assert (status, out) == (2, "") and said.endswith(f"    many lines\n    lib.rt:3: cannot be proved\n{last}")
    assert home.run("screen", WORKROOM, path=path)[0] == 1


@house_test
def test_no_prover(home):
    """Where nothing is built and rt is not there, one line says where it comes from."""
    (home.folder / "bin").mkdir()
    assert home.run("screen", WORKROOM, path=home.folder / "bin")[0] == 1
    home.program("fan").unlink()
    status, out, said = home.run("screen", WORKROOM, path=home.folder / "bin")
    assert (status, out, said.count("\n")) == (2, "", 1)
    assert said.startswith("fan: not built yet, and rt,") and "docs/CHECKING.md" in said
    assert home.run("screen", "--report", WORKROOM, path=home.folder / "bin")[0] == 1
