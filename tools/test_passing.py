"""The other commands: what a program or the text tool says comes out as it is, and the exit status says whether it did."""

import os
import subprocess

import reference
from house import EXAMPLES, ROOT, example, house_test

RADON = "examples/radon"


@house_test
def test_fan(home):
    """A text and its job have the lowest rate that the reference has; of several, each under its name."""
    for path in sorted(EXAMPLES.glob("*.job")):
        said = reference.fan_answer(path.read_bytes())
        for form in ("txt", "job"):
            assert home.run("fan", f"examples/{path.stem}.{form}")[:2] == (0, said)
    assert home.run("fan", f"{RADON}.txt") == (0, "rate none\n", "")
    home.write("wrong.txt", example("radon", ("rate 0.18 per hour", "rate 0.18")))
    status, out, said = home.run("fan", "wrong.txt", "examples/workroom.txt", "none")
    assert (status, out) == (2, "examples/workroom.txt\nrate 90\n")
    assert said.startswith("wrong.txt, line 3: rate 0.18: ") and said.endswith("\nnone: No such file or directory\n")
    assert "\nexamples/workroom.txt, line 7: warning: target 4 in 1_000: more than 1 in 1_000\n" in said


@house_test
def test_warnings(home):
    """What looks wrong in a book is told beside its table and its factors; of a job's lines nothing is."""
    text = example("workroom", ("Po-218 half-life 3.10m", "Po-218 half-life 3.10h"))
    home.write("slow.txt", text)
    line = text[: text.index("Po-218 half-life")].count("\n") + 1
    for words in (("table", "slow.txt", 18), ("opening", "slow.txt", 18, 1)):
        said = f"slow.txt, line {line}: warning: Po-218: half-life 3.1h, where source 000 prints 3.10m\n"
        status, out, warned = home.run(*words)
        assert (status, warned) == (0, said) and out


@house_test
def test_table(home):
    """The book of a text, of a job and of a book; a refusal comes out as the program writes it, with words beside it."""
    book = (EXAMPLES / "radon.book").read_bytes()
    for form in ("txt", "job", "book"):
        assert home.run("table", f"{RADON}.{form}", 60, 18) == (0, reference.table_call([60, 18], book, 10**6), "")
    status, out, said = home.run("table", f"{RADON}.txt", 100_001)
    assert (status, out) == (2, "refused 3\n") and said.startswith(f"{RADON}.txt: ground 3: The rate is more than")
    home.put_program("table", "#!/bin/sh\necho 'table: 0.18: a rate is whole' >&2\nexit 1\n")
    assert home.run("table", f"{RADON}.txt", "0.18") == (2, "", f"{RADON}.txt: table: 0.18: a rate is whole\n")
    home.put_program("table", "#!/bin/sh\necho 18 1.000E+00 9.9\n")
    assert home.run("table", f"{RADON}.txt", 18)[:2] == (2, "")


@house_test
def test_opening(home):
    """The factors after periods, or a line every so many minutes through all of them."""
    book, periods = (EXAMPLES / "radon.book").read_bytes(), [0, 480, 400, 60]
    every = reference.opening_every(periods, 60, reference.read_book(book))
    assert [line.split()[0] for line in every.splitlines()] == [str(60 * hour) for hour in range(1, 10)]
    for form in ("txt", "job", "book"):
        name = f"{RADON}.{form}"
        assert home.run("opening", name, *periods) == (0, reference.opening_lines(periods, book), "")
        assert home.run("opening", name, *periods, "every", 60) == (0, every, "")


@house_test
def test_opening_refused(home):
    """A refusal comes out as the program writes it, with words beside it, and what it says instead of an answer does too."""
    name = f"{RADON}.txt"
    for words in ((18,), (18, 1_441), (0, 480, 400), (18, 1_441, "every", 60)):
        status, out, said = home.run("opening", name, *words)
        assert (status, out) == (2, "refused 22\n") and said.startswith(f"{name}: ground 22: A rate has no minutes"), words
    assert home.run("opening", name, 0, 1, 100_001)[:2] == (2, "refused 3\n")
    said = "opening: every 61: the periods have 60 minutes, so there is no such line"
    assert home.run("opening", name, 18, 60, "every", 61) == (2, "", f"{name}: {said}\n")


@house_test
def test_text_tool(home):
    """encode, decode and explain are the text tool's; where it ends in a mistake the status is 2."""
    assert home.run("encode", f"{RADON}.txt", "out.job")[:2] == (0, "")
    assert (home.folder / "out.job").read_bytes() == (EXAMPLES / "radon.job").read_bytes()
    status, text, _ = home.run("decode", "--names", f"{RADON}.txt", "out.job")
    assert status == 0 and home.run("encode", home.write("back.txt", text), "back.job")[0] == 0
    assert (home.folder / "back.job").read_bytes() == (EXAMPLES / "radon.job").read_bytes()
    assert home.run("explain", 3)[1].startswith("3. The rate is more than")
    for words in (("encode", "none.txt", "x.job"), ("decode", "none.job"), ("explain", "99"), ("encode",)):
        status, out, said = home.run(*words)
        assert (status, out) == (2, "") and said, words


@house_test
def test_usage(home):
    """One line a command, and one line for what is no command or lacks something."""
    status, out, said = home.run("--help")
    assert (status, said) == (0, "") and max(map(len, out.splitlines())) <= 100
    commands = [line.split()[1] for line in out.splitlines()]
    assert commands == [
        "screen", "rooms", "fan", "table", "portfolio", "check", "opening", "encode", "decode", "explain", "--help"]
    assert home.run("help") == home.run("-h") == (status, out, said)
    for word in ("--help", "-h"):
        for name, line in zip(commands[:-1], out.splitlines()):
            form = " ".join(line.partition("  ")[0].split())
            assert home.run(name, word) == (0, f"usage: {form}\n", "")
    assert home.run("screen", "") == home.run("rooms", "a", "", "b") == (
        2, "", "a word is empty, where a file's name or a number should stand\n")
    for line in ("", "scren x", "--helpp", "screen", "screen --reports x", "rooms a b", "rooms --forced a b c", "fan", "table",
                 "opening x", "screen -", "screen -report x", "fan x -h", "table -h x", "rooms a b c d", "encode", "encode x",
                 "decode", "explain 1 2"):
        words = line.split()
        status, out, said = home.run(*words)
        assert (status, out, said.count("\n")) == (2, "", 1), words
        if words and words[0] in commands:
            assert said.startswith(f"usage: ./jelmorand {words[0]} ")
    assert home.run("table", "none", 18) == (2, "", "none: No such file or directory\n")


@house_test
def test_manual(home):
    """The manual has the form of each command."""
    manual = (ROOT / "docs" / "COMMAND.md").read_text(encoding="utf-8")
    for line in home.run("--help")[1].splitlines()[:7]:
        form = line.partition("./jelmorand ")[2].partition("  ")[0]
        assert f"| `{form}` |" in manual, form


@house_test
def test_closed_output(home):
    """An answer that nobody could read is not well."""
    reader, writer = os.pipe()
    os.close(reader)
    status, _, said = home.run("screen", "examples/guide.txt", stdout=writer)
    os.close(writer)
    assert status == 2 and said.startswith("standard output: ")


@house_test
def test_closed_input(home):
    """What is lent to a program beside its input is the same where the command has no input at all."""
    for words in (("check", "examples/a-1.table", "examples/actinon.txt"),
                  ("screen", "examples/workroom.txt", "--coefficients", "examples/partner.txt"),
                  ("portfolio", f"{RADON}.txt", "0", "36", "18")):
        line = f"exec ./jelmorand {' '.join(words)} <&-"
        done = subprocess.run(["sh", "-c", line], cwd=home.folder, capture_output=True, timeout=300, check=False)
        assert (done.returncode, done.stdout.decode(), done.stderr.decode()) == home.run(*words), words
