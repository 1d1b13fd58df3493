"""The commands of the text tool, as a user runs them: what they write, say and leave alone."""

import os
import pathlib
import re
import subprocess
import sys
import tempfile

from textform.grounds import GROUNDS
from textform.second_set import read_set, set_bytes
from textform.text import read_text

HERE = pathlib.Path(__file__).resolve().parent
BOOK = HERE / "book.py"
RADON = HERE.parent / "examples" / "radon.txt"


def run(*words, **more):
    done = subprocess.run([sys.executable, BOOK, *map(str, words)], capture_output=True, timeout=60, **more)
    assert b"Traceback" not in done.stderr, done.stderr.decode()
    return done.returncode, done.stdout.decode(), done.stderr.decode()


def folder_test(test):
    """A test that gets a folder of its own."""

    def within():
        with tempfile.TemporaryDirectory() as folder:
            test(pathlib.Path(folder))

    return within


@folder_test
def test_encode_and_decode(folder):
    job, back = folder / "radon.job", folder / "back.txt"
    status, out, said = run("encode", RADON, job)
    assert (status, out) == (0, "") and f"{job}: wrote a job with its book: members 8, feeds 9, bytes 384\n" in said
    assert job.read_bytes() == RADON.with_suffix(".job").read_bytes()
    for names in ([], ["--names", RADON]):
        status, text, said = run("decode", *names, job)
        assert (status, said) == (0, "") and ("Po-218" in text) == bool(names)
        back.write_text(text)
        assert run("encode", back, folder / "again.job")[0] == 0
        assert (folder / "again.job").read_bytes() == job.read_bytes()
    assert sorted(path.name for path in folder.iterdir()) == ["again.job", "back.txt", "radon.job"]


@folder_test
def test_book_alone(folder):
    """The book of a text, whether or not the lines of a job stand beside it."""
    text = RADON.read_text()
    (folder / "book.txt").write_text(text[text.index("divisor") :])
    for text, words in ((RADON, ["--book"]), (folder / "book.txt", ["--book"]), (folder / "book.txt", [])):
        status, _, said = run("encode", *words, text, folder / "radon.book")
        assert status == 0 and "wrote a book alone" in said and ("screen asks" in said) == (words == []), said
        assert (folder / "radon.book").read_bytes() == RADON.with_suffix(".book").read_bytes()
    assert run("encode", "--job", RADON, folder / "other")[0] == 2


@folder_test
def test_set(folder):
    """The bytes of a set, in the order of the chain, into a new file; what looks wrong is told, and mistakes have their file."""
    second, out = folder / "partner.txt", folder / "partner.set"
    lines = [line for line in RADON.read_text().splitlines() if line.startswith("member")]
    numbers = "\n".join(re.sub("half-life [^ ]+ +", "", line) for line in reversed(lines))
    text = f"set A list\n{numbers}\n"
    second.write_text(text)
    book = RADON.with_suffix(".book").read_bytes()
    own = b"".join(book[8 + 32 * i + 8 :][:20] for i in range(8))
    said = f"{out}: wrote the set of A list: members 8, bytes 160\n"
    assert run("encode", "--coefficients", second, RADON, out) == (0, "", said)
    assert out.read_bytes() == own == set_bytes(read_set(text), read_text(RADON.read_text())[1])
    again = run("encode", "--coefficients", second, RADON, out)
    assert again == (1, "", f"{out}: is there already, so it was left as it was; give the set another name\n")
    out.unlink()
    second.write_text(re.sub("inhalation-risk [^ ]+", "inhalation-risk 0", text))
    zero = "warning: kind risk: every inhalation-risk is 0, so what is breathed does not count"
    assert run("encode", "--coefficients", second, RADON, out) == (0, "", f"{second}: {zero}\n{said}")
    out.unlink()
    for words, wrong in (((RADON, second), f"{RADON}, line 3: this looks like a room's text"),
                         ((second, second), f"{second}, line 1: this looks like a set of coefficients"),
                         ((second, RADON.with_name("thoron.txt")), f"{second}, line 2: member Tl-210: the room's chain has no")):
        status, _, said = run("encode", "--coefficients", *words, out)
        assert status == 1 and said.startswith(wrong) and not out.exists(), said


def test_to_standard_output():
    done = subprocess.run([sys.executable, BOOK, "encode", RADON, "/dev/stdout"], stdout=subprocess.PIPE, stderr=subprocess.DEVNULL)
    assert done.stdout == RADON.with_suffix(".job").read_bytes()


@folder_test
def test_warnings(folder):
    """The job is written all the same, and the words say who decides."""
    text, job = folder / "fast.txt", folder / "fast.job"
    text.write_text(RADON.read_text().replace("rate 0.18 per hour", "rate 100_001"))
    status, _, said = run("encode", text, job)
    assert status == 0 and job.exists()
    assert f"{text}, line 3: to be refused: rate 100001: at most 100,000 hundredths per hour (ground 3)\n" in said
    assert f"{text}: screen decides, not this tool; expect 'refused 3'\n" in said


@folder_test
def test_mistakes_name_file_and_line(folder):
    text, job = folder / "slow.txt", folder / "slow.job"
    text.write_text(RADON.read_text().replace("rate 0.18 per hour", "rate 0.18"))
    status, _, said = run("encode", text, job)
    assert status == 1 and said == f"{text}, line 3: rate 0.18: whole hundredths per hour, so 18\n"
    assert not job.exists()
    status, _, said = run("decode", "--names", text, RADON.with_suffix(".job"))
    assert status == 0  # names are taken from the member lines alone
    text.write_text("member A half-life 1w")
    assert run("decode", "--names", text, RADON.with_suffix(".job"))[2].startswith(f"{text}, line 1: half-life 1w")


@folder_test
def test_any_bytes(folder):
    text, job = folder / "text.txt", folder / "text.job"
    text.write_bytes(b"\xef\xbb\xbf" + RADON.read_bytes())  # a BOM
    assert run("encode", text, job)[0] == 0
    for data, part in ((b"rate 18\n\xff\xfe", "line 2: the byte 0xff is not text in UTF-8"), (b"\0" * 99, "is no text: it has a zero byte"),
                       (b"a" * 1_000_001, "longer than 1,000,000 bytes"), (b"", "the text is empty")):
        text.write_bytes(data)
        status, _, said = run("encode", text, job)
        assert status == 1 and said.startswith(str(text)) and part in said, said
    text.write_bytes("rate 18".encode("utf-16"))
    assert run("encode", text, job)[2] == f"{text}: is text in UTF-16; save the file as UTF-8\n"
    assert run("encode", RADON.with_suffix(".job"), job)[2].startswith(f"{RADON.with_suffix('.job')}: is no text: it has a zero byte")
    assert run("decode", RADON)[2] == f"{RADON}: is no job and no book: it has no zero byte, so it may be a text already\n"
    for path in (folder, folder / "none"):
        assert run("encode", path, job)[0] == run("decode", path)[0] == 1
    assert run("encode", "/dev/zero", job)[0] == 1


def test_closed_output():
    reader, writer = os.pipe()
    os.close(reader)
    for words in (["decode", RADON.with_suffix(".job")], ["--help"], ["explain"]):
        done = subprocess.run([sys.executable, BOOK, *words], stdout=writer, stderr=subprocess.PIPE)
        assert done.returncode == 1 and done.stderr.startswith(b"standard output: Broken pipe"), done.stderr
    os.close(writer)
    for closed in (">&-", "2>&-", ">&- 2>&-", "> /dev/full", "2> /dev/full"):
        done = subprocess.run(["sh", "-c", f'"$0" "$1" explain {closed}', sys.executable, BOOK], capture_output=True)
        assert b"Traceback" not in done.stderr and b"Exception" not in done.stderr, (closed, done.stderr)


def test_explain():
    status, out, _ = run("explain", 8)
    assert status == 0 and out.startswith("8. ") and "4,000,000,000 mBq/m3" in out
    most = len(GROUNDS)
    assert run("explain")[1].count("Where to look") == most
    for word in ("0", most + 1, "x", "08", "9" * 5_000):
        status, _, said = run("explain", word)
        assert status == 1 and f"the grounds are 1 to {most}" in said


def test_help():
    for word in ("--help", "-h", "help"):
        assert run(word)[:2] == (0, (HERE / "MANUAL.md").read_text(encoding="ascii"))
    for words in ("", "encode", "encode x", "encode --book x", "encode --coefficients x", "encode --coefficients x y",
                  "encode --coefficients x y z --book", "decode", "decode --names x", "decode --job --job x", "explain 1 2"):
        status, _, said = run(*words.split())
        assert status == 2 and "book.py encode [--book | --coefficients SET] TEXT OUT" in said, words
