"""`./jelmorand portfolio FILE FROM TO STEP`: a line for every rate as the program writes it, passed on as it comes, and what is
said of words, texts, rates and programs that give no such lines."""

import os
import subprocess
import sys
import time

import reference
from house import EXAMPLES, example, house_test
from stand_ins import portfolio_lines
from textform.grounds import GROUNDS

RADON = "examples/radon"
HIGHEST = 2**32 - 1
LONG = f"""#!{sys.executable}
for rate in range(0, {{rates}}):
    print(rate, *[1099511627776] * 16)
"""
LONG_RATES = 100_001
NONE, CUT = "portfolio: no answer: ", "portfolio: no whole answer: it ends within a line, or before the last rate\n"
THREE = "0 7 5\n10 7 4\n20 7 3\n"
NO_ANSWERS = {  # what a program writes for the rates 0, 10 and 20, and what of it is shown with which words
    "": ("", CUT),
    "0 7 5\n10 7 4\n": ("0 7 5\n10 7 4\n", CUT),
    THREE[:-1]: ("0 7 5\n10 7 4\n", CUT),
    THREE + "30": (THREE, CUT),
    THREE + "30 7 3\n": ("", f"{NONE}'30 7 3'\n"),
    THREE + "\n": ("", f"{NONE}''\n"),
    THREE.replace("10", "20"): ("", f"{NONE}'20 7 4'\n"),
    THREE.replace("10", "010"): ("", f"{NONE}'010 7 4'\n"),
    THREE.replace("10 7 4", "10"): ("", f"{NONE}'10'\n"),
    THREE.replace("10 7 4", "10  7 4"): ("", f"{NONE}'10  7 4'\n"),
    THREE.replace("10 7 4", "10 7 4 "): ("", f"{NONE}'10 7 4 '\n"),
    THREE.replace("10 7 4", "10 7 refused 3"): ("", f"{NONE}'10 7 refused 3'\n"),
    THREE.replace("10 7 4", "10 refused"): ("", f"{NONE}'10 refused'\n"),
    THREE.replace("10 7 4", "10 refused 3 4"): ("", f"{NONE}'10 refused 3 4'\n"),
    THREE.replace("10 7 4", "10 7\u0664"): ("", f"{NONE}'10 7\ufffd\ufffd'\n"),
    THREE.replace("\n", "\r\n"): ("", f"{NONE}'0 7 5\\r'\n"),
    "refused 3\n": ("", f"{NONE}'refused 3'\n"),
    THREE + "7" * 100_000: (None, f"{NONE}'{'7' * 60}'\n"),
    "0" + " 7" * 100_000: ("", f"{NONE}'0{' 7' * 29} '\n"),
}


def lines(rates, book):
    return "".join(portfolio_lines(rates, book))


def book_of(name):
    return (EXAMPLES / f"{name}.book").read_bytes()


def ground(number):
    return f"ground {number}: {GROUNDS[number][0]}"


@house_test
def test_rates(home):
    """The factors at every rate from the first up to the last, of a text, a job and a book."""
    for gas, limits in (("radon", (0, 36, 18)), ("thoron", (18, 18, 1)), ("actinon", (99_990, 100_000, 3))):
        first, last, step = limits
        said = lines(range(first, last + 1, step), book_of(gas))
        for form in ("txt", "job", "book"):
            assert home.run("portfolio", f"examples/{gas}.{form}", *limits) == (0, said, ""), (gas, form)
    factors = reference.reported_factors(36, reference.read_book(book_of("radon")))
    assert lines([36], book_of("radon")) == f"36 {' '.join(map(str, factors))}\n" and len(factors) == 8


@house_test
def test_last_rate(home):
    """The last rate is in the run where a step reaches it, and a step beyond it ends the run. Zeros may stand before a number."""
    for limits, rates in (((0, 20, 10), (0, 10, 20)), ((0, 19, 10), (0, 10)), ((1, 20, 10), (1, 11)), (("007", 7, HIGHEST), (7,)),
                          ((5, "0006", "01"), (5, 6))):
        assert home.run("portfolio", f"{RADON}.txt", *limits) == (0, lines(rates, book_of("radon")), ""), limits


@house_test
def test_highest_number(home):
    """A number that is too high for the program counts as its highest, however many digits it has."""
    said = f"{RADON}.txt: {ground(3)}"
    for limits, rates in (((HIGHEST - 5, HIGHEST, 2), (HIGHEST - 5, HIGHEST - 3, HIGHEST - 1)), ((HIGHEST, 2**32 + 18, 1), (HIGHEST,)),
                          (("9" * 5_000, 10**40, 10**40), (HIGHEST,)), ((100_001, "0" * 5_000 + "100001", 2), (100_001,))):
        status, out, words = home.run("portfolio", f"{RADON}.txt", *limits)
        assert (status, out) == (2, "".join(f"{rate} refused 3\n" for rate in rates)) and words.startswith(said), limits
        assert words.count("\n") == 1


@house_test
def test_refused_rates(home):
    """The lines of rates that are refused stand among the others; the ground is said in words once, whatever the number of lines."""
    out = lines((99_990, 100_000, 100_010, 100_020), book_of("radon"))
    assert out.endswith("\n100010 refused 3\n100020 refused 3\n") and out.startswith("99990 1099511627776 ")
    status, shown, said = home.run("portfolio", f"{RADON}.txt", 99_990, 100_020, 10)
    words = f"{RADON}.txt: {ground(3)} Where to look: rate.\n"
    assert (status, shown, said) == (2, out, words)
    out = lines(range(100_001, 130_001), book_of("radon"))
    assert len(out) > 500_000 and home.run("portfolio", f"{RADON}.txt", 100_001, 130_000, 1) == (2, out, words)


@house_test
def test_refused_book(home):
    """Every rate has the book's ground, and one that is too high its own, which comes first."""
    home.write("slow.txt", example("actinon", ("Pb-211 half-life 36.1m", "Pb-211 half-life 36.1h")))
    status, out, said = home.run("portfolio", "slow.txt", 99_999, 100_002, 1)
    assert (status, out) == (2, "99999 refused 13\n100000 refused 13\n100001 refused 3\n100002 refused 3\n")
    told = [line for line in said.splitlines() if ": ground" in line]
    assert [line.partition(" Where")[0] for line in told] == [f"slow.txt: {ground(number)}" for number in (13, 3)], said
    book = book_of("actinon")
    for other, number in ((book[:-1], 11), (b"\0" + book[1:], 10), (book[:7], 9)):
        status, out, said = home.run("portfolio", home.write("their.book", other), 0, 18, 18)
        assert (status, out) == (2, f"0 refused {number}\n18 refused {number}\n") and said.startswith(f"their.book: {ground(number)}")
        assert said.count("\n") == 1


@house_test
def test_wrong_words(home):
    """Each is told by its name and as it stands, before anything is built or run."""
    home.program("portfolio").unlink()
    whole = "whole hundredths per hour, so"
    for limits, said in (
        (("0.18", 36, 18), f"FROM 0.18: {whole} 18 for 0.18"), ((0, "0,36", 18), f"TO 0,36: {whole} 36 for 0,36"),
        ((0, 36, "1.8"), f"STEP 1.8: {whole} 180 for 1.8"), (("+1", 2, 3), f"FROM +1: {whole} 18 for 0.18"),
        ((0, -1, 3), f"TO -1: {whole} 18 for 0.18"), ((0, 18, "x"), f"STEP x: {whole} 18 for 0.18"),
        ((0, 18, "1_0"), f"STEP 1_0: {whole} 18 for 0.18"), ((0, 18, " 1"), f"STEP  1: {whole} 18 for 0.18"),
        ((0, 18, "\u0661"), f"STEP \\u0661: {whole} 18 for 0.18"),
        ((0, "1e" + "9" * 5_000, 3), f"TO 1e{'9' * 18}... (5,002 characters): {whole} 18 for 0.18"),
        ((20, 10, 1), "FROM 20: more than TO 10, so there is no rate"),
        ((0, 18, 0), "STEP 0: 1 or more, since each rate is higher than the one before"),
        ((0, 18, "000"), "STEP 000: 1 or more, since each rate is higher than the one before"),
        ((20, 10, 0), "FROM 20: more than TO 10, so there is no rate"),
    ):
        assert home.run("portfolio", f"{RADON}.txt", *limits) == (2, "", f"{said}\n"), limits
    usage = "usage: ./jelmorand portfolio FILE FROM TO STEP\n"
    for words in ((), ("x",), ("x", 1, 2), ("x", 1, 2, 3, 4), ("-x", 1, 2, 3)):
        assert home.run("portfolio", *words) == (2, "", usage), words
    assert home.run("portfolio", "--help") == (0, usage, "")


@house_test
def test_wrong_text(home):
    """The line of a mistake, and a file that has no book, before anything is built or run."""
    home.program("portfolio").unlink()
    home.write("wrong.txt", example("radon", ("rate 0.18 per hour", "rate 0.18")))
    home.write("their.table", "18 1.000E+00\n")
    for name, said in (("wrong.txt", ", line 3: rate 0.18: whole hundredths per hour, so 18\n"), ("none", ": No such file or directory\n"),
                       ("examples", ": Is a directory\n"), ("their.table", ", line 1: ")):
        status, out, shown = home.run("portfolio", name, 0, 18, 18)
        assert (status, out, shown.count("\n")) == (2, "", 1) and shown.startswith(f"{name}{said}"), shown
    utf_16 = example("radon").encode("utf-16")
    assert home.run("portfolio", home.write("wide.txt", utf_16), 0, 18, 18)[:2] == (2, "")


@house_test
def test_warnings(home):
    """What looks wrong in a text stands beside the lines, and before them, since these may be many."""
    home.write("slow.txt", example("workroom", ("Po-218 half-life 3.10m", "Po-218 half-life 3.10h")))
    status, out, said = home.run("portfolio", "slow.txt", 0, 18, 18)
    assert status == 0 and out.count("\n") == 2 and " warning: Po-218: half-life 3.1h, where source 000 prints 3.10m\n" in said


# ---- As it comes --------------------------------------------------------------------------------


def waited(seconds, is_done):
    end = time.monotonic() + seconds
    while not is_done() and time.monotonic() < end:
        time.sleep(0.01)
    return is_done()


def started(home, *words, **more):
    command = [sys.executable, "./jelmorand", "portfolio", f"{RADON}.txt", *map(str, words)]
    return subprocess.Popen(command, cwd=home.folder, stdout=subprocess.PIPE, stderr=subprocess.PIPE, **more)


@house_test
def test_as_it_comes(home):
    """A line is there before the program writes the next one; what it says of itself is too."""
    home.put_program("portfolio", f"""#!{sys.executable}
import os, sys, time
print("0 7", flush=True)
print("portfolio: half of it", file=sys.stderr, flush=True)
while not os.path.exists("seen"):
    time.sleep(0.01)
print("10 5", flush=True)
""")
    with started(home, 0, 10, 10) as command:
        try:
            assert command.stdout.readline() == b"0 7\n" and command.stderr.readline() == b"portfolio: half of it\n"
        finally:
            home.write("seen", "")
        assert (command.communicate(timeout=60), command.returncode) == ((b"10 5\n", b""), 0)


@house_test
def test_half_lines(home):
    """A line that comes in parts goes out whole."""
    home.put_program("portfolio", f"""#!{sys.executable}
import sys, time
for sign in "0 7 5\\n10 7 4\\n20 refused 3\\n":
    sys.stdout.write(sign)
    sys.stdout.flush()
    time.sleep(0.001)
""")
    status, out, said = home.run("portfolio", f"{RADON}.txt", 0, 20, 10)
    assert (status, out) == (2, "0 7 5\n10 7 4\n20 refused 3\n") and said.startswith(f"{RADON}.txt: {ground(3)}")


def most_held(home, rates):
    """How many kilobytes the command held at most, in a run of so many rates of 16 members."""
    home.put_program("portfolio", LONG.format(rates=rates))
    command = [sys.executable, "./jelmorand", "portfolio", f"{RADON}.txt", "0", str(rates - 1), "1"]
    with open(home.folder / "out", "wb") as out, subprocess.Popen(command, cwd=home.folder, stdout=out) as done:
        _, status, used = os.wait4(done.pid, 0)
        done.returncode = os.waitstatus_to_exitcode(status)
    assert done.returncode == 0
    return used.ru_maxrss


@house_test
def test_memory(home):
    """A line for each rate that there is, 23 megabytes, and none of them is kept."""
    few, all_of_them = most_held(home, 10), most_held(home, LONG_RATES)
    out = (home.folder / "out").read_bytes()
    assert len(out) > 22_000_000 and out.count(b"\n") == LONG_RATES and out.endswith(b" 1099511627776\n")
    assert all_of_them < few + 8_000, (few, all_of_them)


@house_test
def test_no_answer(home):
    """Lines up to a part that is no answer have gone out, nothing comes after it, and the status says that it was not whole."""
    for text, (shown, said) in NO_ANSWERS.items():
        home.write("text", text)
        home.put_program("portfolio", "#!/bin/sh\ncat text\n")
        status, out, words = home.run("portfolio", f"{RADON}.txt", 0, 20, 10)
        assert (status, words) == (2, said) and (shown is None or out == shown), (text[:60], status, out[:60], words[:200])
    home.program("portfolio").write_text("#!/bin/sh\ncat text; sleep 0.1; printf '20 7 3\\n30 7 2\\n'\n")
    home.write("text", "0 7 5\n10 7 4\n")
    assert home.run("portfolio", f"{RADON}.txt", 0, 20, 10) == (2, "0 7 5\n10 7 4\n", f"{NONE}'30 7 2'\n")


@house_test
def test_failed_program(home):
    """What a program says of itself, and that it ended badly, also where all of its lines came."""
    home.write("three", THREE)
    for end, status in (("exit 1", 1), ("exit 3", 3), ("kill -9 $$", -9)):
        home.put_program("portfolio", f"#!/bin/sh\ncat three; echo 'portfolio: it is full' >&2; {end}\n")
        said = f"portfolio: it is full\nportfolio: no whole answer (status {status})\n"
        assert home.run("portfolio", f"{RADON}.txt", 0, 20, 10) == (2, THREE, said), end
    home.put_program("portfolio", "#!/bin/sh\necho 'portfolio: it is full' >&2; exit 1\n")
    assert home.run("portfolio", f"{RADON}.txt", 0, 20, 10) == (
        2, "", "portfolio: it is full\nportfolio: no whole answer (status 1)\n")
    home.put_program("portfolio", "#!/bin/sh\ncat three; echo 'portfolio: by the way' >&2\n")
    assert home.run("portfolio", f"{RADON}.txt", 0, 20, 10) == (0, THREE, "portfolio: by the way\n")
    home.program("portfolio").chmod(0o400)
    assert home.run("portfolio", f"{RADON}.txt", 0, 20, 10) == (2, "", "portfolio: no answer: Permission denied\n")


@house_test
def test_closed_output(home):
    """Where nobody reads on, the command ends, and the program with it."""
    home.put_program("portfolio", f"""#!{sys.executable}
import itertools, os
with open("number", "w") as file:
    file.write(str(os.getpid()))
for rate in itertools.count():
    print(rate, 7)
""")
    with started(home, 0, HIGHEST, 1) as command:
        assert command.stdout.readline() == b"0 7\n"
        command.stdout.close()
        assert command.wait(timeout=60) == 2 and command.stderr.read().startswith(b"standard output: ")
    number = int((home.folder / "number").read_text())
    assert waited(10, lambda: not os.path.exists(f"/proc/{number}"))


@house_test
def test_what_the_program_gets(home):
    """The book as a file that can be read from its start, the numbers in digits alone, and no input."""
    home.put_program("portfolio", f"""#!{sys.executable}
import sys
book = open(sys.argv[1], "rb").read()
assert sys.stdin.read() == "" and book == open("examples/radon.book", "rb").read()
assert sys.argv[2:] == ["0", "{HIGHEST}", "{HIGHEST}"], sys.argv
print("0 7")
print("{HIGHEST} 7")
""")
    for form in ("txt", "job", "book"):
        assert home.run("portfolio", f"{RADON}.{form}", "00", 10**40, 2**32) == (0, f"0 7\n{HIGHEST} 7\n", ""), form
    files = home.files()
    with started(home, 0, HIGHEST, HIGHEST, stdin=subprocess.PIPE) as command:
        assert command.communicate(b"more", timeout=60) == (f"0 7\n{HIGHEST} 7\n".encode(), b"") and command.returncode == 0
    assert home.files() == files
