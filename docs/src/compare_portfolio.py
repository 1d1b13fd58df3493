"""Does the proved `portfolio` write what a plain one writes, and how many times as long does it take (document 02, R-9)?

    compare_portfolio.py [--ours PROGRAM] [--archive ARCHIVE] [--rounds N]

rustc builds the plain one, portfolio.rs, and portfolio_times.rs with the library's archive, into target/portfolio. The outputs
are compared in full, byte for byte, for the largest book at the rates 0 to 99,990 in tens, and for small, random and refused
books at rates and steps of all sizes; where a run has few rates, with the reference too. Then whole runs and the computing
alone are timed in turn, the best of many rounds, and where there is valgrind it counts the instructions. The exit status is
not zero where an output differs, or ours takes more than three times as long.
"""

import argparse
import os
import pathlib
import re
import shutil
import subprocess
import sys
import time

import reference as ref
from damage import DAMAGE, damaged, damaged_twice, sturdy_case
from draws import Random, book_of, capped_case, halved_case, largest_case, parent_case, random_case, thin_case
from packing import pack_book, pack_feed, pack_member
from plain_help import answer_help
from small_books import LONGEST, T1, TOP, branched, daughter, falling, fan, line, parent, split, widest
from tally import say_passed

ROOT = pathlib.Path(__file__).resolve().parents[2]
sys.path.insert(0, str(ROOT / "tools"))

from command.crates import below, sources  # noqa: E402

BUILT = ROOT / "target" / "portfolio"
OURS = ROOT / "crates" / "portfolio" / "out" / "portfolio"
ARCHIVE = ROOT / "crates" / "jelmorand" / "out" / "libjelmorand.a"
MOST_TIMES = 3
HIGHEST = 100_000  # the highest rate that is accepted
FEW = 64  # so many rates the reference works out too
LARGE_RUN = (0, 99_990, 10)


class Wrong(Exception):
    """Something that is not as it is to be; it says what."""


# ---- The programs --------------------------------------------------------------------------------


def compile_plain(source, *flags):
    """rustc's program of a file beside this one."""
    if shutil.which("rustc") is None:
        raise Wrong("rustc, which compiles the plain one, was not found")
    program = BUILT / source.removesuffix(".rs")
    words = ["rustc", "-O", "--edition", "2024", "-D", "warnings", *flags, "-o", program, pathlib.Path(__file__).parent / source]
    done = subprocess.run(words, check=False)
    if done.returncode != 0:
        raise Wrong(f"{source} is not compiled")
    return program


def say_if_old(built, crate):
    """A line where a source was changed after it was built."""
    if any(path.stat().st_mtime_ns > built.stat().st_mtime_ns for name in below([crate]) for path in sources(name)):
        print(f"{built.name}: a source of {crate} is newer")


def given():
    words = argparse.ArgumentParser(add_help=False)
    words.add_argument("--ours", type=pathlib.Path, default=OURS)
    words.add_argument("--archive", type=pathlib.Path, default=ARCHIVE)
    words.add_argument("--rounds", type=int, default=200)
    words = words.parse_args()
    for path, crate, default in ((words.ours, "portfolio", OURS), (words.archive, "jelmorand", ARCHIVE)):
        if not path.is_file():
            raise Wrong(f"{os.path.relpath(path)} is not there")
        if path == default:
            say_if_old(path, crate)
    return words


# ---- The books -----------------------------------------------------------------------------------


def feeds_of(i):
    """So many feeds member i of the largest book has, from those before it in turn."""
    return i if i < 5 else 5 - (i == 15)


def largest_book():
    """16 members and 64 feeds: that of bindings/c/count.c."""
    members, feeds = [], []
    for i in range(16):
        first = len(feeds) + 1
        numbers = [1_000 + 10 * i + k for k in range(5)]
        members.append(pack_member(186_000_000_000 + 977_000_000 * i, *numbers, first=first if feeds_of(i) else 0))
        feeds += [pack_feed(15_000, i - 1 - k, first + k + 1 if k + 1 < feeds_of(i) else 0) for k in range(feeds_of(i))]
    return pack_book(members, feeds)


def small_books():
    """Rows of document 01, chains of whole shares, and shares that have nothing in common."""
    yield from (parent(), daughter(T=T1), daughter(33_333), daughter(1, LONGEST), branched(), branched(LONGEST), branched(1))
    yield from (fan(1), fan(64), fan(64, T1), fan(64, LONGEST), split(50_000, 49_999, 1), split(*[6_666] * 15), widest())
    yield from (line(*[100_000] * 15), line(*[99_999] * 15), line(*[50_000] * 15), line(*[1] * 15), line(99_980, 100_000, 20))
    yield from (falling(1 << 30, 1 << 20, 1 << 10, 3, 2, 1, v=HIGHEST), falling(*range(ref.G - 1, ref.G - 16, -1), v=1))
    # Factors of more and fewer digits, one grain apart.
    yield falling(10**12 + 10**8, 10**12 + 10**8 - 1, 10**12 + 1, 10**12, 10**12 - 1, v=1)
    yield falling(10**8, 10**8 - 1, 10**7, 10**7 - 1, 10**4, 10**4 - 1, 1_000, 999, 100, 99, 10, 9, 1, v=HIGHEST)


def random_books(rng):
    for makes in (thin_case, capped_case, halved_case, parent_case):
        yield from (book_of(makes(rng)) for _ in range(6))
    yield from (book_of(random_case(rng)) for _ in range(60))
    for n in range(2, 17):
        yield from (book_of(random_case(rng, n, m)) for m in (n - 1, min(64, 4 * n), 64))
    for T in (1, T1, 186_000_000_000, LONGEST):
        yield book_of(largest_case(rng, ref.RISK, 0, T))


def book_alone(data):
    """Without the job before it."""
    return data[48:]


def refused_books(rng):
    """Every way to meet each ground of the book, and each ground together with the next."""
    for ground in range(9, 19):
        yield from ((ground, book_alone(damaged(rng, sturdy_case(rng), way))) for way in DAMAGE[ground])
        yield from ((ground, damaged_twice(rng, ground)) for _ in range(3) if ground < 18)
    yield from ((9, b""), (9, largest_book()[:7]), (11, largest_book()[:-1]), (11, largest_book() + b"\0"))


# ---- The runs ------------------------------------------------------------------------------------

RUNS = ((0, 0, 1), (0, 40, 1), (HIGHEST, HIGHEST, 7), (HIGHEST - 20, HIGHEST + 20, 1), (HIGHEST + 1, HIGHEST + 1, 1),
        (0, TOP, HIGHEST), (0, TOP, TOP), (TOP, TOP, 1), (TOP, TOP, TOP), (TOP - 1, TOP, 2), (TOP - 40, TOP, 1),
        (0, HIGHEST, 1_999))


def random_run(rng):
    """About as many rates of one length in bits as of another, and steps too; at most some thousands of rates."""
    first = rng.one_of((0, rng.spread(0, HIGHEST), rng.between(0, HIGHEST), rng.spread(0, TOP)))
    step = rng.one_of((1, rng.spread(1, 1_000), rng.spread(1, TOP)))
    return first, min(TOP, first + step * rng.spread(0, 4_000) + rng.between(0, step - 1)), step


def comparisons():
    """A name, a book and a run each."""
    rng = Random(0x506F7274)
    yield "largest", largest_book(), LARGE_RUN
    yield from (("largest", largest_book(), run) for run in (*RUNS, (0, HIGHEST + 1_000, 1), (0, HIGHEST, 3)))
    yield from (("small", book, run) for book in small_books() for run in RUNS)
    for T in (1, 10**15):
        yield from (("parent alone", pack_book([pack_member(T)], []), random_run(rng)) for _ in range(10))
    for book in random_books(rng):
        yield from (("random", book, run) for run in (rng.one_of(RUNS), random_run(rng), (0, HIGHEST, rng.between(20, 200))))
    for ground, book in refused_books(rng):
        yield from ((f"refused {ground}", book, run) for run in (*RUNS[:4], random_run(rng)))


def said_by(program, words):
    done = subprocess.run([program, *words], stdin=subprocess.DEVNULL, capture_output=True, check=False, timeout=600)
    return done.returncode, done.stdout, done.stderr


def words_of(path, run):
    return [path, *map(str, run)]


def reference_lines(book, run):
    first, last, step = run
    try:
        read, ground = ref.read_book(book), None
    except ref.Refused as refused:
        ground = refused.number
    for v in range(first, last + 1, step):
        if v > HIGHEST or ground:
            yield f"{v} refused {3 if v > HIGHEST else ground}\n"
        else:
            yield " ".join(map(str, [v, *ref.reported_factors(v, read)])) + "\n"


def differing(ours, plain):
    """The first line in which two outputs differ, of each."""
    lines = zip(ours.splitlines() + [b"nothing"], plain.splitlines() + [b"nothing"])
    return next((f"{one!r} and {other!r}" for one, other in lines if one != other), "the ends")


def is_text(book):
    """Ours says a line of a text, which no book is, beside what it answers."""
    return bool(book) and 0 not in book


def compare(ours, plain):
    """How many runs were compared, and how many lines they have."""
    runs, rates, path = 0, 0, BUILT / "compared.book"
    for name, book, run in comparisons():
        path.write_bytes(book)
        one, other = said_by(ours, words_of(path, run)), said_by(plain, words_of(path, run))
        count = len(range(run[0], run[1] + 1, run[2]))
        if one[0] != 0 or bool(one[2]) != is_text(book) or other[0] != 0 or other[2]:
            raise Wrong(f"{name}, {run}: status {one[0]} and {other[0]}, {one[2]!r} and {other[2]!r}")
        if one[1] != other[1]:
            raise Wrong(f"{name}, {run}: ours and the plain one differ, {differing(one[1], other[1])}")
        if one[1].count(b"\n") != count:
            raise Wrong(f"{name}, {run}: {one[1].count(bytes([10]))} lines for {count} rates")
        if count <= FEW and one[1] != "".join(reference_lines(book, run)).encode():
            raise Wrong(f"{name}, {run}: both are wrong by the reference")
        runs, rates = runs + 1, rates + count
    print(f"{runs} runs of {rates:,} rates: the outputs are the same, byte for byte")
    return runs


# ---- Words ---------------------------------------------------------------------------------------


def wrong_words(path):
    """Words that are not taken: a line on standard error, and nothing else."""
    yield from ([], [path], [path, "0"], [path, "0", "1"], [path, "0", "1", "1", "1"], [path, "0", "1", "1", "--help"])
    yield from (["--help", "0"], [path, "0", "1", "0"], [path, "1", "0", "1"], [path, str(TOP), str(TOP - 1), "1"])
    for word in ("", " ", "-1", "+1", "1.0", "1e3", "0x1", "1_0", " 1", "1 ", "1,0", "one", "--help", "\u0661", "\u00b9",
                 b"\xff", b"1\xff"):
        for at in (1, 2, 3):
            words = [path, "0", "5", "1"]
            words[at] = word
            yield words
    yield from ([missing, "0", "5", "1"] for missing in (BUILT / "no such file", BUILT, ""))


def saturating_words(path):
    """Words that are taken, with those that say the same in fewer digits."""
    far = str(TOP)
    yield [path, "000", "0020", "007"], [path, "0", "20", "7"]
    yield [path, "0" * 40 + "9", "9", "1"], [path, "9", "9", "1"]
    for high in ("4294967296", "9999999999", "18446744073709551616", "18446744073709551617", "1" + "0" * 60):
        yield [path, "0", "5", high], [path, "0", "5", far]
        yield [path, "4294967290", high, "2"], [path, "4294967290", far, "2"]
        yield [path, high, high, high], [path, far, far, far]


def compare_words(ours, plain):
    path, count = BUILT / "compared.book", 0
    path.write_bytes(daughter(T=T1))
    for words in wrong_words(path):
        for program in (ours, plain):
            status, out, line = said_by(program, words)
            if status != 1 or out or line.count(b"\n") != 1 or not line.endswith(b"\n"):
                raise Wrong(f"{program.name} with {words}: status {status}, {out!r} and {line!r}")
        count += 1
    for words, same in saturating_words(path):
        outputs = {said_by(program, each) for program in (ours, plain) for each in (words, same)}
        if len(outputs) != 1 or {status for status, _, _ in outputs} != {0}:
            raise Wrong(f"{words}: {outputs}")
        count += 1
    if {said_by(program, ["--help"]) for program in (ours, plain)} != {(0, b"usage: portfolio BOOKFILE FROM TO STEP\n", b"")}:
        raise Wrong("--help alone")
    print(f"{count + 1} kinds of words: both take or refuse them in the same way")
    return count + 1


# ---- Times ---------------------------------------------------------------------------------------


def time_whole_run(program, words):
    """From the start of the process to its end, with its output read in full from a pipe."""
    reading, writing = os.pipe()
    began = time.perf_counter()
    process = os.posix_spawn(program, [program, *words], os.environ, file_actions=[(os.POSIX_SPAWN_DUP2, writing, 1)])
    os.close(writing)
    while os.read(reading, 1 << 20):
        pass
    _, status = os.waitpid(process, 0)
    took = time.perf_counter() - began
    os.close(reading)
    if status != 0:
        raise Wrong(f"{program} ended with {status}")
    return took


def time_whole_runs(ours, plain, words, rounds):
    best = [float("inf"), float("inf")]
    for _ in range(rounds):
        best = [min(before, time_whole_run(program, words)) for before, program in zip(best, (ours, plain))]
    return best


def compare_times(ours, plain, harness, rounds):
    """Both ratios, in words and checked."""
    path = BUILT / "largest.book"
    path.write_bytes(largest_book())
    words = [str(word) for word in words_of(path, LARGE_RUN)]
    one, other = time_whole_runs(str(ours), str(plain), words, rounds)
    micro = f"{one * 1e6:.0f} and {other * 1e6:.0f} microseconds"
    print(f"whole runs: {micro}, best of {rounds} rounds, {one / other:.2f} times as long")
    done = subprocess.run([harness, *words, str(rounds)], capture_output=True, text=True, check=False)
    print(done.stdout, end="")
    found = re.search(r"^computing alone: .* ([\d.]+) times as long$", done.stdout, re.MULTILINE)
    if done.returncode != 0 or found is None:
        raise Wrong(f"{harness.name}: {done.stderr.strip()}")
    for what, times in (("a whole run", one / other), ("the computing alone", float(found[1]))):
        if times > MOST_TIMES:
            raise Wrong(f"{what} takes ours {times:.2f} times as long, and may take it {MOST_TIMES} times")
    return 2


def compare_lists(harness):
    """The lists that the library leaves beside those of the plain one, for other books."""
    rng, path, count = Random(0x526F7773), BUILT / "compared.book", 0
    books = [*small_books(), *random_books(rng), *(book for _, book in refused_books(rng))]
    for book in books:
        path.write_bytes(book)
        for run in ((0, HIGHEST + 2_000, 997), (rng.between(0, 99_000), HIGHEST, 331), (5, 5, 1)):
            done = subprocess.run([harness, *words_of(path, run), "1"], capture_output=True, text=True, check=False)
            if done.returncode != 0:
                raise Wrong(f"a book's lists, {run}: {done.stderr.strip()}")
            count += 1
    print(f"{count} calls of {len(books)} books: every answer and every place of the rows are the same")
    return count


def say_instructions(ours, plain):
    if shutil.which("valgrind") is None:
        print("the instructions were not counted: that needs valgrind")
        return
    counts = []
    for program in (ours, plain):
        words = ["valgrind", "--tool=callgrind", "--callgrind-out-file=/dev/null", program]
        words += words_of(BUILT / "largest.book", LARGE_RUN)
        said = subprocess.run(words, stdout=subprocess.DEVNULL, stderr=subprocess.PIPE, text=True, check=False).stderr
        found = re.search(r"Collected : (\d+)$", said, re.MULTILINE)
        if found is None:
            raise Wrong(f"valgrind does not count the instructions of {program.name}")
        counts.append(int(found[1]))
    print(f"instructions of one whole run: {counts[0]:,} and {counts[1]:,}, {counts[0] / counts[1]:.2f} times as many")


def main():
    answer_help(__doc__)
    BUILT.mkdir(parents=True, exist_ok=True)
    try:
        words = given()
        ours, archive = words.ours.resolve(), words.archive.resolve()
        library = archive.stem.removeprefix("lib")
        plain = compile_plain("portfolio.rs")
        harness = compile_plain("portfolio_times.rs", "-L", f"native={archive.parent}", "-l", f"static={library}")
        count = compare(ours, plain) + compare_words(ours, plain) + compare_lists(harness)
        count += compare_times(ours, plain, harness, words.rounds)
        say_instructions(ours, plain)
    except Wrong as wrong:
        sys.exit(f"compare_portfolio: {wrong}")
    say_passed(count)


if __name__ == "__main__":
    main()
