#!/usr/bin/env python3
"""Each example's text turns into its bytes and back, and its stored output is what the reference says of it: the report
of its job and, of the three gases, the table of its book at the rates of source 000's radon table. So does the second set of
coefficients, and its output is what the reference says of the workroom with the set's numbers in its book. Each entry of the
table from elsewhere is marked by the reference as the exact factor of its book has it.

Where the programs are built, they are run too: on each example by its name and from standard input, and on what they
cannot read.
"""
import itertools
import pathlib
import subprocess
import sys
import tempfile

HERE = pathlib.Path(__file__).resolve().parent
CRATES = HERE.parent / "crates"
BOOK = HERE.parent / "tools" / "book.py"
SOURCES = HERE.parent / "docs" / "src"
REFERENCE = SOURCES / "reference.py"
GASES = ("radon", "thoron", "actinon")
SET = HERE / "partner.txt"
FROM_ELSEWHERE = HERE / "a-1.table"

sys.path[:0] = [str(SOURCES), str(BOOK.parent)]
import reference
from stand_ins import HIGHEST, partner_answer, portfolio_lines
from tally import say_passed


def run(*words, given=None):
    return subprocess.run([sys.executable, *map(str, words)], input=given, capture_output=True, check=True).stdout


def encoded(text, *words):
    with tempfile.TemporaryDirectory() as folder:
        out = pathlib.Path(folder) / "job"
        run(BOOK, "encode", *words, text, out)
        return out.read_bytes()


def check(text):
    job = text.with_suffix(".job")
    assert encoded(text) == job.read_bytes(), text.name
    with tempfile.TemporaryDirectory() as folder:
        back = pathlib.Path(folder) / "back.txt"
        back.write_bytes(run(BOOK, "decode", job))
        assert encoded(back) == job.read_bytes(), text.name
    said = run(REFERENCE, given=job.read_bytes())
    assert said == text.with_suffix(".out").read_bytes(), text.name


def rates_of(table):
    """The first column of a table's text."""
    return [int(line.split()[0]) for line in table.splitlines()]


def check_table(text):
    """The stored book is the text's, and the stored table is the reference's, at the rates of the Po-218 column."""
    book, table = text.with_suffix(".book"), text.with_suffix(".table").read_text()
    assert encoded(text, "--book") == book.read_bytes() == text.with_suffix(".job").read_bytes()[48:], text.name
    column = (CRATES / "po218" / "stdout").read_text().split()[::2]
    rates = [reference.Fraction(rate) * 100 for rate in column]
    assert len(rates) == 74 and rates_of(table) == rates, text.name
    assert reference.table_call(rates_of(table), book.read_bytes(), len(table)) == table, text.name


def check_set():
    """The stored bytes are the text's, for both rooms with its chain, and the stored output is for the workroom."""
    second = SET.with_suffix(".set").read_bytes()
    for room in ("radon", "workroom"):
        assert encoded(HERE / f"{room}.txt", "--coefficients", SET) == second, room
    said = partner_answer(second, (HERE / "workroom.job").read_bytes())
    assert said == SET.with_suffix(".out").read_text() and "verdict below\n" in said
    assert "verdict above\n" in (HERE / "workroom.out").read_text()  # by its own


def agrees(entry, share):
    """Whether a share is within half a unit of an entry's last place."""
    return abs(reference.Fraction(entry) - share) <= reference.Fraction(10) ** (int(entry[6:]) - 3) / 2


def check_from_elsewhere():
    """Each of its entries is right or wrong as the exact factor of the book has it."""
    table, book = FROM_ELSEWHERE.read_bytes(), (HERE / "actinon.book").read_bytes()
    entries = [entry for line in table.decode().splitlines() for entry in line.split()[1:]]
    exact = [share for rate in rates_of(table) for share in reference.exact_factors(rate, reference.read_book(book))]
    words = [mark.word for mark in reference.marks_call(table, book)]
    assert words == ["right" if agrees(*pair) else "wrong" for pair in zip(entries, exact)] and rates_of(table) == [10, 18]
    assert reference.marks_answer(table, book) == "right 6\nclose 0\nwrong 6\nfirst 1 1\n"


def program(name):
    return CRATES / name / "out" / name


def output(name, *words, given=b""):
    """What a program writes on both outputs, and its status. It must not wait for an input that it has no use for."""
    done = subprocess.run([program(name), *map(str, words)], input=given, capture_output=True, timeout=60)
    return done.stdout, done.stderr.decode(), done.returncode


def newest(name):
    return f"is {program(name)} the newest? (`rt run` in crates/{name} builds it)"


def answered(text):
    """A refusal is an answer too."""
    return text if isinstance(text, bytes) else text.encode(), "", 0


def unanswered(line):
    return b"", line + "\n", 1


def check_unreadable(name, *more):
    """What every program says of a file that it cannot read."""
    none, long = HERE / "none", "a" * 5_000
    assert output(name, none, *more) == unanswered(f"{none}: No such file or directory (os error 2)")
    assert output(name, HERE, *more) == unanswered(f"{HERE}: Is a directory (os error 21)")
    assert output(name, long, *more) == unanswered(f"{long}: File name too long (os error 36)")


def check_help(name, usage, data):
    """`--help` alone prints the usage; with another word beside it, it is a file's name."""
    assert output(name, "--help") == answered(usage + "\n"), newest(name)
    assert output(name, data, "--help")[2] == 1


def check_text(name, *more):
    """A text in the place of bytes is refused as any bytes are, with a line that says what it is."""
    for text in sorted(HERE.glob("*.txt")):
        out, said, status = output(name, text, *more)
        assert out.startswith(b"refused ") and status == 0, (name, text)
        assert said == f"{name}: this is a text: `./jelmorand {name} FILE` reads texts\n", (name, text)


def check_jobs(name, said):
    """A program that takes a job: each example by its name and from standard input, an input that is too long, and what
    cannot be read."""
    for job in sorted(HERE.glob("*.job")):
        data = job.read_bytes()
        assert output(name, job) == answered(said(data)), (job.name, newest(name))
        assert output(name, given=data) == answered(said(data)), job.name
        long = data + bytes(5_000)
        assert output(name, given=long) == answered(said(long)), job.name
    check_unreadable(name)
    assert output(name, "one", "two") == unanswered(f"usage: {name} FILE, or {name} < FILE")
    assert output(name) == answered("refused 1\n")
    check_help(name, f"usage: {name} FILE, or {name} < FILE", HERE / "radon.job")
    check_text(name)


def check_screen():
    check_jobs("screen", reference.answer)


def check_fan():
    check_jobs("fan", reference.fan_answer)


def check_partner():
    """Each job with the example's set: by two files' names, and with the job from standard input. Then sets that are not in order,
    and what is no set or no job."""
    second = SET.with_suffix(".set")
    for job in sorted(HERE.glob("*.job")):
        for data in (job.read_bytes(), job.read_bytes() + bytes(5_000), job.read_bytes()[:-1]):
            assert output("partner", second, given=data) == answered(partner_answer(second.read_bytes(), data)), newest("partner")
        assert output("partner", second, job) == answered(partner_answer(second.read_bytes(), job.read_bytes())), job.name
    assert output("partner", second) == answered("refused 1\n")
    with tempfile.TemporaryDirectory() as folder:
        check_sets(second.read_bytes(), HERE / "workroom.job", pathlib.Path(folder) / "set")
    none, job = HERE / "none", HERE / "workroom.job"
    for words in ((none, job), (second, none), (HERE, job), (), (second, job, job)):
        out, said, status = output("partner", *words)
        assert (out, status) == (b"", 1) and said, words


def check_sets(good, job, path):
    """One byte either way, the limit and one more at both ends, the book's own numbers, zeros, and no byte."""
    most, over = (number.to_bytes(4, "little") for number in (reference.MOST, reference.MOST + 1))
    own = b"".join(job.read_bytes()[48 + 8 + 32 * i + 8 :][:20] for i in range(8))
    for data in (good[:-1], good + b"\0", good + bytes(5_000), good[:20], b"\0", most + good[4:], good[:-4] + most, over + good[4:],
                 good[:-4] + over, own, bytes(160)):
        path.write_bytes(data)
        assert output("partner", path, job) == answered(partner_answer(data, job.read_bytes())), (data, newest("partner"))
        assert output("partner", path, given=b"") == answered("refused 1\n")
    assert partner_answer(own, job.read_bytes())[6:] == job.with_suffix(".out").read_text() + reference.fan_answer(job.read_bytes())
    path.write_bytes(b"")
    out, said, status = output("partner", path, job)
    assert (out, status) == (b"", 1) and said


def tabled(*words):
    return output("table", *words)


def check_table_program():
    """The stored tables without rates, with all of them and with some; and rates and books that are refused."""
    for gas in GASES:
        book, table = HERE / f"{gas}.book", (HERE / f"{gas}.table").read_bytes()
        assert tabled(book) == tabled(book, *rates_of(table)) == answered(table), (gas, newest("table"))
        lines = table.splitlines(keepends=True)
        two = lines[rates_of(table).index(60)] + lines[rates_of(table).index(18)]
        assert tabled(book, "060", 18) == answered(two)
    radon = HERE / "radon.book"
    assert tabled(radon, *range(200))[0].count(b"\n") == 200
    for words in ([100_001], [18, 100_001], [2**32 + 18], [10**40], [*range(200), 100_001]):
        assert tabled(radon, *words) == answered("refused 3\n"), words
    assert tabled(radon, *range(201)) == tabled(radon, *range(1_000)) == answered("refused 20\n")
    assert tabled(radon, *range(1_001)) == unanswered("table: more than 1,000 rates")
    for word in ("0.18", "", "-1", "+1", "1e2", "18 ", "x"):
        said = f"table: {word}: a rate is whole hundredths per hour, so 18 for 0.18"
        assert tabled(radon, 18, word) == unanswered(said), word
    check_text("table", 18)
    check_help("table", "usage: table BOOKFILE [RATE ...]", radon)
    check_unreadable("table", 18)
    check_unreadable("table")
    assert tabled() == unanswered("usage: table BOOKFILE [RATE ...]")


def opened(*words):
    return output("opening", *words)


PERIODS = ([0, 1], [18, 1_440], [0, 480, 400, 60], [100_000, 7] * 32, [400, 0], [0, 1_441], [0, 1] * 33, [0, 5, 7],
           [0, 5, 100_001])
EVERY = (([0, 480], 60), ([400, 60], 15), ([18, 9], 1), ([18, 9], 9), ([18, 9], 4), ([100_000, 1_440], 300),
         ([0, 480, 400, 60], 60), ([0, 7, 400, 5, 18, 1, 0, 8], 5), ([0, 1, 18, 1], 2), ([0, 1, 18, 1], 1), ([18, 1] * 32, 31))


def check_opening():
    """Periods and lines every so often, of each gas; and what is refused, or is no list of periods."""
    for gas in GASES:
        path, data = HERE / f"{gas}.book", (HERE / f"{gas}.book").read_bytes()
        for numbers in PERIODS:
            said = reference.opening_lines(numbers, data)
            assert opened(path, *numbers) == answered(said), (gas, numbers, newest("opening"))
        book = reference.read_book(data)
        for periods, every in EVERY:
            said = reference.opening_every(periods, every, book)
            assert said and opened(path, *periods, "every", every) == answered(said), (gas, periods, every)
    check_opening_refusals(HERE / "radon.book")
    check_unreadable("opening", 0, 5)


def check_opening_refusals(radon):
    assert opened(radon, 100_001, 5, "every", 1) == answered("refused 3\n")
    for words in ((0, 1_441, "every", 1), (0, 2**32 + 1), [1] * 1_000, (18,), (0, 5, 18), (18, "every", 1), ("every", 1)):
        assert opened(radon, *words) == answered("refused 22\n"), words
    assert opened(radon, *[1] * 1_001) == unanswered("opening: more than 1,000 numbers")
    assert opened(radon, 0, 5, "every", 0) == unanswered("opening: every 0: N is 1 or more")
    for periods, every in (((18, 60), 61), ((0, 480, 400, 60), 541), ((18, 60), 10**40)):
        shown, minutes = min(every, 2**32 - 1), sum(periods[1::2])
        said = f"opening: every {shown}: the periods have {minutes} minutes, so there is no such line"
        assert opened(radon, *periods, "every", every) == unanswered(said)
    assert opened(radon, 0, 5, "every", "x") == unanswered("opening: x: N is whole minutes, 1 or more")
    said = "opening: 0.18: a rate is whole hundredths per hour, so 18 for 0.18, and minutes are whole"
    assert opened(radon, "0.18", 5) == unanswered(said)
    usage = "usage: opening BOOKFILE RATE MINUTES [RATE MINUTES ...] [every N]"
    for words in ((), (radon,), (radon, 0, 5, "every"), (radon, 0, 5, "every", 1, 1), (radon, "every", "every", 1)):
        assert opened(*words) == unanswered(usage), words
    check_help("opening", usage, radon)
    check_text("opening", 0, 5)


def run_over(*words):
    return output("portfolio", *words)


RUNS = ((0, 99_990, 10), (0, 36, 18), (0, 35, 18), (18, 18, 1), (99_990, 100_020, 10), (100_000, 100_001, 1), (7, 100, HIGHEST),
        (0, HIGHEST, HIGHEST), (HIGHEST - 5, HIGHEST, 2), (HIGHEST, HIGHEST, 1))


def check_portfolio():
    """Runs of each gas, and at both ends of the numbers, and the whole of one; books that are refused, and what is no run."""
    for gas in GASES:
        path, data = HERE / f"{gas}.book", (HERE / f"{gas}.book").read_bytes()
        for first, last, step in RUNS:
            said = "".join(portfolio_lines(range(first, last + 1, step), data))
            assert run_over(path, first, last, step) == answered(said), (gas, first, last, step, newest("portfolio"))
    radon = HERE / "radon.book"
    said = answered("".join(portfolio_lines(range(0, 37, 18), radon.read_bytes())))
    assert run_over(radon, "000", "0036", "018") == output("portfolio", "/dev/stdin", 0, 36, 18, given=radon.read_bytes()) == said
    assert run_over(radon, 0, 10**40, 2**32 + 18) == run_over(radon, 0, HIGHEST, HIGHEST)
    assert run_over(radon, 0, 100_000, 1)[0].count(b"\n") == 100_001
    with tempfile.TemporaryDirectory() as folder:
        check_run_refusals(radon.read_bytes(), pathlib.Path(folder) / "book")
    check_no_run(radon)
    check_unreadable("portfolio", 0, 36, 18)


def check_run_refusals(good, path):
    """The ground stands in the line of each rate; 3 comes before those of the book."""
    for data in (good[:-1], good[:8], good[:7], b"", good + b"\0", good + bytes(5_000), bytes(8), good[:4] + b"\1" + good[5:],
                 good[:8] + bytes(8) + good[16:]):
        path.write_bytes(data)
        said = "".join(portfolio_lines(range(99_999, 100_002), data))
        assert said.endswith("100001 refused 3\n") and said.count("refused") == 3
        assert run_over(path, 99_999, 100_001, 1) == answered(said), (data[:16], newest("portfolio"))


def check_no_run(radon):
    """One line and no more."""
    wrong = [[0, 18, 0], [19, 18, 1], [HIGHEST, 0, 1], [0], [0, 1], [0, 1, 1, 1], []]
    for word in ("0.18", "", "-1", "+1", "1e2", "18 ", "x", "1_0", "--help"):
        wrong += [[word, 36, 18], [0, word, 18], [0, 36, word]]
    for words in wrong:
        out, said, status = run_over(radon, *words)
        assert (out, status) == (b"", 1) and said.count("\n") == 1 and said.endswith("\n"), (words, out[:100], said)
    for text in sorted(HERE.glob("*.txt")):
        out, said, status = run_over(text, 0, 36, 18)
        assert status == 0 and out == "".join(portfolio_lines((0, 18, 36), text.read_bytes())).encode() and b"0 refused " in out, text
    check_help("portfolio", "usage: portfolio BOOKFILE FROM TO STEP", radon)


def marked(book, table):
    """What `marks` is to say of a table by a book."""
    return answered(reference.marks_answer(table, book.read_bytes()))


def check_marks():
    """Each table with each chain's book, texts at the edge of the form, and what cannot be read."""
    books = [HERE / f"{gas}.book" for gas in GASES]
    for book, table in itertools.product(books, sorted(HERE.glob("*.table"))):
        assert output("marks", book, table) == marked(book, table.read_bytes()), (book, table, newest("marks"))
    with tempfile.TemporaryDirectory() as folder:
        check_marked_texts(HERE / "actinon.book", pathlib.Path(folder))
    check_marks_unread()


def check_marks_unread():
    book, table, usage = HERE / "actinon.book", FROM_ELSEWHERE, "usage: marks BOOKFILE TABLEFILE"
    check_unreadable("marks", table)
    assert output("marks", book, HERE / "none") == unanswered(f"{HERE / 'none'}: No such file or directory (os error 2)")
    assert output("marks", book, HERE) == unanswered(f"{HERE}: Is a directory (os error 21)")
    for words in ((), (book,), (book, table, table)):
        assert output("marks", *words) == unanswered(usage), words
    check_help("marks", usage, book)


def check_marked_texts(book, folder):
    """The grounds of the book come first, whatever the text is."""
    table, path, cut = FROM_ELSEWHERE.read_bytes(), folder / "table", folder / "book"
    cut.write_bytes(book.read_bytes()[:-1])
    rates = [table.replace(b"10 ", rate) for rate in (b"0 ", b"010 ", b"100000 ", b"100001 ", b"4294967306 ", b"10  ")]
    entries = [table.replace(b"9.968E-01", entry) for entry in (b"9.999E+00", b"9.968E-00", b"9.968e-01", b"0.000E+00", b"0.000E-01")]
    ends = [b"", b"\n", table[:-1], table + b"\n", table.replace(b"\n", b"\r\n"), table + bytes(100)]
    for text in rates + entries + ends + [table * 100, table * 101, table * 3_000]:
        path.write_bytes(text)
        assert output("marks", book, path) == marked(book, text), (text[:200], newest("marks"))
        assert output("marks", cut, path) == answered("refused 11\n")


CHECKS = {"opening": check_opening, "table": check_table_program, "fan": check_fan, "screen": check_screen, "partner": check_partner,
          "marks": check_marks, "portfolio": check_portfolio}


def check_programs():
    """How many programs were there to be run."""
    built = [name for name in CHECKS if program(name).exists()]
    for name, check_program in CHECKS.items():
        if name in built:
            check_program()
            print(f"{name} agrees")
        else:
            print(f"{name} is not built here, so it was not run (`rt run` in crates/{name} builds it)")
    return len(built)


def main():
    texts = sorted(text for text in HERE.glob("*.txt") if text != SET)
    assert len(texts) == 6
    for text in texts:
        check(text)
    for gas in GASES:
        check_table(HERE / f"{gas}.txt")
    check_set()
    check_from_elsewhere()
    print(f"{len(texts)} examples agree, {len(GASES)} tables, a set and a table from elsewhere")
    say_passed(len(texts) + len(GASES) + 2 + check_programs())


if __name__ == "__main__":
    main()
