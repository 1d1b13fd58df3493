"""`./jelmorand check TABLE BOOK`: every wrong entry beside the book's own, the counts, the exit status, and what it says of a
table that has not the form."""

import random
import sys

import reference
from command.printed import reasons
from house import EXAMPLES, example, house_test
from test_screening import NO_ANSWERS
from textform.grounds import GROUNDS
from textform.words import placed

TABLE, ROOM = "a-1.table", "examples/actinon.txt"
A_1 = (EXAMPLES / TABLE).read_text(encoding="ascii")
NAMES = ("Rn-219", "Po-215", "Pb-211", "Bi-211", "Tl-207", "Po-211")
GROUND = f"ground 24: {GROUNDS[24][0]}"
ALONE = """\
divisor 1_000
member Gas half-life 3.8235d inhalation-risk 0 submersion-risk 0 inhalation-dose 0 submersion-dose 0 weight 0
ends 100_000 from Gas
"""
LOGGED = f"""#!{sys.executable}
import subprocess, sys
table = sys.stdin.buffer.read()
with open("asked", "ab") as file:
    file.write(table + b"--\\n")
done = subprocess.run(["./kept", sys.argv[1], "/dev/stdin"], input=table, stdout=subprocess.PIPE, check=True, close_fds=False)
sys.stdout.buffer.write(done.stdout)
"""


def gas_book(gas):
    return (EXAMPLES / f"{gas}.book").read_bytes()


def own_line(rate, book):
    """The words of the book's own line."""
    return reference.table_line(rate, reference.read_book(book)).split()


def expected(text, book, names):
    """What is to be shown of the wrong entries, and the counts with the status."""
    found = reference.marks_call(text.encode(), book)
    lines = [line.split() for line in text.splitlines()]
    for mark in found:
        if mark.word == "wrong":
            line, i = lines[mark.line - 1], mark.member
            own = own_line(int(line[0]), book)[1 + i]
            yield f"line {mark.line}, rate {line[0]}, {names[i]}: {line[1 + i]} is wrong, and by the book it is {own}"
    right, close, wrong = (sum(mark.word == word for mark in found) for word in ("right", "close", "wrong"))
    yield f"{len(found):,} {'entries' if len(found) > 1 else 'entry'}: {right:,} right, {close:,} close, {wrong:,} wrong"


def altered(rates, book, chance):
    """A table of the book's own entries, of which about half have another last digit or another power of ten."""
    text = ""
    for rate in rates:
        words = own_line(rate, book)
        for i in range(1, len(words)):
            if chance.random() < 0.3:
                words[i] = f"{words[i][:4]}{chance.choice('0123456789')}{words[i][5:]}" if words[i][0] != "0" else "1.000E-13"
            elif chance.random() < 0.2:
                words[i] = chance.choice(("1.000E+00", "0.000E+00", "9.999E+00", "5.000E-05"))
        text += f"{' '.join(words)}\n"
    return text


@house_test
def test_source_000(home):
    """The first lines of 000's table: what it has of Po-215 at 0.1 per hour is wrong, at 0.18 it is right."""
    status, out, said = home.run("check", f"examples/{TABLE}", ROOM)
    head, *wrong, counts = out.splitlines()
    assert (status, said, counts) == (1, "", "12 entries: 6 right, 0 close, 6 wrong")
    assert head == (f"examples/{TABLE}: 2 lines, 0.10 to 0.18 air changes per hour, compared with {ROOM}: "
                    "Rn-219, Po-215, Pb-211, Bi-211, Tl-207 and Po-211")
    assert wrong[0] == "line 1, rate 10, Po-215: 9.968E-01 is wrong, and by the book it is 1.000E+00"
    assert not any(line.startswith("line 2, rate 18, Po-215:") for line in wrong)
    assert [*wrong, counts] == list(expected(A_1, gas_book("actinon"), NAMES))


@house_test
def test_every_wrong_entry(home):
    """In reading order, each with the book's own beside it, whatever is wrong: of texts, jobs and books, in any order of rates."""
    chance = random.Random(8)
    for gas, form, rates in (("actinon", "txt", (60, 18)), ("thoron", "job", (0, 100_000)), ("radon", "book", (18, 18, 400))):
        book = gas_book(gas)
        text = altered(rates, book, chance)
        names = NAMES if form == "txt" else [f"member {i}" for i in range(book[0])]
        status, out, said = home.run("check", home.write("their.table", text), f"examples/{gas}.{form}")
        shown = list(expected(text, book, names))
        assert len(shown) > 2 and (status, out.splitlines()[1 : 1 + len(shown)], said) == (1, shown, ""), (gas, out)


@house_test
def test_all_wrong(home):
    """Also the gas's own entry, and whole lines; and a table of one entry."""
    text = f"18{' 2.000E-20' * 6}\n0{' 9.999E+00' * 6}\n"
    status, out, _ = home.run("check", home.write(TABLE, text), ROOM)
    assert status == 1 and out.splitlines()[1:] == list(expected(text, gas_book("actinon"), NAMES)) and out.count("is wrong") == 12
    home.write("alone.txt", ALONE)
    home.write(TABLE, "100000 9.999E-01\n")
    assert home.run("check", TABLE, "alone.txt")[:2] == (
        1, f"{TABLE}: 1 line, 1,000.00 air changes per hour, compared with alone.txt: Gas\n"
        "line 1, rate 100000, Gas: 9.999E-01 is wrong, and by the book it is 1.000E+00\n1 entry: 0 right, 0 close, 1 wrong\n")


@house_test
def test_its_own_table(home):
    """Nothing that `table` writes is wrong; where some entries are close, that is said, and what it means."""
    agree = "all agree with the book: every entry is proved to be within half a unit, in its last place, of the exact factor\n"
    none = "none is wrong; {} close: neither right nor wrong is proved, since the rounding of the factors leaves both open\n"
    home.write(TABLE, "".join(" ".join(own_line(rate, gas_book("actinon"))) + "\n" for rate in (18, 60)))
    status, out, said = home.run("check", TABLE, ROOM)
    assert (status, said) == (0, "") and out.endswith(f"\n12 entries: 12 right, 0 close, 0 wrong\n{agree}")
    for gas in ("actinon", "radon"):
        book = gas_book(gas)
        text = (EXAMPLES / f"{gas}.table").read_text()
        close = sum(mark.word == "close" for mark in reference.marks_call(text.encode(), book))
        status, out, said = home.run("check", f"examples/{gas}.table", f"examples/{gas}.txt")
        assert (status, said) == (0, "") and close > 0 and out.endswith(f" 0 wrong\n{none.format(close)}"), out
        assert out.startswith(f"examples/{gas}.table: 74 lines, 0.00 to 900.00 air changes per hour, compared with ")


@house_test
def test_close_beside_wrong(home):
    text = (EXAMPLES / "actinon.table").read_text()
    marked = {line: reference.marks_answer(line.encode(), gas_book("actinon")) for line in text.splitlines(True)}
    home.write(TABLE, next(line for line in marked if "\nclose 1\n" in marked[line]) + A_1.splitlines(True)[0])
    status, out, _ = home.run("check", TABLE, ROOM)
    close = "1 close: neither right nor wrong is proved, since the rounding of the factors leaves both open\n"
    assert status == 1 and out.endswith(f"8 right, 1 close, 3 wrong\n{close}"), out


@house_test
def test_line_by_line(home):
    """After the whole text each line alone, with the book's own entry in place of each that was wrong; `table` is asked once."""
    source = home.program("marks").read_bytes()
    home.write("kept", source)
    (home.folder / "kept").chmod(0o755)
    home.put_program("marks", LOGGED)
    assert home.run("check", f"examples/{TABLE}", ROOM)[0] == 1
    first, *asked, last = (home.folder / "asked").read_text().split("--\n")
    assert first == A_1 and last == "" and all(text.count("\n") == 1 for text in asked) and len(asked) == 2 + 6
    book = gas_book("actinon")
    for line in A_1.splitlines():
        mine = [text.split() for text in asked if text.split()[0] == line.split()[0]]
        mine.sort(key=lambda words: sum(word != own for word, own in zip(words, line.split())))
        assert mine[0] == line.split() and reference.marks_answer(f"{' '.join(mine[-1])}\n".encode(), book).endswith("none\n")
        for before, after in zip(mine, mine[1:]):
            (at,) = [i for i, (word, other) in enumerate(zip(before, after)) if word != other]
            assert after[at] == own_line(int(line.split()[0]), book)[at]
    (home.folder / "asked").unlink()
    home.write(TABLE, "".join((EXAMPLES / "actinon.table").read_text().splitlines(True)[:3]))
    assert home.run("check", TABLE, ROOM)[0] == 0 and (home.folder / "asked").read_text().count("--\n") == 1


@house_test
def test_report(home):
    """The lines of `marks` as it writes them; a refusal's words stand beside them."""
    said = reference.marks_answer(A_1.encode(), gas_book("actinon"))
    assert said.endswith("wrong 6\nfirst 1 1\n")
    for words in (("--report", f"examples/{TABLE}", ROOM), (f"examples/{TABLE}", "--report", "examples/actinon.job")):
        assert home.run("check", *words) == (1, said, "")
    home.program("table").unlink()  # which is not asked
    table, book = "examples/actinon.table", gas_book("actinon")
    said = reference.marks_answer((EXAMPLES / "actinon.table").read_bytes(), book)
    assert home.run("check", "--report", table, ROOM) == (0, said, "")
    status, out, said = home.run("check", "--report", home.write(TABLE, A_1[:-1]), ROOM)
    assert (status, out) == (2, "refused 24\n") and said.startswith(f"{TABLE}, line 2: no line feed ends it")


@house_test
def test_refused_book(home):
    """The book's own grounds come first and are said of the book, with the table looked at or not."""
    home.write("slow.txt", example("actinon", ("Pb-211 half-life 36.1m", "Pb-211 half-life 36.1h")))
    status, out, said = home.run("check", f"examples/{TABLE}", "slow.txt")
    assert (status, out) == (2, "") and "\nslow.txt: ground 13: A half-life is 0 or too long" in said
    book = gas_book("actinon")
    for other, ground in ((book[:-1], 11), (b"\0" + book[1:], 10), (book[:2] + b"\0\0" + book[4:], 12)):
        home.write("their.book", other)
        for table in (A_1, A_1[:-1], ""):
            status, out, said = home.run("check", home.write(TABLE, table), "their.book")
            assert (status, out) == (2, "") and said.startswith(f"their.book: ground {ground}: ") and said.count("\n") == 1, said
    assert home.run("check", "--report", TABLE, "their.book")[1] == "refused 12\n"


def line(number, said, more=0):
    return f"{TABLE}, line {number}: {said}{f' (and {more} more line)' if more == 1 else ''}"


BETWEEN = "a single space stands between two numbers, and none before or after"
FORM = "an entry is written d.dddE-dd or d.dddE+00, with a first digit of 1 to 9"
LIKE = "; 0.9968 is 9.968E-01, and zero 0.000E+00"
HEADING = "a line starts with its rate in digits, so leave a heading out"
COMMA = "a decimal has a point and no comma"
CARRIAGE = line(1, "ends in a carriage return: save the file with line feeds alone ('Unix line ends')")
MOST = "at most 100,000 hundredths per hour, which is 1,000 air changes"
NO_TABLE = "is no table: it has a zero byte, as every job and every book has; the table stands first, as text"
OF_ALL = "Rn-219, Po-215, Pb-211, Bi-211, Tl-207 and Po-211"


def with_entry(word):
    return A_1.replace("9.968E-01", word)


def with_rate(word):
    return word + A_1[2:]


NOT_OF_FORM = (  # a table, and all that is said of it before the ground
    (A_1.replace("\n", "\r\n"), [CARRIAGE]),
    (A_1.replace("\n", "\r"), [CARRIAGE]),
    (A_1.replace(" ", ";"), [line(1, f"parted by semicolons: {BETWEEN}", 1)]),
    (A_1.replace(" ", "\t"), [line(1, f"parted by tabs: {BETWEEN}", 1)]),
    (A_1.replace(" ", "\u00a0"), [line(1, f"parted by non-breaking spaces: {BETWEEN}", 1)]),
    (A_1.replace(" ", ","), [line(1, f"parted by commas: {BETWEEN}", 1)]),
    (A_1.replace(" ", ", "), [line(1, f"parted by commas: {BETWEEN}", 1)]),
    (A_1.replace(" ", "  ", 1), [line(1, f"a space too many: {BETWEEN}")]),
    (A_1.replace("\n18 ", " \n 18 "), [line(1, f"a space too many: {BETWEEN}", 1)]),
    (A_1.replace(".", ","), [line(1, f"Rn-219, 1,000E+00: {COMMA}, so 1.000E+00", 1)]),
    (with_entry("0,9968"), [line(1, f"Po-215, 0,9968: {COMMA}, so 9.968E-01")]),
    (with_entry("0,997"), [line(1, f"Po-215, 0,997: {COMMA}{LIKE}")]),
    (with_entry("0.9968"), [line(1, f"Po-215, 0.9968: {FORM}, so 9.968E-01")]),
    (with_entry(".09968"), [line(1, f"Po-215, .09968: {FORM}, so 9.968E-02")]),
    (with_entry("1.000"), [line(1, f"Po-215, 1.000: {FORM}, so 1.000E+00")]),
    (with_entry("9.968e-01"), [line(1, f"Po-215, 9.968e-01: {FORM}, so 9.968E-01")]),
    (with_entry("9.968E-1"), [line(1, f"Po-215, 9.968E-1: {FORM}, so 9.968E-01")]),
    (with_entry("9.968E-001"), [line(1, f"Po-215, 9.968E-001: {FORM}, so 9.968E-01")]),
    (with_entry("9.968E-00"), [line(1, f"Po-215, 9.968E-00: {FORM}, so 9.968E+00")]),
    (with_entry("99.68E-02"), [line(1, f"Po-215, 99.68E-02: {FORM}, so 9.968E-01")]),
    *((with_entry(word), [line(1, f"Po-215, {word}: {FORM}{LIKE}")]) for word in (
        "1", "0", "0.997", "0.99680", "9.9680E-01", "0.500E+00", "0.000E-05", "9.968E+01", "9.968E-100", "-9.968E-01", "+9.968E-01",
        "nd", "*")),
    ("ACH Rn-219 Po-215\n" + A_1, [line(1, f"ACH: {HEADING}")]),
    ("# A-1\n" + A_1 + "# end\n", [line(1, f"#: {HEADING}", 1)]),
    ("\n" + A_1, [line(1, "is empty: leave it out")]),
    (A_1 + "\n", [line(3, "is empty: leave it out")]),
    (A_1 + " ; \n", [line(3, "is empty: leave it out")]),
    (A_1[:-1], [line(2, "no line feed ends it: the last line ends as the others do")]),
    ("", [f"{TABLE}: is empty: a table has 1 to 200 lines"]),
    (A_1.replace(" 2.400E-03", ""), [line(2, f"5 entries, and the chain has 6 members: {OF_ALL}")]),
    (A_1.replace("\n", " 1.000E+00\n"), [line(1, f"7 entries, and the chain has 6 members: {OF_ALL}", 1)]),
    (A_1.replace(" 9.968E-01", "9.968E-01"), [line(1, f"5 entries, and the chain has 6 members: {OF_ALL}"),
                                              line(1, f"entry 1, 1.000E+009.968E-01: {FORM}{LIKE}")]),
    ("18\n" + A_1, [line(1, f"0 entries, and the chain has 6 members: {OF_ALL}")]),
    (with_rate("010"), [line(1, "rate 010: no zeros stand before it, so 10")]),
    (with_rate("00"), [line(1, "rate 00: no zeros stand before it, so 0")]),
    *((with_rate(word), [line(1, f"rate {word}: {MOST}")]) for word in ("100001", "1000000", "4294967306")),
    (with_rate("9" * 5_000), [line(1, f"rate {'9' * 20}... (5,000 characters): {MOST}")]),
    (with_rate("0.18"), [line(1, "rate 0.18: whole hundredths per hour, so 18 for 0.18")]),
    (with_rate("0,18"), [line(1, "rate 0,18: whole hundredths per hour, so 18 for 0,18")]),
    (with_rate("1.1"), [line(1, "rate 1.1: whole hundredths per hour, so 110 for 1.1")]),
    (with_rate("999.95"), [line(1, "rate 999.95: whole hundredths per hour, so 99995 for 999.95")]),
    *((with_rate(word), [line(1, f"rate {word}: whole hundredths per hour, so 18 for 0.18")]) for word in (
        "18.0", "1.00", "1,000", "0.185", "1000.01", ".18", "+18", "-18", "1_8", "18h", "1e1")),
    (A_1 * 101, [f"{TABLE}: has 202 lines, and a table at most 200: split it"]),
    ("\ufeff" + A_1, [f"{TABLE}: starts with a byte order mark: save it without one, as 'UTF-8' and not as 'UTF-8 with BOM'"]),
    (A_1.encode("utf-16"), [f"{TABLE}: is text in UTF-16; save the file as UTF-8"]),
    (A_1.replace(" ", "\0"), [f"{TABLE}: {NO_TABLE}"]),
    (A_1.encode() + b"\xff\n", [line(3, "the byte 0xff is not text in UTF-8; save the file as UTF-8")]),
    (example("actinon"), [line(3, "this looks like a room's text, and not like a table")]),
)


def test_what_is_told():
    """All that keeps a table from the form is told at once, each kind of fault with its first line; and all of these are refused."""
    for table, told in NOT_OF_FORM:
        data = table.encode() if isinstance(table, str) else table
        assert reference.marks_answer(data, gas_book("actinon")) == "refused 24\n", table
        assert [placed(TABLE, reason) for reason in reasons(data, NAMES)] == told, table
    assert reasons(A_1.encode(), NAMES) == []


def test_any_table():
    """Whatever the bytes: where `marks` refuses them for their form something is told, and else nothing."""
    chance = random.Random(24)
    parts = [*A_1.split(), " ", " ", " ", "\n", "\n", *"\r\t;,.E+-09\0\v\ufeff\u0661\u2028"]
    for _ in range(3_000):
        text = A_1
        for _ in range(chance.randrange(1, 3)):
            at = chance.randrange(len(text) + 1)
            text = text[:at] + chance.choice(parts) + text[at + chance.randrange(3) :]
        is_refused = reference.marks_answer(text.encode(), gas_book("actinon")) == "refused 24\n"
        assert is_refused == bool(reasons(text.encode(), NAMES)), text


@house_test
def test_not_of_the_form(home):
    """The reasons, and then the ground; nothing is shown of an answer."""
    for table, told in NOT_OF_FORM[::9]:
        status, out, said = home.run("check", home.write(TABLE, table), ROOM)
        *shown, ground = said.splitlines()
        assert (status, out, shown) == (2, "", told) and ground.startswith(f"{TABLE}: {GROUND}"), (table, said)


@house_test
def test_spreadsheet(home):
    """What a spreadsheet saves: each of its faults is told in one go."""
    rows = "ACH;Rn-219;Po-215;Pb-211;Bi-211;Tl-207;Po-211", "0;1;0,9972;1;1;0,9970;0,0028", "0,1;1;0,9968;0,9201;0,9154;0,9023;0,0025"
    text = "\ufeff" + "".join(f"{row}\r\n" for row in rows)
    status, out, said = home.run("check", home.write(TABLE, text), ROOM)
    assert (status, out) == (2, "") and said.splitlines()[:-1] == [
        f"{TABLE}: starts with a byte order mark: save it without one, as 'UTF-8' and not as 'UTF-8 with BOM'",
        CARRIAGE,
        line(1, f"ACH: {HEADING}"),
        line(2, f"parted by semicolons: {BETWEEN}", 1),
        line(2, f"Rn-219, 1: {FORM}{LIKE}", 1),
        line(2, f"Po-215, 0,9972: {COMMA}, so 9.972E-01", 1),
        line(3, "rate 0,1: whole hundredths per hour, so 10 for 0,1"),
    ], said


@house_test
def test_the_program_decides(home):
    """A table that `marks` refuses is refused, though nothing is found in it, and one that it takes is not."""
    home.put_program("marks", "#!/bin/sh\necho refused 24\n")
    status, out, said = home.run("check", f"examples/{TABLE}", ROOM)
    assert (status, out) == (2, "") and said.startswith(f"examples/{TABLE}: {GROUND}") and said.count("\n") == 1
    home.put_program("marks", "#!/bin/sh\nprintf 'right 12\\nclose 0\\nwrong 0\\nfirst none\\n'\n")
    status, out, said = home.run("check", home.write(TABLE, with_entry("9.968E-00")), ROOM)
    assert (status, said) == (0, "") and "all agree" in out


@house_test
def test_no_answer_is_taken_for_one(home):
    """Whatever is wrong with `marks` or `table`, nothing is shown."""
    good = "right 6\\nclose 0\\nwrong 6\\nfirst 1 1\\n"
    scripts = {why: script for why, script in NO_ANSWERS.items() if why != "answers twice"}
    for text in (good[:-2], good + good, good.replace("1 1", "1"), "right 12\\n", good.replace("6", "-6"), "refused\\n"):
        scripts[text] = f"print('{text}', end='')"
    for why, script in scripts.items():
        home.put_program("marks", f"#!{sys.executable}\n{script}\n")
        for words in ((), ("--report",)):
            status, out, said = home.run("check", *words, f"examples/{TABLE}", ROOM)
            assert (status, out) == (2, "") and said.startswith("marks: no answer"), (why, out, said)
    home.put_program("marks")
    first_line = A_1.splitlines(True)[0]
    for text in ("18 1.000E+00 9.9\n", "refused 3\n", first_line, A_1.replace("10 ", "11 "), A_1.replace(" 2.400E-03", "")):
        home.put_program("table", f"#!{sys.executable}\nprint({text!r}, end='')\n")
        status, out, said = home.run("check", f"examples/{TABLE}", ROOM)
        assert (status, out, said.count("\n")) == (2, "", 1) and ("table: " in said or "refused (3)" in said), (text, said)


AMISS = "marks does not agree with itself, so nothing is shown\n"
NOT_ITS = "marks: its answer is not one to this table, so nothing is shown\n"
LYING = f"""#!{sys.executable}
import sys
table = sys.stdin.read()
whole = table.count("\\n") > 1
print({{}}, end="")
"""


@house_test
def test_what_does_not_add_up(home):
    """The runs on the lines must come to what the run on the whole text says, and go on from one entry to the next."""
    whole = "right 10\\nclose 0\\nwrong 2\\nfirst 1 1\\n"
    for lines in ("right 6\\nclose 0\\nwrong 0\\nfirst none\\n",  # nothing found
                  "right 5\\nclose 0\\nwrong 1\\nfirst 1 1\\n",  # the same one for ever
                  "right 5\\nclose 0\\nwrong 1\\nfirst 1 6\\n",  # no such member
                  "right 5\\nclose 0\\nwrong 1\\nfirst 2 1\\n"):  # no such line
        home.put_program("marks", LYING.format(f"'{whole}' if whole else '{lines}'"))
        assert home.run("check", f"examples/{TABLE}", ROOM) == (2, "", AMISS), lines
    once = "'right 5\\nclose 0\\nwrong 1\\nfirst 1 1\\n' if '9.968' in table else 'right 6\\nclose 0\\nwrong 0\\nfirst none\\n'"
    for said in (whole, "right 11\\nclose 0\\nwrong 1\\nfirst 2 1\\n", "right 10\\nclose 1\\nwrong 1\\nfirst 1 1\\n"):
        home.put_program("marks", LYING.format(f"'{said}' if whole else ({once})"))
        assert home.run("check", f"examples/{TABLE}", ROOM) == (2, "", AMISS), said
    for said, why in (("right 12\\nclose 0\\nwrong 0\\nfirst 1 1\\n", AMISS),
                      ("right 11\\nclose 0\\nwrong 1\\nfirst none\\n", AMISS),
                      ("right 6\\nclose 0\\nwrong 0\\nfirst none\\n", NOT_ITS)):
        home.put_program("marks", LYING.format(f"'{said}'"))
        assert home.run("check", f"examples/{TABLE}", ROOM) == (2, "", why), said


@house_test
def test_exchanged(home):
    """A table in the place of the book is told, and a text or bytes in the place of the table."""
    table = f"examples/{TABLE}"
    said = f"{table}, line 1: this looks like a table, and not like a room's text: the table stands first\n"
    assert home.run("check", ROOM, table) == home.run("check", table, table) == (2, "", said)
    assert home.run("check", "examples/actinon.job", ROOM)[2].startswith(f"examples/actinon.job: {NO_TABLE}\n")
    said = home.run("check", f"examples/{TABLE}", "examples/partner.txt")[2]
    assert said.startswith("examples/partner.txt, line 3: this looks like a set of coefficients")


@house_test
def test_unreadable(home):
    """One line with the file's name, before anything is built."""
    home.program("marks").unlink()
    home.write("wrong.txt", example("actinon", ("rate 0.6 per hour", "rate 0.6         ")))
    home.write("long.table", "1" * 1_000_001)
    for words, said in (((f"examples/{TABLE}", "none.txt"), "none.txt: No such file or directory\n"),
                        (("none.table", ROOM), "none.table: No such file or directory\n"),
                        (("examples", ROOM), "examples: Is a directory\n"),
                        (("long.table", ROOM), "long.table: longer than 1,000,000 bytes, and no table is\n"),
                        ((f"examples/{TABLE}", "wrong.txt"), "wrong.txt, line 3: rate 0.6: whole hundredths per hour, so 60\n")):
        assert home.run("check", *words) == (2, "", said), said


@house_test
def test_warnings(home):
    """What looks wrong in the book is told beside the answer."""
    home.write("slow.txt", example("actinon", ("Pb-211 half-life 36.1m", "Pb-211 half-life 36.1s")))
    status, out, said = home.run("check", f"examples/{TABLE}", "slow.txt")
    assert status == 1 and "Pb-211: 9.201E-01 is wrong" in out
    assert said.startswith("slow.txt, line ") and "warning: Pb-211: half-life 36.1s, where source 000 prints 36.1m\n" in said


@house_test
def test_usage(home):
    for words, why in (((), ""), ((ROOM,), ""), (("--report", ROOM), ""),
                       (("--report", TABLE, ROOM, "--report"), "--report is given twice"),
                       ((TABLE, ROOM, ROOM), "one table and one book"), (("--both", TABLE, ROOM), ""), ((TABLE, "-x"), "")):
        usage = "usage: ./jelmorand check [--report] TABLE BOOK"
        assert home.run("check", *words) == (2, "", f"{usage} ({why})\n" if why else f"{usage}\n"), words


@house_test
def test_no_file_is_left(home):
    before = home.files()
    assert home.run("check", f"examples/{TABLE}", ROOM)[0] == 1 and home.files() == before
