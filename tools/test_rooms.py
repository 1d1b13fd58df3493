"""`./jelmorand rooms`: every room as `screen` and `fan` answer it, every mistake in the words that a text gets."""

import csv
import os
import pty
import re
import signal
import subprocess
import sys
import time

import reference
from command import building
from command.columns import NAME
from command.layout import WIDTH
from command.results import ANSWERS
from house import EXAMPLES, ROOT, example, house_test
from textform.encode import encode
from textform.text import JOB_WORDS, ROOM_WORDS
from textform.words import Mistake

BOOK = "examples/workroom.txt"
ROOM = {  # every line of a job
    "rate": "0.18 per hour", "kind": "risk", "medium": "indoor-air", "unit": "pCi/L", "target": "4_000_000",
    "attenuation": "1_000_000", "value": "4.0", "uncertainty": "0.4", "exposure": "worker", "child": "", "adult": "",
}
MANUAL_ORDER = list(ROOM)  # in which the manual has the columns
ROOMS = (  # what differs, in each of a table's columns at least once
    {}, {"rate": "90"}, {"kind": "dose", "target": "100"}, {"medium": "soil-gas", "attenuation": "30000"},
    {"unit": "Bq/m3", "value": "120"}, {"medium": "groundwater", "attenuation": "1_000", "value": "100"},
    {"exposure": "residential", "target": "100_000"}, {"exposure": "", "child": "0 0 0 0", "adult": "250 25 7:45 60"},
    {"uncertainty": "0", "target": "0"}, {"target": "1000000000"},
)
MISTAKES = (  # each refused in the words of a text
    {"rate": "0.18"}, {"rate": "18 per minute"}, {"kind": "risque"}, {"medium": "air"}, {"unit": "pCi"}, {"value": "x"},
    {"value": "4.0 4.0"}, {"uncertainty": "-"}, {"attenuation": "1.0"}, {"target": "1e9"}, {"exposure": "home"},
    {"exposure": "", "child": "0 0 0", "adult": "1 1 1 1"}, {"exposure": "", "child": "0 0 0 0", "adult": "250 25 7.8 60"},
)


def lines_of_chain():
    text = example("workroom")
    return text[text.index("divisor") :]


def job_of(room):
    """The bytes of a text that says what a room's cells say."""
    lines = "".join(f"{word} {cell}\n" for word, cell in room.items() if cell and word in ROOM_WORDS)
    return encode(lines + lines_of_chain())


def table(rooms, words=(NAME, *ROOM_WORDS), delimiter=",", ending="\n"):
    """A table of rooms; each has a name of its own unless it states one."""
    rows = [[{NAME: f"Room {i}", **ROOM, **room}[word] for word in words] for i, room in enumerate(rooms)]
    quoted = ([f'"{cell}"' if delimiter in cell else cell for cell in row] for row in [words, *rows])
    return "".join(delimiter.join(row) + ending for row in quoted)


def results(home, name="out.csv", delimiter=","):
    with open(home.folder / name, encoding="utf-8-sig", newline="") as file:
        return list(csv.DictReader(file, delimiter=delimiter))


def screened(home, text, book=BOOK, name="rooms.csv"):
    """What is said, and the results, of a table."""
    home.write(name, text)
    status, out, said = home.run("rooms", "--force", book, name, "out.csv")
    return status, out, said, results(home)


def expected(job):
    """The cells after those that were given, as the reference has them."""
    report = dict(line.split() for line in reference.answer(job).splitlines() if not line.startswith("factor"))
    rate = reference.fan_answer(job).split()[1]
    rate = rate if rate == "none" else f"{int(rate) // 100}.{int(rate) % 100:02}"
    return [report["verdict"], report["concentration"], report["level"], rate, ""]


@house_test
def test_answers(home):
    """Each room's answer is the reference's, whatever its columns say, and the order of the columns is free."""
    home.write("chain.txt", lines_of_chain())
    words = [NAME, *reversed(ROOM_WORDS)]
    for text in (table(ROOMS), table(ROOMS, words)):
        status, out, said, found = screened(home, text, "chain.txt")
        assert (status, said) == (1, "") and len(found) == len(ROOMS)
        for i, (room, row) in enumerate(zip(ROOMS, found)):
            assert [row[word] for word in ANSWERS[:-1]] == expected(job_of({**ROOM, **room})), (room, row)
            assert {word: row[word] for word in words} == {NAME: f"Room {i}", **ROOM, **room}
    assert {row["verdict"] for row in found} == {"below", "above"} and "none" in {row["lowest rate per hour"] for row in found}


@house_test
def test_book_has_the_rest(home):
    """What is the same for all rooms stands in the book's text. Where a column says it too, that counts, and this is told."""
    status, out, said, found = screened(home, table(ROOMS[:2], (NAME, "rate", "value", "uncertainty")))
    assert (status, said) == (1, "") and [row["verdict"] for row in found] == ["above", "below"]
    assert f"{BOOK}: the columns count, and not its line 3, rate, line 9, value and line 10, uncertainty\n" in out
    assert f"{BOOK}: the same in every room: kind risk; medium indoor-air; unit pCi/L; " in out
    groups = table([{"exposure": "", "child": "0 0 0 0", "adult": "1 1 1 1"}], (NAME, "child", "adult"))
    _, out, _, found = screened(home, groups)
    assert found[0]["verdict"] == "below" and "exposure" not in out.split("the same in every room")[1] and ", exposure\n" in out


@house_test
def test_same_words(home):
    """A mistake in a cell gets the words that it gets in a text, names its room and line, and the others go on."""
    status, out, _, found = screened(home, table([{}, *MISTAKES, {"rate": "90"}]))
    assert status == 2 and (found[0]["verdict"], found[-1]["verdict"]) == ("above", "below")
    for i, (room, row) in enumerate(zip(MISTAKES, found[1:]), 1):
        try:
            job_of({**ROOM, **room})
            assert False, room
        except Mistake as mistake:
            assert (row["verdict"], row["refusal"]) == ("refused", str(mistake)), (row, str(mistake))
        assert [row[word] for word in ANSWERS[1:4]] == ["", "", ""] and f"Room {i}, line {i + 2}: " in out
    assert "\nbelow " in out and f"{len(found)} rooms: 1 below, 1 above, {len(MISTAKES)} refused\n" in out


@house_test
def test_refused_by_screen(home):
    """What a text can say and `screen` refuses has the ground in words, and the warning that foresaw it."""
    rooms = {3: {"rate": "100_001"}, 5: {"attenuation": "999_999"}, 8: {"value": "4e9"}}
    status, _, _, found = screened(home, table(rooms.values()))
    assert status == 2 and [row["refusal"].partition(":")[0] for row in found] == [f"ground {ground}" for ground in rooms]
    assert "rate 100001: at most 100,000 hundredths" in found[0]["warnings"]


@house_test
def test_empty_cells_and_names(home):
    """An empty cell never takes what the book's text has for all; a room has a name, and shares it with none."""
    rooms = ({"value": ""}, {NAME: ""}, {NAME: "Same"}, {NAME: " Same "}, {"exposure": ""}, {"exposure": "", "child": "0 0 0 0"},
             {"child": "0 0 0 0"}, {"value": "4.0\n5.0"}, {"rate": "90"})
    status, out, _, found = screened(home, table(rooms).replace("4.0\n5.0", '"4.0\n5.0"'))
    said = [row["refusal"] for row in found]
    assert status == 2 and said[:2] == ["value: the cell is empty", "a room without a name"]
    assert "(no name), line 3: a room without a name" in out
    assert said[2] == said[3] == "2 rooms of this name, in lines 4 and 5: which is meant?"
    assert said[4] == "exposure or child or adult: the cell is empty" and said[5] == "adult: the cell is empty"
    assert "leave one of the two out" in said[6] and said[7] == "value: the cell has more than one line"
    assert [row["verdict"] for row in found] == ["refused"] * 8 + ["below"]
    assert "Room 8, line 11: target" in out and found[8][NAME] == "Room 8"


@house_test
def test_spreadsheets(home):
    """BOM, CRLF, semicolons, tabs, quotes and empty rows; the results have the same form. A decimal comma is told."""
    for delimiter, ending, bom in ((";", "\r\n", b"\xef\xbb\xbf"), ("\t", "\n", b""), (",", "\r\n", b"")):
        text = table([{NAME: "Größe, A;B"}, {"value": "4,0"}, {}], delimiter=delimiter, ending=ending)
        home.write("rooms.csv", bom + (text + delimiter * 5 + ending * 2).encode())
        assert home.run("rooms", "--force", BOOK, "rooms.csv", "out.csv")[0] == 2
        data, found = (home.folder / "out.csv").read_bytes(), results(home, delimiter=delimiter)
        assert data.startswith(bom + b"name") and data.count(ending.encode()) == data.count(b"\n") == 4
        assert [row["verdict"] for row in found] == ["above", "refused", "above"] and found[0][NAME] == "Größe, A;B"
        said = found[1]["refusal"]
        assert said.startswith("value 4,0: ") and said.endswith("has a point and no comma, such as 4.0"), said
    text = table([{}, {}], (NAME, "value", "uncertainty")).replace("Room 1,4.0", "Room 1,4,0")
    assert screened(home, text)[3][1]["refusal"].startswith("4 cells for 3 columns; a decimal has a point")


@house_test
def test_wrong_columns(home):
    """A column that is wrong, missing or there twice is named, and nothing is written."""
    home.write("chain.txt", lines_of_chain())
    without = [word for word in ROOM_WORDS if word != "uncertainty"]
    for text, part in (
        (table([{}], (NAME, *without)), "no column for uncertainty, and no line in chain.txt"),
        (table([{}]).replace("uncertainty", "uncertanty"), "column 'uncertanty': the columns are name, rate"),
        (table([{}], ROOM_WORDS), "no column for name"),
        (table([{}], (NAME, *ROOM_WORDS, "rate")), "two columns are named rate"),
        (table([{}], (NAME, *JOB_WORDS[:-2])), "no column for exposure (or child and adult)"),
        (table([{}]).replace("name,", "name,,").replace("Room 0,", "Room 0,x,"), "line 2: column 2 has no name"),
        (table([]), "has no rooms"), ("", "is empty"), (table([{}]).replace("worker", '"worker'), "line 2: cannot be parted"),
        (table([{}]).encode("utf-16"), "is text in UTF-16; save the file as UTF-8"),
        (table([{}]).replace(",", "|"), "column 'name|rate|"), (table([{}]).replace(",", "|"), "no comma, semicolon or tab parts"),
        ("sep=;\n" + table([{}], delimiter=";"), "leave out its first line, sep=;"),
        (table([{NAME: "Größe"}]).encode("latin-1"), "line 2: the byte 0xf6 is not text in UTF-8"),
    ):
        home.write("rooms.csv", text)
        status, out, said = home.run("rooms", "chain.txt", "rooms.csv", "out.csv")
        assert (status, out, said.count("\n")) == (2, "", 1) and said.startswith("rooms.csv") and part in said, (part, said)
    assert not (home.folder / "out.csv").exists()
    kept = table([{}]).replace("name,", " Name ,# floor,,").replace("Room 0,", "Room 0,cellar,,")
    assert screened(home, kept)[3][0]["# floor"] == "cellar"


@house_test
def test_nothing_is_overwritten(home):
    """Not without --force, and with it only an older table of results."""
    home.write("rooms.csv", table([{}]))
    words = ("rooms.csv", "out.csv")
    assert home.run("rooms", BOOK, *words)[0] == 1
    first = (home.folder / "out.csv").read_bytes()
    home.write("rooms.csv", table([{"rate": "90"}]))
    assert home.run("rooms", BOOK, *words) == (2, "", "out.csv: is there already; --force overwrites it\n")
    assert (home.folder / "out.csv").read_bytes() == first and home.run("rooms", "--force", BOOK, *words)[0] == 0
    home.write("letter.docx", b"a letter")
    (home.folder / "link.csv").symlink_to("nowhere")
    for name in ("rooms.csv", BOOK, "letter.docx", "examples", "link.csv", "/dev/null", "/dev/stdout"):
        for forced in ([], ["--force"]):
            status, out, said = home.run("rooms", *forced, BOOK, "rooms.csv", name)
            assert (status, out) == (2, "") and said.startswith(f"{name}: is ") and "--force overwrites it\n" not in said, said
    (home.folder / "out.csv").chmod(0o444)
    assert home.run("rooms", "--force", BOOK, *words)[2].startswith("out.csv: is read-only, so not even --force overwrites it")
    assert (home.folder / "letter.docx").read_bytes() == b"a letter"
    assert (home.folder / "rooms.csv").read_text() == table([{"rate": "90"}])
    status, _, said = home.run("rooms", BOOK, "rooms.csv", "none/out.csv")
    assert status == 2 and "none/out.csv: the folder" in said
    assert not [name for name in home.files() if name.endswith(".part")]


@house_test
def test_old_results_set_aside(home):
    """After a failure with --force no older table stands where the new one would: its verdicts are of other rooms."""
    home.write("rooms.csv", table([{}]))
    assert home.run("rooms", BOOK, "rooms.csv", "out.csv")[0] == 1
    old, before = (home.folder / "out.csv").read_bytes(), home.files()
    aside = "out.csv: was there, not of these rooms, so it is set aside as out.csv.old\n"
    home.write("wrong.csv", table([{}]).replace("uncertainty", "uncertanty"))
    for words, why in (((BOOK, "wrong.csv"), "wrong.csv: column 'uncertanty'"), (("none.txt", "rooms.csv"), "none.txt: No such")):
        home.write("out.csv", old)
        status, out, said = home.run("rooms", "--force", *words, "out.csv")
        assert (status, out) == (2, "") and said.startswith(why) and said.endswith(f"\n{aside}"), said
        assert (home.folder / "out.csv.old").read_bytes() == old and not (home.folder / "out.csv").exists()
    home.write("out.csv", old)
    home.write("out.csv.old", "a letter")
    said = home.run("rooms", "--force", BOOK, "wrong.csv", "out.csv")[2]
    assert said.endswith("could not be set aside: out.csv.old is there already, and is no table of results\n")
    assert (home.folder / "out.csv").read_bytes() == old and (home.folder / "out.csv.old").read_text() == "a letter"
    assert home.run("rooms", BOOK, "wrong.csv", "out.csv")[2].count("\n") == 1  # without --force it is nobody's new table
    assert sorted(home.files()) == sorted([*before, "out.csv.old", "wrong.csv"])


@house_test
def test_rooms_are_no_results(home):
    """What the rooms are read from is neither overwritten nor set aside, though older answers are carried along in it."""
    words, room = table([{}]).splitlines()
    text = f"{words},{','.join(f'# {word}' for word in ANSWERS)}\n{room},below,1,2,3,,\n"
    home.write("rooms.csv", text)
    for name in ("rooms.csv", "kept.csv"):
        home.write("kept.csv", text)
        status, _, said = home.run("rooms", "--force", BOOK, "rooms.csv", name)
        assert status == 2 and said.startswith(f"{name}: is ") and said.count("\n") == 1
        assert (home.folder / name).read_text() == text and not (home.folder / f"{name}.old").exists()
    assert screened(home, text)[0] == 1


@house_test
def test_warnings(home):
    """A room may be cleared by what looks wrong, so the summary has it, and a reading that all rooms share."""
    target = {"target": "1 in 1_000"}
    _, out, _, found = screened(home, table([target, {**target, "rate": "90 per hour"}, {**target, "rate": "90 per hour"}]))
    said = "if fan's 'rate 90' was meant, that is 'rate 0.90 per hour'"
    assert out.splitlines()[-2].startswith("warning        Room 1, line 3 and 1 more room: rate 9_000: 90.00 air changes per hour")
    assert said in " ".join(out.split()) and [said in row["warnings"] for row in found] == [False, True, True]
    assert "every room has this reading" not in out
    home.write("zero.txt", re.sub(r"-risk [0-9_]+", "-risk 0", lines_of_chain()))
    _, out, _, found = screened(home, table([target]), "zero.txt")
    assert "Room 0, line 2: the level is at its largest" in out and found[0]["verdict"] == "below"
    _, out, _, found = screened(home, table([{}, {"rate": "90"}], (NAME, "rate")))
    assert f"{BOOK}, line 9: value 4.0: no column for value, so every room has this reading (warning)\n" in out


@house_test
def test_wrong_book(home):
    """A book's text that can serve no room is told at once; a mistake in a line of it that some rooms need, in those."""
    home.write("rooms.csv", table([{}, {"kind": "dose"}]))
    for name, text, part in (
        ("none.txt", None, ": No such file"), ("radon.job", (EXAMPLES / "radon.job").read_bytes(), ": is no text"),
        ("word.txt", "rates 18\n", ", line 1: a line starts with"), ("chain.txt", "rate 18\n", ": "),
    ):
        if text is not None:
            home.write(name, text)
        status, out, said = home.run("rooms", name, "rooms.csv", "out.csv")
        assert (status, out) == (2, "") and said.startswith(name + part) and said.count("\n") == 1, said
    half = lines_of_chain().replace("inhalation-dose 1_000 submersion-dose 100 ", "", 1)
    status, _, _, found = screened(home, table([{}, {"kind": "dose"}]), home.write("half.txt", half))
    assert status == 2 and found[0]["verdict"] == "above" and found[1]["refusal"].startswith("half.txt, line ")


@house_test
def test_no_answer(home):
    """A program that fails has judged no room."""
    home.put_program("fan", "#!/bin/sh\nexit 1\n")
    status, out, _, found = screened(home, table([{}, {"rate": "0.18"}]))
    assert status == 2 and "2 rooms: 1 refused, 1 unanswered" in out
    assert found[0]["verdict"] == "unanswered" and found[0]["refusal"].startswith("fan: no answer")
    assert found[0]["level mBq/m3"] == found[0]["lowest rate per hour"] == ""


@house_test
def test_summary(home):
    """Worst first, and no longer than a page: the table has the rest."""
    rooms = [{"value": f"{value}.0"} for value in range(1, 40)] + [{"rate": "0.18"}]
    status, out, _, found = screened(home, table(rooms))
    lines = [line for line in out.splitlines() if not line.startswith(BOOK)]
    count = sum(row["verdict"] == "above" for row in found)
    assert lines[0] == f"40 rooms: {39 - count} below, {count} above, 1 refused"
    assert lines[1].startswith("refused        Room 39, line 41: rate 0.18: ")
    assert lines[2].startswith("above          Room 38: ") and "level " in lines[2] and "lowest rate" in lines[2]
    assert f"and {count - 20} more above, in out.csv" in out and len(lines) < 30 and max(map(len, lines)) <= WIDTH
    assert lines.index(next(line for line in lines if line.startswith("below"))) > 20


@house_test
def test_progress_on_a_terminal(home):
    home.write("rooms.csv", table([{}] * 3))
    main, terminal = pty.openpty()
    words = [sys.executable, "./jelmorand", "rooms", BOOK, "rooms.csv", "out.csv"]
    subprocess.run(words, cwd=home.folder, stdout=subprocess.DEVNULL, stderr=terminal, check=False)
    os.close(terminal)
    assert b"3 of 3 rooms" in os.read(main, 10_000)
    os.close(main)


@house_test
def test_many_rooms(home):
    """Ten thousand rooms may take a minute, so a thousand six seconds; twice that, since other tests run beside this one."""
    if any(map(building.is_late, ("screen", "fan"))):
        print("screen and fan are not built here, so it was not measured how long many rooms take")
        return
    rooms = [{"rate": str(i % 300), "value": f"{i / 100}"} for i in range(1_000)]
    began = time.monotonic()
    found = screened(home, table(rooms))[3]
    assert time.monotonic() - began < 12 and len(found) == 1_000
    for i in range(0, 1_000, 50):
        assert [found[i][word] for word in ANSWERS[:-1]] == expected(job_of({**ROOM, **rooms[i]}))


@house_test
def test_stopped(home):
    """A stop leaves no table of results, and no part of one."""
    home.put_program("screen", f"#!{sys.executable}\nimport time\ntime.sleep(0.3)\n")
    home.write("rooms.csv", table([{}] * 1_000))
    before = home.files()
    words = [sys.executable, "./jelmorand", "rooms", BOOK, "rooms.csv", "out.csv"]
    env = dict(os.environ, PYTHONDONTWRITEBYTECODE="1")
    heard = lambda: signal.signal(signal.SIGINT, signal.SIG_DFL)  # a shell has its background commands ignore it
    outputs = {"stdout": subprocess.PIPE, "stderr": subprocess.PIPE}
    going = subprocess.Popen(words, cwd=home.folder, env=env, preexec_fn=heard, **outputs)
    time.sleep(1)
    going.send_signal(signal.SIGINT)
    out, said = going.communicate(timeout=30)
    assert (going.returncode, out, said) == (2, b"", b"stopped\n") and home.files() == before


@house_test
def test_example(home):
    """The example's table has a room of each kind but 'close', and every line that its columns leave out."""
    status, out, said = home.run("rooms", BOOK, "examples/rooms.csv", "out.csv")
    assert (status, said) == (2, "") and {row["verdict"] for row in results(home)} == {"below", "above", "refused"}


def test_manual():
    """The manual names every column."""
    manual = (ROOT / "docs" / "ROOMS.md").read_text(encoding="utf-8")
    cells = [line.split(" | ")[0].strip("| ") for line in manual.splitlines() if line.startswith("| ")]
    columns = [word for cell in cells for word in cell.split(", ")]
    assert [word for word in columns if word != "column"] == [NAME, *MANUAL_ORDER, *ANSWERS] and set(MANUAL_ORDER) == set(ROOM_WORDS)
