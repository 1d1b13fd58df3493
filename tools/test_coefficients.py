"""`./jelmorand screen ROOM.txt --coefficients SET.txt`: what it shows by a second set and beside the room's own, and that nothing
else than an answer by that set is ever shown as one."""

import os
import subprocess
import sys

import stand_ins
from command.layout import COLUMN, GAP, LABEL, WIDTH
from command.meter import highest_reading
from command.numerals import decimal
from house import EXAMPLES, example, house_test
from test_screening import NO_ANSWERS, labelled, millionths, per_hour
from textform.chain import COEFFICIENTS
from textform.encode import encode
from textform.second_set import read_set, set_bytes
from textform.text import read_text

WORKROOM, SET = "examples/workroom.txt", "partner.txt"
NAME = "Advisers & Sons, list of March"
CLOSE = """\
rate 200
kind risk
medium indoor-air
unit Bq/m3
target 1_610
attenuation 1_000_000
value 111
uncertainty 0
exposure residential
divisor 1_000
member Gas half-life 3.8235d inhalation-risk 0 submersion-risk 0 weight 0
member Daughter half-life 2495.3298516s inhalation-risk 1_000 submersion-risk 0 weight 1
feed 100_000 from Gas into Daughter
ends 100_000 from Daughter
"""  # a row of document 01
MILD = {"inhalation-risk": 1, "inhalation-dose": 1}  # with these numbers every example that is judged by them is 'below'


def text_of(name):
    return CLOSE if name == "close" else example(name)


def set_of(name, change):
    """A set for a room's chain, with each number as the change makes it of the member's place, the word and its own."""
    lines = [f"set {NAME}"]
    for i, member in enumerate(read_text(text_of(name))[1].members):
        numbers = (f"{word} {change(i, word, member.given.get(word, 0))}" for word in COEFFICIENTS)
        lines.append(f"member {member.name} {' '.join(numbers)}")
    return "\n".join(lines) + "\n"


def mild(_, word, own):
    return MILD.get(word, own)


def harsh(_, word, own):
    return own if word == "weight" else 50 * own


def odd(i, word, own):
    return own // 3 + 7 * i + len(word)


def expected(name, text):
    """What `partner` is to write of an example by a set's text, by its words; and the bytes of the two."""
    room = example(name)
    job, second = encode(room), set_bytes(read_set(text), read_text(room)[1])
    said = stand_ins.partner_answer(second, job)
    return dict(line.split() for line in said.splitlines() if not line.startswith("factor")), said


def written(home, name, change):
    text = set_of(name, change)
    home.write(SET, text)
    return text


def columns(out):
    """What stands after each label in the two columns, its lines joined."""
    sides, label, lines = ({}, {}), "", out.splitlines()
    start = next(i for i, line in enumerate(lines) if line[LABEL:].startswith("the room's own   "))
    for line in lines[start:]:
        label = line[:LABEL].strip() or label
        if label.startswith("they "):
            return sides
        for side, part in zip(sides, (line[LABEL:][:COLUMN], line[LABEL + COLUMN + len(GAP) :])):
            side[label] = f"{side.get(label, '')} {part.strip()}".strip()
    raise AssertionError(out)


@house_test
def test_figures(home):
    """Every figure by a set is the reference's of the book with the set in it, and so is the reading on the meter."""
    for path in sorted(EXAMPLES.glob("*.job")):
        for change in (mild, harsh, odd):
            answer, _ = expected(path.stem, written(home, path.stem, change))
            status, out, said = home.run("screen", f"examples/{path.stem}.txt", "--coefficients", SET)
            shown = labelled(out)
            assert said == "" and status == (0 if answer["verdict"] == "below" else 1), path
            assert shown["coefficients"] == f"those of {NAME} ({SET}), in place of the room's own"
            assert shown["verdict"].startswith(f"{answer['verdict']}, so ")
            assert shown["concentration"].startswith(f"{int(answer['concentration']):,} mBq/m³ ")
            reading = decimal(*highest_reading(int(answer["level"]), read_text(example(path.stem))[0]))
            unit = example(path.stem).partition("unit ")[2].split()[0]
            if unit != "Bq/L":
                assert f"'below' {reading} {unit.replace('m3', 'm³')} on the meter" in shown["level"], (path, shown["level"])
            assert shown["level"].startswith(f"{int(answer['level']):,} mBq/m³ ")
            assert shown["equilibrium"].split()[-1] == millionths(answer["equilibrium"])
            assert shown["working level"] == millionths(answer["working"])
            assert shown["lowest rate"] == per_hour(answer["rate"])


@house_test
def test_both(home):
    """The left column is the answer by the room's own, the right one that by the set, whichever verdict is the better."""
    for name, change in (("workroom", mild), ("workroom", odd), ("actinon", harsh), ("guide", harsh), ("thoron", mild)):
        written(home, name, change)
        room = f"examples/{name}.txt"
        alone = [labelled(home.run(*words)[1]) for words in (("screen", room), ("screen", room, "--coefficients", SET))]
        status, out, said = home.run("screen", room, "--coefficients", SET, "--both")
        assert said == "" and max(map(len, out.splitlines())) <= WIDTH
        for side, title, other in zip(columns(out), ("the room's own", NAME), alone):
            assert side.pop("") == title
            assert list(side) == ["verdict", "level", "lowest rate", "equilibrium", "working level"]
            assert side == {label: other[label] for label in side}, (name, title)
        shown = labelled(out)
        assert shown["coefficients"] == f"the room's own, and beside them those of {NAME} ({SET})"
        assert shown["read"] == alone[0]["read"] and shown["concentration"].startswith(alone[0]["concentration"]), (shown, alone)
        verdicts = [other["verdict"].split(",")[0] for other in alone]
        assert status == (0 if verdicts == ["below", "below"] else 1), (name, verdicts)


@house_test
def test_what_both_come_to(home):
    """A last line says plainly whether the two differ, and who clears the room; the status is that of the worse."""
    only = "it is cleared only for a reader who goes by {0}"
    own = "the room's own coefficients"
    for name, change, status, label, last in (
        ("workroom", mild, 1, "they differ", f"the room is cleared by {NAME}, and not by {own}: {only.format(NAME)}"),
        ("actinon", harsh, 1, "they differ", f"the room is cleared by {own}, and not by {NAME}: {only.format(own)}"),
        ("actinon", mild, 0, "they agree", "both say 'below': the room is cleared by both"),
        ("workroom", harsh, 1, "they agree", "both say 'above': neither clears the room"),
        ("close", harsh, 1, "they differ", f"'close' by {own}, 'above' by {NAME}: neither clears the room"),
        ("close", mild, 1, "they differ", f"the room is cleared by {NAME}, and not by {own}: {only.format(NAME)}"),
    ):
        written(home, name, change)
        found = home.run("screen", home.write("room.txt", text_of(name)), "--coefficients", SET, "--both")
        assert found[0] == status and labelled(found[1])[label] == last, found
        assert ("they agree" in found[1]) != ("they differ" in found[1])


@house_test
def test_report(home):
    """The lines of `partner` as it writes them; what looks wrong stands beside them."""
    for name, change in (("workroom", odd), ("actinon", mild)):
        answer, lines = expected(name, written(home, name, change))
        status, out, said = home.run("screen", "--report", f"examples/{name}.txt", "--coefficients", SET)
        assert (status, out) == (0 if answer["verdict"] == "below" else 1, lines) and lines.startswith("set 2\nfactor 0 ")
        assert ("warning: target" in said) == (name == "workroom")
    home.write("fast.txt", example("radon", ("rate 0.18 per hour", "rate 100_001")))
    status, out, said = home.run("screen", "--report", "fast.txt", "--coefficients", SET)
    assert (status, out) == (2, "") and said.startswith("fast.txt: partner.txt, line 2: member Rn-219: the room's chain has no")
    written(home, "radon", mild)
    status, out, said = home.run("screen", "--report", "fast.txt", "--coefficients", SET)
    assert (status, out) == (2, "refused 3\n") and "fast.txt: ground 3: The rate is more than" in said


@house_test
def test_only_the_set_that_was_lent(home):
    """An answer by set 1, or by none, is a failure in every form, also where its figures are right."""
    _, lines = expected("actinon", written(home, "actinon", mild))
    for other in ("set 1\n", "", "set 3\n", "set 2\nset 2\n", "set 2 \n"):
        text = lines.replace("set 2\n", other)
        home.put_program("partner", f"#!{sys.executable}\nprint({text!r}, end='')\n")
        for words in ((), ("--both",), ("--report",)):
            status, out, said = home.run("screen", "examples/actinon.txt", "--coefficients", SET, *words)
            assert (status, out) == (2, "") and said.count("\n") == 1 and "examples/actinon.txt: partner: " in said, (other, said)
            assert "by set 1, and not by the one that was lent it" in said if other == "set 1\n" else "no answer" in said


@house_test
def test_no_answer_is_taken_for_one(home):
    """Whatever is wrong with `partner`, or with one of the three, there is no verdict, neither of one nor of both."""
    _, lines = expected("actinon", written(home, "actinon", mild))
    scripts = {why: script for why, script in NO_ANSWERS.items() if why != "answers twice"}
    for text in (lines.replace("rate 0", "rate 61"), lines.replace("rate 0", "rate none"), lines.replace("below", "above"),
                 lines.rpartition("rate")[0], lines + "rate 0\n", lines.replace("verdict", "Verdict"), "refused\n"):
        scripts[text] = f"print({text!r}, end='')"
    for why, script in scripts.items():
        home.put_program("partner", f"#!{sys.executable}\n{script}\n")
        for words in ((), ("--both",), ("--report",)):
            status, out, said = home.run("screen", "examples/actinon.txt", "--coefficients", SET, *words)
            assert (status, out) == (2, "") and "examples/actinon.txt: partner" in said and "no answer" in said, (why, out, said)
    home.put_program("partner", f"#!{sys.executable}\nprint({lines.replace('concentration ', 'concentration 1')!r}, end='')\n")
    found = home.run("screen", "examples/actinon.txt", "--coefficients", SET, "--both")
    assert found == (2, "", "examples/actinon.txt: screen and partner do not agree on the concentration, so there is no answer\n")
    home.put_program("partner")
    home.put_program("fan", "#!/bin/sh\necho rate none\n")
    assert home.run("screen", "examples/actinon.txt", "--coefficients", SET, "--both")[:2] == (2, "")
    assert home.run("screen", "examples/actinon.txt", "--coefficients", SET)[0] == 0  # which asks `partner` alone


@house_test
def test_refused(home):
    """Ground 23 and the job's own grounds have their sentences; nothing is shown of the other answer."""
    written(home, "workroom", mild)
    home.put_program("partner", "#!/bin/sh\necho refused 23\n")
    for words in ((), ("--both",)):
        status, out, _ = home.run("screen", WORKROOM, "--coefficients", SET, *words)
        assert status == 2 and labelled(out)["refused"].startswith("ground 23: The second set is not exactly 20 bytes for each")
        assert "verdict" not in out and "above" not in out
    home.put_program("partner")
    home.write("large.txt", example("workroom", ("Po-218 half-life 3.10m      inhalation-risk 300_000",
                                                 "Po-218 half-life 3.10m inhalation-risk 4_000_000_001")))
    status, out, _ = home.run("screen", "large.txt", "--coefficients", SET)
    assert status == 2 and labelled(out)["refused"].startswith("ground 13: ")  # its own numbers are looked at all the same


@house_test
def test_reading_on_the_meter(home):
    """The reading at the level is judged by the same set before it is shown, and not by the room's own."""
    written(home, "actinon", mild)
    source = home.program("partner").read_bytes()
    home.write("kept", source)
    (home.folder / "kept").chmod(0o755)
    home.put_program("partner", f"""#!{sys.executable}
import pathlib, subprocess, sys
data = sys.stdin.buffer.read()
with open("asked", "a") as file:
    print(data[24:32].hex(), pathlib.Path(sys.argv[1]).read_bytes().hex(), file=file)
said = subprocess.run(["./kept", sys.argv[1]], input=data, stdout=subprocess.PIPE, check=True, close_fds=False).stdout.decode()
other = said.replace("below", "above").rpartition("rate")[0] + "rate none\\n"
print(other if not any(data[24:32]) and pathlib.Path("wrong").exists() else said, end="")
""")
    assert home.run("screen", "examples/actinon.txt", "--coefficients", SET)[0] == 0
    first, at_level = (line.split() for line in (home.folder / "asked").read_text().splitlines())
    assert int(first[0], 16) != 0 and at_level[0] == "00" * 8 and first[1] == at_level[1] and len(first[1]) == 2 * 20 * 6
    home.write("wrong", "")
    said = "examples/actinon.txt: the level in the meter's unit: partner does not agree with it, so nothing is shown\n"
    assert home.run("screen", "examples/actinon.txt", "--coefficients", SET) == (2, "", said)


@house_test
def test_several_rooms(home):
    """Each is judged by the same set, or refused where its chain has other names."""
    text = written(home, "workroom", mild)
    home.write("home.txt", example("radon", ("target 1 in 10_000 ", "target 1 in 100 ")))
    status, out, said = home.run("screen", WORKROOM, "home.txt", "examples/thoron.txt", "--coefficients", SET)
    assert (status, said) == (2, "") and out.endswith("\n3 rooms: 2 below, 1 refused\n")
    assert "\nexamples/thoron.txt\nrefused        partner.txt, line 2: member Rn-222: the room's chain has no such name" in out
    assert out.count(f"coefficients   those of {NAME} ({SET})") == 2
    status, out, _ = home.run("screen", WORKROOM, "home.txt", "--coefficients", SET, "--both")
    assert status == 1 and out.endswith("\n2 rooms: 1 below, 1 above, each by the worse of its two verdicts\n")
    status, out, _ = home.run("screen", "--report", WORKROOM, "home.txt", "--coefficients", SET)
    assert status == 0 and out.startswith(f"{WORKROOM}\n{expected('workroom', text)[1]}home.txt\nset 2\n")


@house_test
def test_wrong_sets(home):
    """One line with the set's file, and nothing is judged."""
    good = written(home, "workroom", mild)
    first, second = good.splitlines()[1:3]
    for text, said in (
        (good.replace(f"set {NAME}\n", ""), "partner.txt: no line 'set NAME' says whose coefficients they are\n"),
        (good + "set Others\n", "partner.txt, line 10: set: was already given in line 1\n"),
        (good + first, "partner.txt, line 10: member Rn-222: there is one already, in line 2\n"),
        (good.replace(f"{second}\n", ""), f"{WORKROOM}: partner.txt: no line for member Po-218, which the room's chain has\n"),
        (good.replace("Po-218", "Po-219"), f"{WORKROOM}: partner.txt, line 3: member Po-219: the room's chain has no such name; "),
        (good.replace("inhalation-risk 1 ", "inhalation-risk 0.5 ", 1), "partner.txt, line 2: inhalation-risk 0.5: whole 10^-17"),
        (good.replace("inhalation-risk 1 ", "inhalation-risk 4000000001 ", 1), "partner.txt, line 2: Rn-222, inhalation-risk 40"),
        (good.encode("utf-16"), "partner.txt: is text in UTF-16; save the file as UTF-8\n"),
        (good.encode() + b"# \xff", "partner.txt, line 10: the byte 0xff is not text in UTF-8"),
        (set_bytes(read_set(good), read_text(example("workroom"))[1]), "partner.txt: is no text: it has a zero byte"),
        (b"#" * 1_000_001, "partner.txt: longer than 1,000,000 bytes"),
        ("", "partner.txt: no line 'set NAME' says"),
        (example("workroom"), "partner.txt, line 3: this looks like a room's text, and not like a set of coefficients\n"),
        ((EXAMPLES / "radon.job").read_bytes(), "partner.txt: is no text"),
    ):
        status, out, found = home.run("screen", WORKROOM, "--coefficients", home.write(SET, text))
        assert (status, out) == (2, "") and found.startswith(said) and found.count("\n") == 1, (said, found)
    for text in (good.replace(f"{second}\n", ""), good + first):
        home.write(SET, text)
        alone, both, report = (home.run("screen", WORKROOM, "--coefficients", SET, *word) for word in ((), ("--both",), ("--report",)))
        assert alone == both == report and alone[:2] == (2, "")
    assert home.run("screen", WORKROOM, "--coefficients", "none.txt") == (2, "", "none.txt: No such file or directory\n")
    assert home.run("screen", WORKROOM, "--coefficients", "examples") == (2, "", "examples: Is a directory\n")


@house_test
def test_exchanged(home):
    """A set where a room should be is told, and so is a job, which has no names."""
    written(home, "workroom", mild)
    said = "partner.txt, line 1: this looks like a set of coefficients, and not like a room's text\n"
    assert home.run("screen", SET) == home.run("fan", SET) == home.run("screen", SET, "--coefficients", SET) == (2, "", said)
    said = "examples/workroom.job: is a job, whose bytes have no names, so no set of coefficients can be matched to its chain: "
    for words in ((), ("--both",), ("--report",)):
        found = home.run("screen", "examples/workroom.job", "--coefficients", SET, *words)
        assert found == (2, "", f"{said}give the room's text\n")


@house_test
def test_warnings(home):
    """What looks wrong in the set is told with its file; what looks wrong in numbers that are not in use is not."""
    zero = "kind risk: every inhalation-risk and submersion-risk is 0, so every room is 'below'"
    largest = "the level is at its largest: this room cannot be 'close' or 'above', whatever the meter says"
    written(home, "workroom", lambda _i, word, own: own if word == "weight" else 0)
    status, out, _ = home.run("screen", WORKROOM, "--coefficients", SET)
    assert status == 0 and f"{SET}: {zero}" in labelled(out)["warning"] and f" {largest}" in labelled(out)["warning"]
    status, out, _ = home.run("screen", WORKROOM, "--coefficients", SET, "--both")
    shown = labelled(out)["warning"]
    assert status == 1 and f"{SET}: {zero}" in shown and f"by {NAME}: {largest}" in shown and "own: the level" not in shown
    said = home.run("screen", "--report", WORKROOM, "--coefficients", SET)[2]
    assert f"{WORKROOM}: warning: {SET}: {zero}\n" in said
    text = example("workroom")
    for word in ("inhalation-risk", "submersion-risk"):
        text = " ".join(part if before != word else "0" for before, part in zip(["", *text.split(" ")], text.split(" ")))
    home.write("zero.txt", text)
    written(home, "workroom", harsh)
    assert f"line 4: {zero}" in labelled(home.run("screen", "zero.txt")[1])["warning"]
    status, out, _ = home.run("screen", "zero.txt", "--coefficients", SET)
    assert status == 1 and "is 0" not in out and "largest" not in out and "target 4 in 1_000" in labelled(out)["warning"]
    status, out, _ = home.run("screen", "zero.txt", "--coefficients", SET, "--both")
    shown = labelled(out)["warning"]
    assert status == 1 and f"line 4: {zero}" in shown and f"by the room's own: {largest}" in shown and f"by {NAME}" not in shown


@house_test
def test_no_file_is_left(home):
    """Neither the set's bytes nor anything else, also where `partner` fails."""
    written(home, "workroom", mild)
    before = home.files()
    assert home.run("screen", WORKROOM, "--coefficients", SET, "--both")[0] == 1
    assert home.files() == before
    home.put_program("partner", "#!/bin/sh\nexit 1\n")
    before = home.files()
    assert home.run("screen", WORKROOM, "--coefficients", SET)[0] == 2 and home.files() == before


@house_test
def test_options(home):
    """Each once at most, and one line says what is wrong."""
    written(home, "actinon", mild)
    room, lent = "examples/actinon.txt", ("--coefficients", SET)
    for words in ((*lent, room), (room, *lent, "--both"), ("--both", room, *lent), (room, "--both", *lent), (room, *lent)):
        assert home.run("screen", *words)[0] == 0, words
    for words, why in (
        ((room, *lent, *lent), "--coefficients is given twice"),
        ((room, *lent, "--both", "--both"), "--both is given twice"),
        (("--report", "--report", room), "--report is given twice"),
        ((room, "--both"), "--both goes with --coefficients"),
        ((room, "--coefficients"), "no file's name stands after --coefficients"),
        ((room, "--coefficients", "--both"), "no file's name stands after --coefficients"),
        (("--report", room, *lent, "--both"), "--report shows one answer alone, and --both two"),
        ((room, "--coeficients", SET), "--coeficients is no such option"),
        ((room, f"--coefficients={SET}"), f"--coefficients={SET} is no such option"),
        ((room, *lent, "-both"), "-both is no such option"),
        (lent, ""),
    ):
        status, out, said = home.run("screen", *words)
        usage = "usage: ./jelmorand screen [--report] FILE.. [--coefficients SET [--both]]"
        assert (status, out, said) == (2, "", f"{usage} ({why})\n" if why else f"{usage}\n"), words
    for command in (("fan", room), ("rooms", room, "a.csv", "b.csv")):
        assert home.run(*command, *lent)[:2] == (2, "")


@house_test
def test_encoded_set(home):
    """The bytes that `encode` writes are those that the command lends: `partner` answers them alike."""
    _, lines = expected("workroom", written(home, "workroom", odd))
    status, out, _ = home.run("encode", "--coefficients", SET, WORKROOM, "partner.set")
    assert (status, out) == (0, "") and os.path.getsize(home.folder / "partner.set") == 160
    with open(EXAMPLES / "workroom.job", "rb") as job:
        words = [home.program("partner"), home.folder / "partner.set"]
        done = subprocess.run(words, stdin=job, capture_output=True, timeout=60, check=True)
    assert done.stdout.decode() == lines
