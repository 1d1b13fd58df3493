"""`./jelmorand screen`: what it shows of a room, what it says of one that it cannot answer, and the exit status."""

import stat
import sys

import recorded
import reference
from command.given import Given
from command.layout import WIDTH
from command.meter import highest_reading, with_reading
from command.numerals import in_a_power
from command.read_back import meter_unit, read_lines
from house import EXAMPLES, ROOT, example, house_test
from textform.decode import decode
from textform.text import read_text
from textform.words import Mistake

WORKROOM = "examples/workroom.txt"
CLEARED = ("rate 0.18 per hour", "rate 90          ")  # of the workroom
NO_ANSWERS = {  # scripts in a program's place
    "says nothing": "",
    "fails": "import sys\nprint('verdict below')\nsys.exit(1)",
    "stops halfway": "print('factor 0 1099511627776')\nprint('concentration 1')\nprint('verdict below')",
    "says more": "print('verdict below')\nprint('rate 0')\nprint('and more')",
    "answers twice": f"""
import sys
sys.path.insert(0, {str(ROOT / "docs" / "src")!r})
import reference
answer = reference.fan_answer if "/fan/" in sys.argv[0] else reference.answer
print(2 * answer(sys.stdin.buffer.read()), end="")""",
    "is killed": "import os\nprint('rate 0', flush=True)\nos.kill(os.getpid(), 9)",
}


def fields(job):
    """The reference's report and lowest rate, by their words."""
    lines = reference.answer(job) + reference.fan_answer(job)
    return dict(line.split() for line in lines.splitlines() if not line.startswith("factor"))


def labelled(out):
    """What stands after each label of an answer, its lines joined."""
    found, label = {}, None
    for line in out.splitlines():
        label = line[:15].strip() or label
        found.setdefault(label, []).append(line[15:].strip())
    return {label: " ".join(lines) for label, lines in found.items()}


def millionths(word):
    return word if word == "none" else f"{int(word) // 10**6}.{int(word) % 10**6:06}"


def per_hour(word):
    return "no rate is enough" if word == "none" else f"{int(word) // 100}.{int(word) % 100:02} per hour (rate {word})"


def figures(shown):
    """What bytes and text have in common: not the names, nor a unit that a text alone has."""
    level = shown["level"].partition(" mBq/m³ ")[0]
    return level, [shown[label] for label in ("verdict", "concentration", "lowest rate", "equilibrium", "working level")]


@house_test
def test_figures(home):
    """Every figure that is shown of an example is the reference's, and the bytes have the answer of the text."""
    for path in sorted(EXAMPLES.glob("*.job")):
        expected = fields(path.read_bytes())
        status, out, said = home.run("screen", f"examples/{path.stem}.txt")
        shown = labelled(out)
        assert said == "" and status == (0 if expected["verdict"] == "below" else 1), path
        assert shown["verdict"].startswith(f"{expected['verdict']}, so ")
        assert shown["concentration"].startswith(f"{int(expected['concentration']):,} mBq/m³ ")
        assert shown["level"].startswith(f"{int(expected['level']):,} mBq/m³ ")
        assert shown["equilibrium"].split()[-1] == millionths(expected["equilibrium"])
        assert shown["working level"] == millionths(expected["working"])
        assert shown["lowest rate"] == per_hour(expected["rate"])
        of_bytes = home.run("screen", f"examples/{path.name}")
        assert of_bytes[0] == status and figures(labelled(of_bytes[1])) == figures(shown), path


@house_test
def test_what_was_read(home):
    """The words and units of the workroom, of the other media, of a home, of one group, and of a name left out."""
    let = ("exposure worker ", "child 0 0 0 0\nadult 1 1 7:45 60 ")
    home.write("let.txt", example("workroom", let))
    for name, parts in (
        (WORKROOM, ("0.18 air changes per hour", "risk, target 4 in 1,000", "indoor air, 4.0 + 0.4 pCi/L",
                    "worker, 250 days a year for 25 years, 8 hours a day",
                    "Rn-222 and seven daughters, ending with Po-214 and Tl-210")),
        ("examples/guide.txt", ("dose, target 6.195 mrem a year", "residential, child, 350 days a year for 6 years, 24 hours",
                                "residential, adult, 350 days a year for 20 years", "Rn-222 alone, no daughters")),
        ("examples/actinon.txt", ("groundwater, 100 + 5 pCi/L, multiplied by 4.34 and by the attenuation 0.001",)),
        ("examples/thoron.txt", ("soil gas, 250.0 + 12.5 Bq/m³, multiplied by the attenuation 0.03",)),
        ("examples/radon.job", ("member 0 and seven daughters, ending with member 6 and member 7",)),
        ("let.txt", ("adult, 1 day a year for 1 year, 7:45 hours a day, 60 m³ of air a day",)),
    ):
        read = labelled(home.run("screen", name)[1])["read"]
        assert all(part in read for part in parts), (parts, read)


def test_unit_of_a_text_alone():
    """A text in Bq/L is shown in it, and in the unit of its bytes."""
    data = (EXAMPLES / "thoron.job").read_bytes()
    read = read_text(decode(data, "job"))
    given = Given(data, read, [], {"unit": "Bq/L", "value": "0.25", "uncertainty": "0.0125"})
    assert "soil gas, 0.25 + 0.0125 Bq/L (250.0 + 12.5 Bq/m³), multiplied by" in read_lines(*read, given.said)[2]
    assert meter_unit(read[0], given.said) == ("Bq/L", 1_000) and meter_unit(read[0], {"unit": "Bq/m3"}) == ("Bq/m³", 1)


def test_targets():
    said = {4_000_000: "4 in 1,000", 1_610: "1.61 in 1,000,000", 0: "0", 10**9: "1 in 1", 1: "1 in 1,000,000,000"}
    assert {billionths: in_a_power(billionths, 9) for billionths in said} == said


@house_test
def test_several_rooms(home):
    """Each under its name, then how many of each; the status is that of the worst."""
    home.write("aired.txt", example("workroom", CLEARED))
    home.write("wrong.txt", example("workroom", ("rate 0.18 per hour", "rate 0.18")))
    status, out, said = home.run("screen", "aired.txt", WORKROOM)
    assert (status, said) == (1, "") and out.endswith("\n2 rooms: 1 below, 1 above\n")
    assert out.startswith("aired.txt\nread ") and f"\n{WORKROOM}\nread " in out
    status, out, said = home.run("screen", "aired.txt", "wrong.txt", "none.txt")
    assert (status, said) == (2, "") and out.endswith("\n3 rooms: 1 below, 1 refused, 1 unanswered\n")
    assert "\nwrong.txt\nrefused        line 3: rate 0.18: whole hundredths per hour" in out
    assert "\nnone.txt\nunanswered     No such file or directory\n" in out
    assert home.run("screen", "aired.txt", "aired.txt")[0] == 0
    assert max(map(len, out.splitlines())) <= WIDTH


@house_test
def test_no_file_is_left(home):
    """A refused text is never judged on last month's job, and nothing is written."""
    home.write("cellar.txt", example("workroom", ("rate 0.18 per hour", "rate 0.18")))
    home.write("cellar.job", (EXAMPLES / "actinon.job").read_bytes())
    before = home.files()
    status, out, said = home.run("screen", "cellar.txt")
    assert (status, out) == (2, "") and said.startswith("cellar.txt, line 3: rate 0.18: whole hundredths per hour")
    home.run("screen", WORKROOM, "cellar.txt", "examples/radon.job")
    assert home.files() == before


@house_test
def test_report_alone(home):
    """The program's own lines; of several files each under its name, and what is not answered on standard error."""
    for name in ("radon", "actinon"):
        said = (EXAMPLES / f"{name}.out").read_text()
        for form in ("txt", "job"):
            assert home.run("screen", "--report", f"examples/{name}.{form}") == (1 if "above" in said else 0, said, "")
    both = home.run("screen", "--report", "examples/radon.txt", "none.txt")
    assert both == (2, "examples/radon.txt\n" + (EXAMPLES / "radon.out").read_text(), "none.txt: No such file or directory\n")
    home.write("fast.txt", example("radon", ("rate 0.18 per hour", "rate 100_001")))
    status, out, said = home.run("screen", "--report", "fast.txt")
    assert (status, out) == (2, "refused 3\n") and "fast.txt: ground 3: The rate is more than" in said
    assert "fast.txt, line 3: to be refused: rate 100001: at most 100,000 hundredths per hour (ground 3)\n" in said


@house_test
def test_report_warns(home):
    """What looks wrong is told beside the program's lines too, and not among them."""
    status, out, said = home.run("screen", "--report", WORKROOM)
    assert (status, out) == (1, (EXAMPLES / "workroom.out").read_text())
    assert said == f"{WORKROOM}, line 7: warning: target 4 in 1_000: more than 1 in 1_000\n"


@house_test
def test_refused_in_words(home):
    """A refusal has its number, its sentence and the line that foresaw it, and what was read is shown all the same."""
    home.write("fast.txt", example("radon", ("rate 0.18 per hour", "rate 100_001")))
    status, out, _ = home.run("screen", "fast.txt")
    shown = labelled(out)
    assert status == 2 and shown["refused"].startswith("ground 3: The rate is more than 100,000 hundredths")
    assert shown["refused"].endswith("Where to look: rate.")
    assert "line 3: rate 100001: at most 100,000" in shown["to be refused"] and shown["read"].startswith("1,000.01 air changes")
    home.write("cut.job", (EXAMPLES / "radon.job").read_bytes()[:100])
    status, out, _ = home.run("screen", "cut.job")
    assert status == 2 and labelled(out)["refused"].startswith("ground 11: ") and "verdict" not in out


@house_test
def test_no_text_and_no_job(home):
    """One line, and status 2."""
    for name, data, part in (
        ("latin.txt", b"rate 18\nunit Bq/m\xb3\n", ", line 2: the byte 0xb3 is not text in UTF-8"),
        ("wide.txt", "rate 18".encode("utf-16"), ": is text, and not in UTF-8: it has zero bytes; save the file as UTF-8"),
        ("wide.txt", example("radon").encode("utf-16-le"), ": is text, and not in UTF-8: it has zero bytes"),
        ("zero.txt", example("radon").encode() + b"\0", ": is text, and not in UTF-8: it has zero bytes"),
        ("empty.txt", b"", ": "),
        ("radon.book", (EXAMPLES / "radon.book").read_bytes(), ": is a book alone"),
        ("book.txt", example("radon")[example("radon").index("divisor") :], ": is a book alone"),
        ("long.txt", b"#" * 1_000_001, ": longer than 1,000,000 bytes"),
    ):
        status, out, said = home.run("screen", home.write(name, data))
        assert (status, out) == (2, "") and said.startswith(name + part) and said.count("\n") == 1, (name, said)
    assert home.run("screen", "none.txt") == (2, "", "none.txt: No such file or directory\n")
    assert home.run("screen", "examples") == (2, "", "examples: Is a directory\n")


@house_test
def test_level_at_its_largest(home):
    """A room whose coefficients are all 0 is 'below' at every reading, so the answer warns."""
    assert "largest" not in home.run("screen", WORKROOM)[1]
    home.write("zero.txt", example("guide", ("inhalation-dose 1_000", "inhalation-dose 0")))
    status, out, _ = home.run("screen", "zero.txt")
    assert status == 0 and "the level is at its largest" in labelled(out)["warning"]


@house_test
def test_no_answer_is_taken_for_one(home):
    """Whatever is wrong with a program, there is no verdict, and its line says so."""
    for name in ("screen", "fan"):
        for why, script in NO_ANSWERS.items():
            home.put_program(name, f"#!{sys.executable}\n{script}\n")
            status, out, said = home.run("screen", WORKROOM)
            assert (status, out) == (2, "") and f"{WORKROOM}: {name}: no answer" in said, (name, why, out, said)
        home.put_program(name)
    home.program("screen").chmod(stat.S_IRUSR)
    status, out, said = home.run("screen", "--report", WORKROOM)
    assert (status, out, said) == (2, "", f"{WORKROOM}: screen: no answer: Permission denied\n")


@house_test
def test_programs_that_disagree(home):
    """A rate that the verdict does not fit is no answer, whichever of the two programs is wrong."""
    for name, rate in (("workroom", "0"), ("actinon", "61"), ("actinon", "none")):
        home.put_program("fan", f"#!/bin/sh\necho rate {rate}\n")
        status, out, said = home.run("screen", f"examples/{name}.txt")
        assert (status, out) == (2, "") and "fan does not agree" in said, name
    home.put_program("fan", "#!/bin/sh\necho refused 3\n")
    status, out, _ = home.run("screen", "examples/actinon.txt")
    assert status == 2 and "below" not in out


@house_test
def test_old_hours(home):
    """A job that may be in whole hours, as they used to be, would be cleared by a quarter of them, so it is not judged. One
    with more hours than a day has cannot be such, and a text says hours."""
    job = bytearray((EXAMPLES / "actinon.job").read_bytes())
    assert home.run("screen", "examples/actinon.job")[0] == 0
    for quarters, said in ((8, "2 a day, are 8 a day"), (24, "6 a day, are 24 a day"), (1, "0:15 a day, are 1 a day")):
        job[44] = quarters
        home.write("old.job", bytes(job))
        for words in (("screen",), ("screen", "--report"), ("fan",)):
            status, out, why = home.run(*words, "old.job")
            assert (status, out) == (2, "") and why.startswith(f"old.job: its hours, {said} if the job was written in whole hours")
    assert home.run("decode", "old.job", "mine.txt")[0] == 0 and home.run("screen", "mine.txt")[0] == 0
    text = (home.folder / "mine.txt").read_text()
    assert "\nadult 250 25 0:15 60  # or 1 hours, if the job was written in whole hours, as jobs used to be\n" in text
    assert "\nchild 0 0 0 0\n" in text
    assert home.run("table", "old.job", 18)[0] == 0  # the book has no hours
    for job[36], job[44] in ((25, 8), (8, 25), (96, 1), (0, 0)):
        assert "whole hours" not in home.run("screen", home.write("new.job", bytes(job)))[2]


@house_test
def test_job_of_an_older_text(home):
    """A job is not judged where the text of its name, beside it, says something else: it may be last month's."""
    good, other = example("actinon"), example("actinon", ("rate 0.6 per hour", "rate 0.5 per hour"))
    home.write("cellar.job", (EXAMPLES / "actinon.job").read_bytes())
    home.write("cellar.txt", good + "# a comment\n")
    assert home.run("screen", "cellar.job")[0] == home.run("screen", "cellar.txt")[0] == 0
    for text in (other, "rate 0.18\n", "", b"\xff"):
        home.write("cellar.txt", text)
        for words in (("screen",), ("screen", "--report"), ("fan",)):
            said = "cellar.job: is not the job of cellar.txt, which stands beside it: give the text, or encode it again\n"
            assert home.run(*words, "cellar.job") == (2, "", said)
    home.write("cellar.txt", other)
    home.run("encode", "cellar.txt", "cellar.job")
    assert home.run("screen", "cellar.job")[0] == 0


def accepted_jobs():
    """The recorded jobs that are accepted and have a text."""
    for data, said in recorded.read_cases(recorded.JOB):
        if not said.startswith("refused"):
            try:
                yield data, read_text(decode(data, "job"))[0]
            except Mistake:
                continue


def concentration(data):
    return int(fields_of_report(data).get("concentration", reference.MOST + 1))


def fields_of_report(data):
    return dict(line.split() for line in reference.answer(data).splitlines() if not line.startswith("factor"))


def test_level_on_the_meter():
    """Of every recorded job, in each unit and medium: the reading that is shown is 'below' and no higher than the level,
    and one step more is not, or is no reading that a job can hold. So too in a unit a thousand times the bytes'."""
    seen = set()
    for data, job in accepted_jobs():
        for size in (1, 1_000):
            check_reading(data, job, size)
        seen.add((job.medium, job.unit))
    assert len(seen) == 9, seen


def check_reading(data, job, size):
    level = int(fields_of_report(data)["level"])
    number, places = highest_reading(level, job, size)
    shown = fields_of_report(with_reading(number, places, data, size))
    assert shown["verdict"] == "below" and int(shown["concentration"]) <= level, (job, number, places)
    more = concentration(with_reading(number + 1, places, data, size))
    assert more > level or level == reference.MOST or job.attenuation == 0, (job, number, places)
