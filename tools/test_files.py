"""Which files the text tool replaces, sets aside and leaves alone."""

import os
import resource

from samples import EXAMPLES
from test_command import RADON, folder_test, run

JOB, BOOK = RADON.with_suffix(".job").read_bytes(), RADON.with_suffix(".book").read_bytes()
GUIDE = (EXAMPLES / "guide.job").read_bytes()


def listed(folder):
    return sorted(path.name for path in folder.iterdir())


def wrong_text(folder):
    text = folder / "room.txt"
    text.write_text(RADON.read_text().replace("rate 0.18 per hour", "rate 0.18"))
    return text


@folder_test
def test_same_file(folder):
    """The text is never written over, by whichever name."""
    text, link = folder / "same.txt", folder / "link.job"
    text.write_bytes(RADON.read_bytes())
    link.symlink_to(text)
    for out in (text, link, folder / "." / "same.txt"):
        status, _, said = run("encode", text, out)
        assert status == 1 and "is the text itself" in said
    assert text.read_bytes() == RADON.read_bytes() and listed(folder) == ["link.job", "same.txt"]


@folder_test
def test_left_alone(folder):
    """What is neither a job nor a book stays, whatever its name, also behind a link, and with a wrong text too."""
    others = {"CELLAR.TXT": RADON.read_bytes(), "letter.docx": b"PK\3\4" + bytes(60), "cut.job": JOB[:-1]}
    others["long.bin"] = bytes(1_000_001)
    for name, data in others.items():
        (folder / name).write_bytes(data)
    (folder / "link.job").symlink_to("CELLAR.TXT")
    before, wrong = listed(folder), wrong_text(folder)
    for out in (*others, "link.job"):
        for text in (RADON, wrong):
            status, _, said = run("encode", text, folder / out)
            assert status == 1 and said.startswith(f"{folder / out}: ") and "so it was left as it was" in said, said
            assert said.count("\n") == 1
    assert listed(folder) == sorted([*before, "room.txt"])
    assert all((folder / name).read_bytes() == data for name, data in others.items())


@folder_test
def test_read_only(folder):
    job, link = folder / "kept.job", folder / "link.job"
    job.write_bytes(GUIDE)
    job.chmod(0o444)
    link.symlink_to(job)
    for out in (job, link):
        for text in (RADON, wrong_text(folder)):
            status, _, said = run("encode", text, out)
            assert (status, said) == (1, f"{out}: is read-only, so it was left as it was; give the job another name\n")
    assert job.read_bytes() == GUIDE and listed(folder) == ["kept.job", "link.job", "room.txt"]


@folder_test
def test_replaced(folder):
    """A job or a book, and a file with nothing in it."""
    for data in (GUIDE, BOOK, GUIDE[48:], b""):
        (folder / "out").write_bytes(data)
        assert run("encode", RADON, folder / "out")[0] == 0
        assert (folder / "out").read_bytes() == JOB and listed(folder) == ["out"]


@folder_test
def test_set_aside(folder):
    """After a mistake no old job stands where the new one would, so that it cannot be screened in its place."""
    text, job = wrong_text(folder), folder / "room.job"
    for data in (GUIDE, BOOK):
        job.write_bytes(data)
        status, _, said = run("encode", text, job)
        assert status == 1 and said.splitlines() == [
            f"{text}, line 3: rate 0.18: whole hundredths per hour, so 18",
            f"{job}: was there, not of this text, so it is set aside as {job}.old",
        ]
        assert (folder / "room.job.old").read_bytes() == data and listed(folder) == ["room.job.old", "room.txt"]
    assert run("encode", text, job)[2].count("\n") == 1  # nothing is left to set aside
    job.write_bytes(GUIDE)
    assert run("encode", folder / "none.txt", job)[2].endswith(f"{job}.old\n") and not job.exists()


@folder_test
def test_link_set_aside(folder):
    """Of a link only the link: the job that it leads to may be another text's."""
    (folder / "real.job").write_bytes(GUIDE)
    (folder / "link.job").symlink_to("real.job")
    assert run("encode", wrong_text(folder), folder / "link.job")[0] == 1
    assert listed(folder) == ["link.job.old", "real.job", "room.txt"] and (folder / "link.job.old").is_symlink()
    assert (folder / "real.job").read_bytes() == GUIDE


@folder_test
def test_not_set_aside(folder):
    """Another file by that name is not replaced, and the line says that the old job is still there."""
    job, old = folder / "room.job", folder / "room.job.old"
    job.write_bytes(GUIDE)
    old.write_text("a letter")
    status, _, said = run("encode", wrong_text(folder), job)
    assert status == 1 and f"{job}: is the old one, not of this text, and could not be set aside: {old} is there already" in said
    assert job.read_bytes() == GUIDE and old.read_text() == "a letter"


@folder_test
def test_failed_write(folder):
    """A write that fails leaves no half of a job, and sets the old one aside."""
    job = folder / "old.job"
    job.write_bytes(GUIDE)
    limit = lambda: resource.setrlimit(resource.RLIMIT_FSIZE, (16, 16))
    status, _, said = run("encode", RADON, job, preexec_fn=limit)
    assert status == 1 and f"{job}: not written" in said and f"set aside as {job}.old" in said
    assert listed(folder) == ["old.job.old"] and (folder / "old.job.old").read_bytes() == GUIDE
    assert run("encode", RADON, folder / "none" / "x.job")[0] == 1
    assert run("encode", RADON, folder)[0] == 1


@folder_test
def test_old_file_keeps_its_mode(folder):
    job, link = folder / "old.job", folder / "link.job"
    job.write_bytes(GUIDE)
    job.chmod(0o640)
    link.symlink_to(job)
    assert run("encode", RADON, link)[0] == 0
    assert link.is_symlink() and job.stat().st_mode & 0o777 == 0o640
    assert job.read_bytes() == JOB


@folder_test
def test_decode_into_a_file(folder):
    """A new file alone: the text that has the names is not emptied."""
    job, text = RADON.with_suffix(".job"), folder / "mine.txt"
    assert run("decode", "--names", RADON, job, text) == (0, "", f"{text}: wrote the text of {job}\n")
    assert text.read_text() == run("decode", "--names", RADON, job)[1]
    before = text.read_bytes()
    for words in (["--names", text], [], ["--job"]):
        said = f"{text}: is there already, so it was left as it was; give the text another name\n"
        assert run("decode", *words, job, text) == (1, "", said)
    assert text.read_bytes() == before and listed(folder) == ["mine.txt"]
    os.symlink("nowhere", folder / "link.txt")
    assert run("decode", job, folder / "link.txt")[0] == 1
    status, _, said = run("decode", "--names", job, job, folder / "two.txt")
    assert status == 1 and listed(folder) == ["link.txt", "mine.txt"]
    limit = lambda: resource.setrlimit(resource.RLIMIT_FSIZE, (16, 16))
    assert "not written" in run("decode", job, folder / "three.txt", preexec_fn=limit)[2]
    assert run("decode", job, folder / "none" / "x.txt")[0] == 1 and listed(folder) == ["link.txt", "mine.txt"]


@folder_test
def test_emptied_names(folder):
    """`> mine.txt` empties the text before it is read, and the message says so."""
    text = folder / "mine.txt"
    text.write_bytes(b"")
    said = run("decode", "--names", text, RADON.with_suffix(".job"))[2]
    assert said == f"{text}: has no member line; '>' into this file would have emptied it before it was read: give OUT instead\n"
