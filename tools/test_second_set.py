"""The text of a second set: its bytes in the order of a chain, and what is refused of it, each with its line."""

import struct

from samples import RADON, changed, mistake_of
from textform.chain import COEFFICIENTS
from textform.encode import book_bytes
from textform.looks_wrong import warnings
from textform.remarks import MOST
from textform.said import said_of_set
from textform.second_set import LONGEST_NAME, read_set, set_bytes, with_set
from textform.text import read_text

NAMED = changed("member half-life 26.8m", "member Pb-214 half-life 26.8m")
JOB, BOOK = read_text(NAMED)
SET = """\
# A sample
set Advisers & Sons,  list of March   # their second

member Pb-214 weight 5 submersion-dose 4 inhalation-dose 3 submersion-risk 2 inhalation-risk 1
member Rn-222 inhalation-risk 6 submersion-risk 7 inhalation-dose 8 submersion-dose 9 weight 1_0
member Po-218 inhalation-risk 4_000_000_000 submersion-risk 0 inhalation-dose 0 submersion-dose 0 weight 0
"""
NUMBERS = (6, 7, 8, 9, 10, MOST, 0, 0, 0, 0, 1, 2, 3, 4, 5)


def of_set(old="", new="", book=BOOK):
    """The bytes of the set with a part replaced."""
    return set_bytes(read_set(changed(old, new, SET) if old else SET), book)


def test_bytes():
    """Lines and words in any order, the numbers in the chain's own and in that of a member record."""
    assert of_set() == struct.pack("<15I", *NUMBERS)
    for text in (SET, SET.replace("\n", "\r\n"), SET.replace("\n", "\r"), "\n".join(reversed(SET.splitlines()))):
        assert set_bytes(read_set(text), BOOK) == struct.pack("<15I", *NUMBERS)
        assert read_set(text).name == "Advisers & Sons, list of March"


def test_with_set():
    """The book with the set has its numbers, and its own of everything else."""
    own, other = book_bytes(BOOK), book_bytes(with_set(read_set(SET), BOOK))
    for i in range(3):
        at = 8 + 32 * i + 8
        own = own[:at] + of_set()[20 * i :][:20] + own[at + 20 :]
    assert other == own != book_bytes(BOOK)


def test_mistakes():
    """Each with its line; what is forgotten as a whole has none."""
    lead = "member Pb-214 weight 5 submersion-dose 4 inhalation-dose 3 submersion-risk 2 inhalation-risk 1\n"
    title = "set Advisers & Sons,  list of March   # their second\n"
    for old, new, line, said in (
        (title, "", 0, "no line 'set NAME' says whose coefficients they are"),
        (title, "set\n", 2, "set: no name stands after it"),
        (title, "set # a name\n", 2, "set: no name stands after it"),
        (title, title + "set Others\n", 3, "set: was already given in line 2"),
        (title, f"set {'x' * LONGEST_NAME}x\n", 2, f"a name has at most {LONGEST_NAME} characters"),
        (title, "set Advisers\x1b[2J\n", 2, "set Advisers\\x1b[2J: the name has a sign that cannot be shown"),
        (title, "set a\u202eb\n", 2, "set a\\u202eb: the name has a sign that cannot be shown"),
        (title, title + "rate 18\n", 3, "a line of a set starts with set or member, not with rate"),
        (title, title + "divisor 1_000\n", 3, "a line of a set starts with set or member, not with divisor"),
        (title, title + "Set Others\n", 3, "a line of a set starts with set or member, not with Set"),
        (lead, "", 0, "no line for member Pb-214, which the room's chain has"),
        (lead, lead + lead, 5, "member Pb-214: there is one already, in line 4"),
        (lead, lead + lead.replace("Pb-214", "Bi-214"), 5, "member Bi-214: the room's chain has no such name; it has Rn-222, Po-218"),
        (lead, lead.replace("Pb-214", "pb-214"), 4, "member pb-214: the room's chain has no such name"),
        (lead, lead.replace("Pb-214", "Pb 214"), 4, "member Pb 214: a name is one word, without a space, so Pb-214"),
        (lead, lead.replace("Pb-214 ", ""), 4, "member: its name is missing, as the room's text has it"),
        (lead, lead.replace("Pb-214", "2"), 4, "member 2: a name is a letter"),
        ("Rn-222", "Rn-222 half-life 3.8235d", 5, "half-life: is the room's, and no set changes it, so leave it out"),
        ("member Rn-222", "member half-life 3.8235d", 5, "half-life: is the room's"),
        ("weight 1_0", "weight 1_0 weight 1_0", 5, "weight: is given twice"),
        ("weight 1_0", "weight", 5, "weight: no number stands after it"),
        ("weight 1_0", "weight 10.5", 5, "weight 10.5: whole alpha energy weight"),
        ("weight 1_0", "weight -1", 5, "weight -1: whole alpha energy weight"),
        ("weight 1_0", "weight 1,0", 5, "weight 1,0: whole alpha energy weight, such as ten-thousandths of MeV, without commas"),
        ("weight 1_0", "weight 1e3", 5, "weight 1e3: whole alpha energy weight"),
        ("weight 1_0", "wieght 1_0", 5, "a member has inhalation-risk, submersion-risk, inhalation-dose, submersion-dose, weight, each"),
        ("4_000_000_000", "4_000_000_001", 6, "Po-218, inhalation-risk 4000000001: at most 4,000,000,000"),
        ("4_000_000_000", "4_294_967_296", 6, "inhalation-risk 4_294_967_296: whole 10^-17 per pCi, at most"),
        *((f"{word} {number}", "", 5, f"Rn-222 has no {word} (") for word, number in zip(COEFFICIENTS, (6, 7, 8, 9, "1_0"))),
    ):
        found = mistake_of(of_set, old, new)
        assert found.startswith(f"line {line}: ") and said in found, found
    assert mistake_of(read_set, "") == "line 0: no line 'set NAME' says whose coefficients they are"


def test_largest_numbers():
    """The limit itself in every place, and one more in none."""
    for word, number in zip(COEFFICIENTS, (6, 7, 8, 9, "1_0")):
        assert struct.pack("<I", MOST) in of_set(f"{word} {number}", f"{word} {MOST}")[:20]
        assert f"{word} {MOST + 1}: at most" in mistake_of(of_set, f"{word} {number}", f"{word} {MOST + 1}")


def test_member_without_a_name():
    """No line of a set can be meant for it, by its number neither."""
    book = read_text(RADON)[1]
    assert mistake_of(set_bytes, read_set(SET), book) == (
        "line 0: member 2 of the room's chain has no name, so no line of a set can be meant for it")


def test_exchanged():
    """A room's text, or a book's, in the place of a set, and a set in the place of a room's, whatever else is wrong with them."""
    said = "this looks like a room's text, and not like a set of coefficients"
    assert mistake_of(read_set, NAMED) == f"line 1: {said}"
    assert mistake_of(read_set, NAMED[NAMED.index("divisor") :]) == f"line 1: {said}"
    assert mistake_of(read_set, NAMED[NAMED.index("member") :]) == f"line 4: {said}"
    said = "this looks like a set of coefficients, and not like a room's text"
    assert mistake_of(read_text, SET) == f"line 2: {said}"
    assert mistake_of(read_text, SET + "mumble\n") == f"line 2: {said}"
    assert "not with set" in mistake_of(read_text, NAMED + "set Advisers\n")


def test_warnings():
    """The coefficients of the job's kind that are 0 in every member are told of a set as of a book, and no others."""
    assert said_of_set(JOB, BOOK, read_set(SET)) == []
    text = SET.replace("inhalation-risk 1\n", "inhalation-risk 0\n").replace("inhalation-risk 6", "inhalation-risk 0")
    text = text.replace("4_000_000_000", "0")
    for change, said in ((("", ""), "every inhalation-risk is 0, so what is breathed does not count"),
                         (("submersion-risk 2", "submersion-risk 0"), None),
                         (("submersion-risk 7", "submersion-risk 0"), "every inhalation-risk and submersion-risk is 0")):
        text = text.replace(*change) if change[0] else text
        found = [line.whole("partner.txt") for line in said_of_set(JOB, BOOK, read_set(text))]
        assert len(found) == 1 and found[0].startswith(f"partner.txt: warning: kind risk: {said or 'every inhalation-risk is 0'}")
    assert [remark.said for remark in warnings(JOB, with_set(read_set(text), BOOK))] == [found[0].partition("warning: ")[2]]
    assert said_of_set(JOB._replace(kind=1), BOOK, read_set(text)) == []
