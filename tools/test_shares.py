"""The shares out of each member: none goes unsaid, and the bytes are what they would be without the lines that say so."""

from samples import EXAMPLES, RADON, ROOMS, accounted, changed, example, foreseen, mistake_of, noted
from textform.decode import decode
from textform.encode import encode


NAMES = [path.stem for path in ROOMS]
NEXT = "look at its feed lines; shares that nothing in the chain follows are 'ends {} from {}'"


def test_missing_and_surplus():
    """A forgotten feed, a mistyped share, and shares said twice, each with the member's line and by how many."""
    radon = example("radon")
    for text, member, found in (
        (changed("feed 100_000 from Pb-214 into Bi-214\n", "", radon), "line 18: Pb-214", "0 of 100,000, 100,000 missing"),
        (changed("feed 100_000 from Rn-222", "feed 100 from Rn-222"), "line 13: Rn-222", "100 of 100,000, 99,900 missing"),
        (changed("ends 100_000 from Tl-210\n", "", radon), "line 23: Tl-210", "0 of 100,000, 100,000 missing"),
        (changed("ends 20", "ends 19"), "line 14: Po-218", "99,999 of 100,000, 1 missing"),
        (changed("ends 20", "ends 21"), "line 14: Po-218", "100,001 of 100,000, which is 1 too many"),
        (changed("feed 99_980", "feed 100_000"), "line 14: Po-218", "100,020 of 100,000, which is 20 too many"),
        (changed("ends 100_000 from 2\n", ""), "line 15: member 2", "0 of 100,000, 100,000 missing"),
        (RADON + "ends 1 from Rn-222\n", "line 13: Rn-222", "100,001 of 100,000, which is 1 too many"),
    ):
        assert mistake_of(encode, text).startswith(f"{member}: its shares out add up to {found}"), mistake_of(encode, text)


def test_what_to_write():
    """A missing share's message shows the line for shares that end, all of those that no feed carries."""
    for text, name, share in (
        (changed("ends 20", "ends 19"), "Po-218", "20"),
        (changed("ends 100_000 from 2\n", ""), "2", "100_000"),
    ):
        assert mistake_of(encode, text).endswith(f" missing: {NEXT.format(share, name)}")


def test_lines():
    for line, part in (
        ("ends 20", "ends 20: the line is ends SHARE from MEMBER"),
        ("ends 20 into 2", "ends 20 into 2: the line is ends SHARE from MEMBER"),
        ("surplus 20 from 2 into 3", "surplus 20 from 2 into 3: the line is surplus SHARE from MEMBER"),
        ("ends 0 from 2", "ends 0: leave the line out"),
        ("ends 0.5 from 2", "ends 0.5: whole hundred-thousandths, so 50000"),
        ("ends 1 from Po-212", "from Po-212: no member line has this name"),
        ("ends 1 from 3", "from 3: the members are 0 to 2"),
        ("ends", "ends : the line is ends SHARE from MEMBER"),
    ):
        assert mistake_of(encode, changed("ends 20 from Po-218", line)) == f"line 18: {part}"


def test_parts_add_up():
    """Any parts will do that make the whole, and the bytes do not hold the lines."""
    for parts in ("ends 20 from Po-218\n", "ends 7 from Po-218\nends 13 from 1\n"):
        assert encode(changed("ends 20 from Po-218\n", parts)) == encode(RADON)
    for name in NAMES:
        assert encode(example(name)) == (EXAMPLES / f"{name}.job").read_bytes(), name


def test_surplus():
    """Bytes with over 100,000 out of a member have a text too, which screen refuses (18); no other text may say surplus."""
    over = RADON + "feed 21 from Po-218 into 2\n"
    text = accounted(over)
    assert text.endswith("surplus 1 from Po-218\nends 100000 from 2") and foreseen(text) == [(18, 18)]
    assert mistake_of(encode, over).endswith("add up to 100,021 of 100,000, which is 21 too many")
    back = decode(encode(text))
    assert "surplus 1 from 1\nends 100000 from 2\n" in back and encode(back) == encode(text)
    for line, part in (("surplus 1 from Rn-222", "99,999 of 100,000, 1 missing: its feeds carry no such surplus"),
                       ("surplus 1 from Po-218", "its shares cannot both end and be too many")):
        assert part in mistake_of(encode, RADON + line)


def ends_of(text):
    """The members that end as a whole."""
    lines = [line.split("#")[0].replace("_", "") for line in text.splitlines()]
    return [line.split()[3] for line in lines if line.startswith("ends 100000 from")]


def test_decoded():
    """A book's text says what ends, by name where there are names, and is a text again."""
    for name in NAMES:
        job = (EXAMPLES / f"{name}.job").read_bytes()
        named = decode(job, None, example(name))
        assert ends_of(named) == ends_of(example(name)) != []
        assert encode(named) == encode(decode(job)) == job


def test_notes():
    """Ends that end the chain need no note; others get one at their line."""
    for name in NAMES:
        assert noted(example(name)) == [], name
    assert noted(RADON) == ["line 18: ends 20 from Po-218: nothing follows them, and the chain goes on from Po-218"]
    forgotten = accounted(changed("feed 100_000 from Pb-214 into Bi-214\n", "", example("radon")))
    (said,) = noted(forgotten)
    assert said.endswith(": ends 100,000 from Pb-214: nothing follows them, and the chain goes on from Rn-218")
