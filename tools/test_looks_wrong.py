"""Each warning on both sides of its limit, and that none of them is a ground or a note."""

import reference
from samples import RADON, ROOMS, accounted, changed, example, foreseen, noted, warned
from textform.encode import encode
from textform.source_000 import PRINTED, printed_half_life
from textform.text import read_text

SOIL = changed("medium indoor-air", "medium soil-gas")
WATER = changed("medium indoor-air", "medium groundwater")
DOSED = changed("kind risk ", "kind dose ").replace(" weight", " inhalation-dose 5 submersion-dose 0 weight")


def warns(text, *expected):
    """The warnings are these, and the job may be screened all the same."""
    assert warned(text) == list(expected), warned(text)
    assert foreseen(text) == [] and not reference.answer(encode(text)).startswith("refused")


def test_gas_alone():
    alone = accounted(RADON[: RADON.index("member Po-218")].replace("inhalation-risk 0", "inhalation-risk 1"))
    warns(alone, "line 13: Rn-222 stands alone: no daughter is counted")
    assert noted(alone) == []
    warns(RADON)


def test_rate():
    warns(changed("rate 18", "rate 20 per hour"))
    warns(changed("rate 18", "rate 2_001"), "line 1: rate 2_001: 20.01 air changes per hour, more than 20")
    said = "air changes per hour, more than 20; if fan's 'rate {0}' was meant, that is 'rate {1} per hour'"
    warns(changed("rate 18", "rate 90 per hour"), f"line 1: rate 9_000: 90.00 {said.format(90, '0.90')}")
    warns(changed("rate 18", "rate 100_000"), f"line 1: rate 100_000: 1000.00 {said.format(1000, '10.00')}")
    assert encode(changed("rate 18", "rate 0.90 per hour")) == encode(changed("rate 18", "rate 90"))


def test_target():
    for text, most, over, said in (
        (RADON, "1 in 1_000", "1_000_001", "1_000_001 in 1_000_000_000: more than 1 in 1_000"),
        (RADON, "1_000_000", "4 in 1_000", "4 in 1_000: more than 1 in 1_000"),
        (DOSED, "1_000 mrem", "1_000.001 mrem", "1_000.001 mrem: more than 1_000 mrem per year"),
    ):
        warns(changed("target 1_610", f"target {most}", text))
        warns(changed("target 1_610", f"target {over}", text), f"line 5: target {said}")


def test_attenuation():
    for text, usual in ((SOIL, "30_000 for soil-gas"), (WATER, "1_000 for groundwater")):
        warns(changed("attenuation 1_000_000", "attenuation 100", text))
        for number in (99, 0):
            said = f"line 6: attenuation {number}: millionths, and fewer than 100; source 001 has {usual}"
            warns(changed("attenuation 1_000_000", f"attenuation {number}", text), said)


def test_nothing_read():
    """A reading of 0 with an uncertainty may be meant, and so may one without."""
    zero = changed("value 4.0", "value 0")
    warns(zero)
    warns(changed("uncertainty 0.5", "uncertainty 0"))
    said = "line 7: value 0 and uncertainty 0: as if there were no gas, so every room is 'below'"
    warns(changed("uncertainty 0.5", "uncertainty 0.0", zero), said)
    assert reference.answer(encode(changed("uncertainty 0.5", "uncertainty 0", zero.replace("target 1_610", "target 0")))).count("below")


def test_nobody_exposed():
    """Every group that has years has none of something. One that has years and all of it is enough, and so is none with years."""
    said = ": as if nobody breathed here"
    child, adult = "child 350 6 24 10", "adult 350 20 24 20"
    for zeros, part in (
        ("adult 0 20 24 20", "days per year"), ("adult 350 20 0 20", "hours per day"),
        ("adult 350 20 24 0", "m3 breathed per day"),
    ):
        warns(changed(adult, zeros))
        warns(changed(adult, zeros).replace(child, "child 0 0 0 0"), f"line 10: adult, {part}, 0{said}")
        both = changed(adult, zeros).replace(child, "child 350 6 0 10")
        warns(both, f"line 10: child, hours per day, 0; adult, {part}, 0{said}")
    warns(changed(child, "child 0 6 0 0"))
    warns(changed(adult, "adult 0 0 0 0").replace(child, "child 350 6 0 10"), f"line 10: child, hours per day, 0{said}")


def test_nothing_inhaled():
    """The coefficient of the job's kind in one member is enough."""
    warns(DOSED)
    none = changed("inhalation-risk 1000", "inhalation-risk 0")
    warns(none, "line 2: kind risk: every inhalation-risk is 0, so what is breathed does not count")
    zero = "every inhalation-risk and submersion-risk is 0, so every room is 'below'"
    warns(changed("submersion-risk 7", "submersion-risk 0", none), f"line 2: kind risk: {zero}")
    said = "kind dose: every inhalation-dose and submersion-dose is 0, so every room is 'below'"
    warns(DOSED.replace("inhalation-dose 5", "inhalation-dose 0"), f"line 2: {said}")
    assert warned(RADON[: RADON.index("member Rn")]) == []  # no member: screen refuses 10
    assert warned(accounted("divisor 75\nmember half-life 1ns inhalation-risk 0 submersion-risk 0 inhalation-dose 0 "
                            "submersion-dose 0 weight 0")) == ["line 2: member 0 stands alone: no daughter is counted"]


def test_half_life():
    """Up to a hundredth of what source 000 prints is no warning, on either side; a name may be written in other ways."""
    for written, is_wrong in (("3.131m", 0), ("3.069m", 0), ("3.1311m", 1), ("3.0689m", 1), ("3.10h", 1), ("3.10s", 1)):
        found = warned(changed("half-life 3.10m", f"half-life {written}"))
        assert len(found) == is_wrong, (written, found)
    warns(changed("half-life 3.10m", "half-life 3.10h"), "line 14: Po-218: half-life 3.1h, where source 000 prints 3.10m")
    for name in ("Po218", "PO-218", "po218"):
        assert len(warned(changed("3.10m", "3.10h").replace("Po-218", name))) == 1
    assert warned(changed("half-life 3.10m", "half-life 3.10h").replace("Po-218", "Polonium")) == []
    assert len(warned(changed("half-life 26.8m", "half-life 26.8s"))) == 0  # no name
    lead = changed("member half-life 26.8m", "member Pb-210 half-life 22.20m").replace("2\n", "Pb-210\n")
    assert warned(lead) == ["line 15: Pb-210: half-life 22.2m, where source 000 prints 22.20y"]


def test_source_half_lives():
    """The examples' half-lives are those of the list, and years are long ones."""
    seen = set()
    for name in ("radon", "thoron", "actinon"):
        for member in read_text(example(name))[1].members:
            assert printed_half_life(member.name)[1] == member.half_life, member.name
            seen.add(member.name)
    assert len(seen) == 20 and set(PRINTED) - seen == {"Pb-210", "Bi-210", "Hg-206", "Po-210", "Tl-206"}
    assert printed_half_life("Pb-210") == ("22.20y", 700_578_720 * 10**9)
    assert printed_half_life("Ra-226") is None and printed_half_life(None) is None


def test_examples():
    """The two examples that are warned of say so; the others are not."""
    for path in ROOMS:
        expected = {"guide": ["line 15: Rn-222 stands alone: no daughter is counted"],
                    "workroom": ["line 7: target 4 in 1_000: more than 1 in 1_000"]}
        assert warned(path.read_text(encoding="utf-8")) == expected.get(path.stem, []), path.stem
