"""Readings in Bq/L, and groundwater, which is multiplied by 4.34 on its way indoors."""

import math
import pathlib
import random
import re
from fractions import Fraction

import reference
from samples import RADON, changed, example, mistake_of, warned
from textform.encode import encode
from textform.text import read_text
from textform.words import number_of, reading

MANUAL = (pathlib.Path(__file__).resolve().parent / "MANUAL.md").read_text(encoding="ascii")


def of(value, unit):
    """RADON with another reading."""
    return changed("unit pCi/L", f"unit {unit}", changed("value 4.0", f"value {value}"))


def test_becquerels_per_litre():
    """A thousand times as many Bq/m3, which is what the bytes hold."""
    assert encode(of("4.0", "Bq/L").replace("uncertainty 0.5", "uncertainty 0.0625")) == encode(
        of("4_000", "Bq/m3").replace("uncertainty 0.5", "uncertainty 62.5"))
    job = read_text(of("0.3", "Bq/L"))[0]
    assert job.unit == 2 and number_of(job.value) == 300 and number_of(job.uncertainty) == 500
    assert "so Bq/L" in mistake_of(encode, of("4", "Bq / L"))


def test_exactly_a_thousand():
    """The decimal is multiplied exactly, and only then goes up to the next f64 where none holds it."""
    chance = random.Random(7)
    for _ in range(2_000):
        digits, power = chance.randrange(10 ** chance.randrange(1, 18)), chance.randrange(-25, 5)
        bits = reading(f"{digits}e{power}", "value", "Bq/L", 1, 1_000)
        exact = 1_000 * Fraction(f"{digits}e{power}")
        assert number_of(bits) >= exact and (exact == 0 or number_of(bits - 1) < exact), (digits, power)
        assert bits == reading(f"{digits}e{power + 3}", "value", "Bq/m3", 1)
    assert number_of(reading("0.0003", "value", "Bq/L", 1, 1_000)) == Fraction(math.nextafter(0.3, 1)) > Fraction(3, 10)


def test_no_bits_in_litres():
    """The bits are those of the bytes, whose unit is another."""
    assert mistake_of(encode, of("0x4010000000000000", "Bq/L")) == (
        "line 7: value 0x4010000000000000: a decimal number of Bq/L, and no bits")
    assert encode(of("0x4010000000000000", "Bq/m3")) == encode(of("4.0", "Bq/m3"))
    assert mistake_of(encode, of("1e307", "Bq/L")).startswith("line 7: value 1e307: too large")
    assert "one of pCi/L, pCi/m3, Bq/m3, Bq/L" in mistake_of(encode, of("4", "Bq"))


def test_signs_in_litres():
    """A minus survives, so that screen sees it."""
    for word in ("-0", "-0.0003"):
        assert reading(word, "value", "Bq/L", 1, 1_000) >> 63 == 1


def test_groundwater():
    """The manual's worked line is what the reference says, and the example is a thoron workroom."""
    (shown,) = re.findall(r"= ([\d,]+) mBq/m3 in the room", MANUAL)
    worked = re.search(r"(\d+) pCi/L of groundwater at an attenuation of ([\d_]+)", MANUAL)
    water = changed("medium indoor-air", "medium groundwater", of(worked[1], "pCi/L")).replace("uncertainty 0.5", "uncertainty 0")
    said = reference.answer(encode(changed("attenuation 1_000_000", f"attenuation {worked[2]}", water)))
    assert f"concentration {shown.replace(',', '')}\n" in said
    text = example("groundwater")
    job, book = read_text(text)
    assert (job.medium, book.members[0].name, job.adult.years, job.child.years) == (2, "Rn-220", 25, 0)
    assert "unit Bq/L" in text and warned(text) == []
