"""What the text tool says of slips that people make: a name with a space, a unit left out, a size far off, an empty text."""

from samples import RADON, accounted, changed, example, mistake_of
from textform import remarks
from textform.decode import decode
from textform.encode import encode
from textform.half_life import half_life, half_life_text
from textform.text import read_text


def test_cubic_metres():
    """A unit may be written with the small raised 3."""
    for unit in ("Bq/m", "pCi/m"):
        plain, raised = (changed("unit pCi/L", f"unit {unit}{three}") for three in ("3", "\u00b3"))
        assert encode(plain) == encode(raised) != encode(RADON)


def test_names_with_a_space():
    said = "a name is one word, without a space, so Pb-214"
    radon = example("radon")
    for text, line, part in (
        (changed("member Pb-214 ", "member Pb 214 ", radon), 18, "member Pb 214"),
        (changed("from Pb-214 into", "from Pb 214 into", radon), 28, "feed 100_000 from Pb 214 into Bi-214"),
        (changed("from Po-218 into Pb-214", "from Po-218 into Pb 214", radon), 26, "feed 99_980 from Po-218 into Pb 214"),
        (changed("ends 100_000 from Tl-210", "ends 100_000 from Pb 214", radon), 35, "ends 100_000 from Pb 214"),
    ):
        assert mistake_of(encode, text) == f"line {line}: {part}: {said}"
    assert "no halflife" in mistake_of(encode, changed("member Po-218 half-life", "member Po-218 halflife"))
    assert "a feed line is" in mistake_of(encode, changed("into 2", "to 2"))


def test_half_life_without_a_unit():
    said = "its unit is missing, ns, us, ms, s, m (minutes), h or d, without a space, such as"
    assert mistake_of(encode, changed("26.8m", "26.8")) == f"line 15: half-life 26.8: {said} 26.8m"
    assert mistake_of(encode, changed("26.8m", "1e3")) == f"line 15: half-life 1e3: {said} 1e3m"
    assert half_life("299ns", 1) == 299


def test_half_lives_come_back():
    """In the largest unit that says them in few digits, and exactly."""
    for word in ("3.8235d", "3.1m", "26.8m", "1.5s", "35ms", "164.3us", "299ns", "10.64h", "60.55m", "1d", "0ns"):
        assert half_life_text(half_life(word, 1)) == word
    for number in (1, 999, 1_001, 10**15, 10**15 - 1, 2**64 - 1, 86_400 * 10**9 - 1, 60_000 * 10**9):
        assert half_life(half_life_text(number), 1) == number
    assert "member 1\n" in decode(encode(RADON)) and "member half-life 3.1m " in decode(encode(RADON))


def test_empty():
    for text in ("", "\n\n", "# only a comment\n"):
        assert mistake_of(read_text, text).startswith("line 0: the text is empty: no line of it says anything")
    assert "no line for divisor" in mistake_of(read_text, "member half-life 1ns")


def test_far_too_large():
    """A reading over the limit: by how much, and the most in its own unit; one that no f64 holds is told apart."""
    def said(value, unit="pCi/L"):
        (found,) = remarks.grounds(*read_text(changed("unit pCi/L", f"unit {unit}", changed("value 4.0", f"value {value}"))))
        return found.said

    assert said("1e308") == "value, 3.7E+312 mBq/m3: too large; at most 4,000,000,000, which is 108,108 pCi/L"
    assert said("108_108.2") == "value, 4,000,003,401 mBq/m3: too large; at most 4,000,000,000, which is 108,108 pCi/L"
    assert said("1e8", "Bq/m3").endswith("at most 4,000,000,000, which is 4,000,000 Bq/m3")
    found = mistake_of(encode, changed("value 4.0", "value 1e309"))
    assert found == "line 7: value 1e309: too large: no f64 holds it, and screen takes far less"
    water = changed("medium indoor-air", "medium groundwater", changed("value 4.0", "value 100_000"))
    (found,) = remarks.grounds(*read_text(water))
    assert found.said == "indoors, 16,058,080,290 mBq/m3: too large; at most 4,000,000,000"


def test_accounted_texts_are_read():
    """The tests' own helper changes nothing but the lines of shares that end."""
    assert encode(accounted(RADON)) == encode(RADON)
