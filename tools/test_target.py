"""A target with its unit: exactly what it says, and only for its kind."""

from samples import RADON, ROOMS, changed, mistake_of
from textform.decode import decode
from textform.encode import encode
from textform.target import target_of, target_text

DOSED = changed("kind risk ", "kind dose ").replace(" weight", " inhalation-dose 5 submersion-dose 0 weight")


def test_units():
    for said, kind, number in (
        ("4 in 1_000", 0, 4_000_000), ("1 in 250", 0, 4_000_000), ("1 in 1", 0, 10**9), ("0 in 7", 0, 0),
        ("0.5 in 10_000", 0, 50_000), ("1e-3 in 1", 0, 10**6),
        ("3 in 3_000_000_000", 0, 1), ("4_294_967_295 in 1_000_000_000", 0, 2**32 - 1),
        ("100 mrem", 1, 100_000), ("6.195 mrem", 1, 6_195), ("0.001 mrem per year", 1, 1), ("12 mrem per year", 1, 12_000),
        ("1_610", 0, 1_610), ("1_610", 1, 1_610), ("7", 2, 7),
    ):
        assert target_of(said.split(), kind, 1) == number, said


def test_changed_kind():
    """The line `kind` alone changed: the number stays, so its unit tells."""
    risk, dose = changed("target 1_610", "target 4 in 1_000"), changed("target 1_610", "target 100 mrem", DOSED)
    assert encode(risk)[8:12] == (4_000_000).to_bytes(4, "little") and encode(dose)[8:12] == (100_000).to_bytes(4, "little")
    said = "target 4 in 1_000: is a target for risk, but the kind is dose, whose target is such as '100 mrem'"
    assert mistake_of(encode, risk.replace("kind risk", "kind dose")) == f"line 5: {said}"
    said = "target 100 mrem: is a target for dose, but the kind is risk, whose target is such as '1 in 10_000'"
    assert mistake_of(encode, dose.replace("kind dose", "kind risk")) == f"line 5: {said}"
    said = "target 100 mrem: is a target for dose, but the kind is 2, which has no unit: write a plain number"
    assert mistake_of(encode, dose.replace("kind dose", "kind 2")) == f"line 5: {said}"


def test_refused():
    forms = ": a plain number, or with its unit such as '1 in 10_000' or '100 mrem'"
    for said, kind, part in (
        ("1 in 7", 0, ": whole billionths of risk, so 142_857_142 in 1_000_000_000 or 142_857_143 in 1_000_000_000; the lower"),
        ("0.0005 mrem", 1, ": whole thousandths of mrem per year, so 0 mrem or 0.001 mrem; the lower one is the stricter"),
        ("5 in 1", 0, ": whole billionths of risk, at most 4,294,967,295"),
        ("1e-4", 0, ": whole billionths of risk, so 100000, or with its unit such as '1 in 10_000'"),
        ("0.1", 1, ": whole thousandths of mrem per year, so 100, or with its unit such as '100 mrem'"),
        ("4.5", 2, ": whole billionths of risk or whole thousandths of mrem per year"),
        *((said, 0, forms) for said in ("1 in 0", "1 in x", "one in 250", "1 in", "in 250", "1 of 250", "1 in 250 000")),
        *((said, 1, forms) for said in ("x mrem", "10 mSv", "10 mrem per month", "-1 mrem")),
        *((said, kind, f"{forms}, without commas") for said, kind in (("4 in 1,000", 0), ("1,000 mrem", 1))),
    ):
        assert mistake_of(target_of, said.split(), kind, 9).startswith(f"line 9: target {said}{part}"), said


def test_comes_back():
    """decode writes the unit, so that a decoded text is safe from the same slip."""
    for number in (0, 1, 10, 1_000, 1_610, 4_000_000, 10**9, 10**9 + 1, 2**32 - 1):
        for kind in (0, 1, 2):
            assert target_of(target_text(number, kind).split(), kind, 1) == number
    assert [target_text(4_000_000, kind) for kind in (0, 1, 2)] == ["4 in 1_000", "4_000 mrem", "4000000"]
    assert [target_text(6_195, kind) for kind in (0, 1)] == ["6_195 in 1_000_000_000", "6.195 mrem"]
    assert "target 161 in 100_000_000\n" in decode(encode(RADON))


def test_examples():
    """Every example's target carries its unit."""
    for path in ROOMS:
        (line,) = [line.split("#")[0] for line in path.read_text(encoding="utf-8").splitlines() if line.startswith("target")]
        assert " in " in line or " mrem" in line, path.stem
