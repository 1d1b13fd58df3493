"""The target: plain in the bytes' unit, or with a unit of its own, which must fit the kind.

A plain number means a thousand times as much, or as little, once the line `kind` alone is changed. One with its unit
is refused then.
"""

from math import floor

from .words import Mistake, WHOLE, exact, fitting, hint, shown

KINDS = ("risk", "dose")
RISK, DOSE = 0, 1
SCALES = (10**9, 10**3)  # billionths of risk, thousandths of a mrem per year
WHOLES = ("whole billionths of risk", "whole thousandths of mrem per year")
FORMS = ("'1 in 10_000'", "'100 mrem'")


def target_of(words, kind, line):
    """The number that the bytes hold: exactly what is said, or a mistake."""
    said = f"target {shown(' '.join(words))}"
    if len(words) == 1:
        return plain(words[0], kind, line)
    meant, amount = amount_of(words, line)
    if amount is None:
        commas = hint(" ".join(words), None, None)
        raise Mistake(f"{said}: a plain number, or with its unit such as {' or '.join(FORMS)}{commas}", line)
    if meant != kind:
        raise Mistake(f"{said}: is a target for {KINDS[meant]}, but {other_kind(kind)}", line)
    scaled = amount * SCALES[kind]
    if scaled.denominator != 1:
        nearest = " or ".join(target_text(floor(scaled) + more, kind) for more in (0, 1))
        raise Mistake(f"{said}: {WHOLES[kind]}, so {nearest}; the lower one is the stricter", line)
    return fitting(int(scaled), 4, f"{said}: {WHOLES[kind]}", line)


def other_kind(kind):
    if kind >= len(KINDS):
        return f"the kind is {kind}, which has no unit: write a plain number"
    return f"the kind is {KINDS[kind]}, whose target is such as {FORMS[kind]}"


def plain(word, kind, line):
    """A whole number in the unit of the bytes."""
    number = exact(word, "target", line)
    if kind < len(KINDS):
        expected, scale, form = WHOLES[kind], SCALES[kind], f", or with its unit such as {FORMS[kind]}"
    else:
        expected, scale, form = " or ".join(WHOLES), None, ""
    if number is None or not WHOLE.match(word):
        raise Mistake(f"target {shown(word)}: {expected}{hint(word, number, scale)}{form}", line)
    return fitting(int(number), 4, f"target {word}: {expected}", line)


def amount_of(words, line):
    """What `4 in 1_000` or `100 mrem` says: the kind that it is of, and the risk or the mrem; None where it says none."""
    if len(words) == 3 and words[1] == "in":
        cases, of = (exact(word, "target", line) for word in words[0::2])
        return RISK, cases / of if cases is not None and of else None
    if words[1:] in (["mrem"], ["mrem", "per", "year"]):
        return DOSE, exact(words[0], "target", line)
    return None, None


def target_text(target, kind):
    """The target with its unit: `4 in 1_000`, `6.195 mrem`."""
    if kind == RISK:
        zeros = max(k for k in range(10) if target % 10**k == 0)
        return f"{target // 10**zeros:_} in {10 ** (9 - zeros):_}"
    if kind == DOSE:
        thousandths = f".{target % 1_000:03}".rstrip("0").rstrip(".")
        return f"{target // 1_000:_}{thousandths} mrem"
    return str(target)
