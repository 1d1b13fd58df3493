#!/usr/bin/env python3
"""Brings the names of the definitions and laws of every crate to snake case, as today's Rattle spells its own.

usage: tools/respell.py [--list] [FOLDER]     the top of a checkout, . if none is given; --list prints the names alone

A definition, a law, a record's field or a constructor's label that the repository declares in specs/ or proofs/ and whose
name has a capital or a dash inside (`scaleOf`, `at-a-rate`) is spelled with underscores (`scale_of`, `at_a_rate`), and so are
the variables that are listed. Types, modules, the functions of src/, exported names, strings and the names of goals stay. A
name that would fall together with another that the same files use is in the list OTHERWISE. In comments, words with a dash
are plain English and stay; on pages, what stands between backquotes follows. A second run changes nothing.
"""

import os
import re
import sys

# Names that another name, a parameter or a function in the same files has already, and what each is called instead.
OTHERWISE = {
    "amount-grounds": "grounds_of_amount",
    "half-life": "half_life_in_range",
    "inOrder": "feeds_in_order",
    "isBelow": "says_below",
    "minute-at": "minute_is_renewed",
    "not-zero": "never_zero",
    "onceAMinute": "once_a_minute",
    "reading-grounds": "grounds_of_reading",
    "reported-factor": "reported_at",
    "rounded-up": "rounded_up_is_ceiling",
    "sharesOut": "shares_out_of",
}

# Variables of definitions and laws with a capital inside.
VARIABLES = (
    "agedMore", "atRate", "atZero", "eB", "exactHigher", "fedMore", "fedOnes", "fedX", "inflowA", "inflowR", "inflowX",
    "posD", "posE", "posP", "reportedHigher", "scaledInflow", "solvedHigher",
)

NAME = re.compile(r"(?<![\w'’ℕ-])[a-z][\w'ℕ]*(?:-[\w'ℕ]+)*")
DECLARED = [
    re.compile(r"\s*(?:(?:pub|abbrev|unfoldable)\s+)*([a-z][\w'ℕ-]*)\s*:(?!:)(?P<type>.*)"),
    re.compile(r"(?:pub\s+)?ruleset\s+([a-z][\w'ℕ-]*)(?P<type>.*)"),
]


def files(top, endings, below="crates"):
    for folder, folders, names in os.walk(os.path.join(top, below)):
        folders[:] = sorted(f for f in folders if f not in ("out", ".git", "target"))
        for name in sorted(names):
            if name.endswith(endings):
                yield os.path.join(folder, name)


def read(path):
    with open(path, encoding="utf-8") as file:
        return file.read()


def is_goals(path):
    """An answer or an invariant of a function: what it declares has the name of a goal, unless it is a law beside them."""
    folder = os.path.basename(os.path.dirname(path))
    is_layer = folder in ("proofs", "specs") or folder[0].isupper()
    return os.path.basename(path) in ("Answers.antt", "Invariants.antt", "Proof.antt") and not is_layer


def declared(top):
    names = set()
    for path in files(top, (".antt",)):
        for line in read(path).splitlines():
            for form in DECLARED:
                found = form.match(line)
                if found and not (is_goals(path) and re.match(r"\s*goal\b|\s*$|\s*[ic]\.", found["type"])):
                    names.add(found[1])
    return names


def snake(name):
    if name in OTHERWISE:
        return OTHERWISE[name]
    spaced = re.sub(r"(?<=[a-z0-9])(?=[A-Z])", "_", name).replace("-", "_")
    return re.sub(r"[A-Z]", lambda found: found[0].lower(), spaced)


def spelled(top):
    return {name: snake(name) for name in declared(top).union(VARIABLES) if snake(name) != name}


def respell(text, names):
    return NAME.sub(lambda found: names.get(found[0], found[0]), text)


def respell_source(text, names):
    plain = {name: new for name, new in names.items() if "-" not in name}
    lines = []
    for line in text.split("\n"):
        code = re.match(r"(?:(?!--|//).)*", line)[0]
        lines.append(respell(code, names) + respell(line[len(code):], plain))
    return "\n".join(lines)


def respell_page(text, names):
    return re.sub(r"`[^`\n]*`", lambda found: respell(found[0], names), text)


def main(words):
    top = next((word for word in words if not word.startswith("-")), ".")
    names = spelled(top)
    if "--list" in words:
        for name in sorted(names):
            print(name, names[name])
        return
    changed = 0
    sources = [(path, respell_source) for path in files(top, (".antt", ".rt", ".edit"))]
    pages = [(path, respell_page) for path in files(top, (".md",), "")]
    for path, turn in sources + pages:
        old = read(path)
        new = turn(old, names)
        if new != old:
            changed += 1
            with open(path, "w", encoding="utf-8") as file:
                file.write(new)
    print(f"{len(names)} names, {changed} files")


if __name__ == "__main__":
    main(sys.argv[1:])
