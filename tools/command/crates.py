"""The crates of the repository, as crates.txt lists them, and which of them a program is made of."""

from .tool import ROOT

LIST = ROOT / "crates.txt"


def listed():
    """Each crate with the libraries that it uses, those of the toolchain included."""
    uses = {}
    for line in LIST.read_text(encoding="utf-8").splitlines():
        head, colon, libraries = line.split("#")[0].partition(":")
        if colon:
            uses[head.split()[0]] = libraries.split()
    return uses


def below(names):
    """The crates that the named ones are made of, each after those that it uses itself, and the named ones last."""
    uses, order = listed(), []

    def take(name):
        if name in order or name not in uses:
            return
        for library in uses[name]:
            take(library)
        order.append(name)

    for name in names:
        take(name)
    return [name for name in order if name not in names] + list(names)


def sources(name):
    """The files that a crate's proof and its program are made from."""
    for folder in ("src", "specs", "proofs"):
        yield from (path for path in (ROOT / "crates" / name / folder).rglob("*") if path.is_file())
