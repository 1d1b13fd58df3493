"""The documents: the README and the notes are as short as they are to be, each link leads somewhere, the page on refusals has
the sentences of the one list, that on the parts a row for each crate, that on openings the grains that are left at rest, and
the decisions no name that is gone.

    test_documents.py
"""

import pathlib
import re
import sys

from plain_help import answer_help
from tally import run_tests, say_passed

ROOT = pathlib.Path(__file__).resolve().parents[2]
sys.path.insert(0, str(ROOT / "tools"))

import reference as ref  # noqa: E402
from textform import grounds  # noqa: E402

MOST_LINES = 150  # of the README
MOST_WORDS = 500  # of a note
NOTES = ("R-1", "R-2", "R-3", "R-4", "R-5", "R-6", "R-7", "R-8", "R-9", "house")
PAGES = [ROOT / "README.md", *sorted((ROOT / "docs").glob("*.md")), *sorted((ROOT / "docs" / "changes").glob("*.md"))]
LINK = re.compile(r"\]\(([^)\s]+)\)")
HEADING = re.compile(r"^#+ (.*)$", re.MULTILINE)


def text_of(path):
    return path.read_text(encoding="utf-8")


def anchor(heading):
    """What a page of this repository is linked by: small letters, hyphens for spaces, and no other signs."""
    return re.sub(r"[^\w\- ]", "", heading.casefold()).replace(" ", "-")


def anchors(path):
    return {anchor(heading) for heading in HEADING.findall(text_of(path))}


def leads_nowhere(page, link):
    """A link to a file or a place that is not there; those to the outside are not followed."""
    if "://" in link:
        return False
    name, _, place = link.partition("#")
    path = page.parent / name if name else page
    return not path.exists() or (place != "" and place not in anchors(path))


def test_links():
    wrong = [(page.name, link) for page in PAGES for link in LINK.findall(text_of(page)) if leads_nowhere(page, link)]
    assert not wrong, wrong


def test_a_wrong_link_is_seen():
    page = ROOT / "README.md"
    assert leads_nowhere(page, "docs/none.md") and leads_nowhere(page, "docs/SCOPE.md#none") and leads_nowhere(page, "#none")
    assert not leads_nowhere(page, "docs/SCOPE.md#the-balance")


def test_readme_is_short():
    assert len(text_of(ROOT / "README.md").splitlines()) <= MOST_LINES


def test_notes_are_short():
    words = {name: len(text_of(ROOT / "docs" / "changes" / f"{name}.md").split()) for name in NOTES}
    assert max(words.values()) <= MOST_WORDS, words


def test_refusals():
    """The page has the table of the one list, whole and as it is; its numbers have no gap."""
    assert grounds.table() in text_of(ROOT / "docs" / "REFUSALS.md"), grounds.table()
    assert list(grounds.GROUNDS) == list(range(1, len(grounds.GROUNDS) + 1))


def test_crates():
    """The page on the parts has a row for each crate, and for nothing else."""
    listed = [line.split(":")[0].split()[0] for line in text_of(ROOT / "crates.txt").splitlines() if line and not line.startswith("#")]
    rows = [line.split("|")[1] for line in text_of(ROOT / "docs" / "CRATES.md").splitlines() if line.startswith("| `")]
    assert sorted(name for row in rows for name in re.findall(r"`(\w+)`", row)) == sorted(listed)


def words_of_the_tree():
    """Every name in the code, the definitions, the proofs, the tools and the tests."""
    names = set()
    for folder in ("crates", "bindings", "tools", "examples", "docs/src", ".ci"):
        for path in (ROOT / folder).rglob("*"):
            if path.is_file() and "out" not in path.parts and path.suffix not in (".job", ".book"):
                names.update(re.findall(r"\w+", path.read_text(encoding="utf-8", errors="replace")))
    return names


def names_in(page):
    """The names that a page quotes; what a check prints, with its equals signs, and its sums are none."""
    quoted = [text for text in re.findall(r"`([^`]+)`", text_of(ROOT / "docs" / page)) if "=" not in text]
    return {name for text in quoted for name in re.findall(r"[A-Za-z]\w{3,}", text) if not re.fullmatch(r"[0-9a-f]{16}", name)}


def test_nothing_stale():
    """Every name that the decisions and the page on checking speak of is there."""
    there = words_of_the_tree()
    for page in ("DECISIONS.md", "CHECKING.md"):
        assert names_in(page) and not names_in(page) - there, (page, names_in(page) - there)


def test_scope_of_the_parent():
    """Demand 3 in our own words keeps what document 01 has of the parent's factor: there is no "less than 2i" for it."""
    assert "the parent's equals it" in " ".join(text_of(ROOT / "docs" / "SCOPE.md").split())


def told(page):
    """A page's own words, without what it shows a program to write."""
    return "".join(line for line in text_of(page).splitlines(keepends=True) if not line.startswith("    "))


def test_sentences_stand_once():
    """No other page has a sentence of the list in its own words."""
    for page in PAGES:
        if page.name != "REFUSALS.md":
            again = [sentence for sentence, _ in grounds.GROUNDS.values() if sentence in told(page)]
            assert not again, (page.name, again)


def at_rest(book):
    """The factors of a shut room when nothing changes any more, and after how many minutes that is."""
    before, minutes = None, -1
    factors = ref.shut_room(book)
    while factors != before:
        before, factors, minutes = factors, ref.minute_later(0, book, factors), minutes + 1
    return factors, minutes


def test_grains_at_rest():
    """What the page on openings says of the radon example at rest, against the exact steady factors and the reported ones."""
    book = ref.read_book((ROOT / "examples" / "radon.book").read_bytes())
    factors, minutes = at_rest(book)
    exact = [float(share * ref.G - factor) for share, factor in zip(ref.exact_factors(0, book), factors)]
    reported = [steady - factor for steady, factor in zip(ref.reported_factors(0, book), factors)]
    assert max(exact) == exact[6] and max(reported) == reported[6]  # Po-214
    page = " ".join(text_of(ROOT / "docs" / "OPENING.md").split())
    assert f"nothing changes any more after {minutes:,} minutes, and Po-214 then has the most to go, {exact[6]:.1f} grains" in page
    assert f"it is {reported[6]}.)" in page


def main():
    answer_help(__doc__)
    say_passed(run_tests(globals()))


if __name__ == "__main__":
    main()
