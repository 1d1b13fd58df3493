"""How many recorded tables from elsewhere there are of each sort (document 02, R-8): those refused, with 24 or beside a ground
of the book, those with every mark and where the first wrong one stands, the entries at an end of their half unit, those whose
half unit is less than a grain, and those that one unit of the last place turns from one mark into another.
"""

import itertools

import reference as ref

WORDS = ("right", "close", "wrong")


# ---- Refused -------------------------------------------------------------------------------------


def is_bad(text, book):
    """Not of the form for the count of members that the book's first byte claims, 1 where there is none."""
    try:
        ref.read_lines(text, book[0] if book else 1)
    except ref.Refused:
        return True
    return False


def refusals(calls, texts):
    def count(number, bad):
        return sum(text == f"refused {number}\n" and is_bad(*call) == bad for call, text in zip(calls, texts))

    counts = {f"refused {number}, and the table is bad": count(number, True) for number in (*range(9, 19), 24)}
    return counts | {"refused 9 to 18, and the table is good": sum(count(number, False) for number in range(9, 19))}


# ---- Answered ------------------------------------------------------------------------------------


def answered(texts):
    """By their counts, and by where the first wrong entry is."""
    answers = [dict(line.split(" ", 1) for line in text.splitlines()) for text in texts if not text.startswith("refused")]

    def count(test):
        return sum(test(int(answer["close"]), int(answer["wrong"]), answer["first"].split()) for answer in answers)

    return {"all right": count(lambda close, wrong, first: close == wrong == 0),
            "some close, none wrong": count(lambda close, wrong, first: close > 0 == wrong),
            "one wrong": count(lambda close, wrong, first: wrong == 1),
            "several wrong": count(lambda close, wrong, first: wrong > 1),
            "some close and some wrong": count(lambda close, wrong, first: close > 0 < wrong),
            "the first wrong on line 1": count(lambda close, wrong, first: first[0] == "1"),
            "the first wrong on a later line": count(lambda close, wrong, first: first[0] not in ("1", "none")),
            "the first wrong the gas": count(lambda close, wrong, first: first[1:] == ["0"]),
            "the first wrong a later member": count(lambda close, wrong, first: first[1:] not in ([], ["0"]))}


def sizes(calls, texts):
    """Of the tables that are answered."""
    both = [(text.count(b"\n"), book[0]) for (text, book), said in zip(calls, texts) if not said.startswith("refused")]
    return {"1 line": sum(lines == 1 for lines, _ in both),
            "several lines": sum(1 < lines < 200 for lines, _ in both),
            "200 lines": sum(lines == 200 for lines, _ in both),
            "gas alone": sum(n == 1 for _, n in both),
            "2 to 15 members": sum(1 < n < 16 for _, n in both),
            "16 members": sum(n == 16 for _, n in both)}


# ---- Entries -------------------------------------------------------------------------------------


def entries_of(text, book_bytes):
    """(the mark, the printed entry, the interval) of each entry of a table that is answered, in grains."""
    book = ref.read_book(book_bytes)
    for line, member, word in ref.marks_call(text, book_bytes):
        v, entries = ref.read_lines(text, book.n)[line - 1]
        yield word, entries[member], *ref.interval(member, ref.reported_factors(v, book)[member])


def of_entries(entries):
    """By mark: all, zero, and a half unit of less than a grain; where it has no whole grain in it too; and both ends of the
    interval at both ends of the half unit."""
    def count(test):
        return sum(test(word, printed, low, high) for word, printed, low, high in entries)

    def least(printed):
        return (printed.share - printed.unit / 2) * ref.G

    def most(printed):
        return (printed.share + printed.unit / 2) * ref.G

    counts = {}
    for mark in WORDS:
        counts[f"entries {mark}"] = count(lambda word, printed, low, high: word == mark)
        counts[f"zeros {mark}"] = count(lambda word, printed, low, high: word == mark and printed.share == 0)
    for mark in ("close", "wrong"):
        counts[f"half units under a grain {mark}"] = count(
            lambda word, printed, low, high: word == mark and printed.unit / 2 * ref.G < 1)
    counts["close without a whole grain"] = count(
        lambda word, printed, low, high: word == "close" and ref.floor(most(printed)) < least(printed))
    return counts | {
        "the upper end is the interval's top": count(
            lambda word, printed, low, high: word == "right" and most(printed) == high),
        "the upper end is the factor": count(lambda word, printed, low, high: word == "close" and most(printed) == low < high),
        "the lower end is the factor": count(lambda word, printed, low, high: word == "right" and least(printed) == low),
        "the lower end is the interval's top": count(
            lambda word, printed, low, high: word == "close" and least(printed) == high > low)}


# ---- Turned --------------------------------------------------------------------------------------


def turned(tables):
    """Two tables one after the other of one book, and in one entry alone another mark: either way about."""
    counts = {f"{a} and {b} by one entry": 0 for a, b in itertools.combinations(WORDS, 2)}
    for (text, book), (next_text, next_book) in zip(tables, tables[1:]):
        if book != next_book or len(text) != len(next_text) or text == next_text:
            continue
        pairs = zip(ref.marks_call(text, book), ref.marks_call(next_text, book))
        changes = [sorted((one.word, other.word), key=WORDS.index) for one, other in pairs if one.word != other.word]
        if len(changes) == 1:
            a, b = changes[0]
            counts[f"{a} and {b} by one entry"] += 1
    return counts


def sorts(calls, texts):
    tables = [call for call, text in zip(calls, texts) if not text.startswith("refused")]
    short = [entry for text, book in tables if len(text) < 10_000 for entry in entries_of(text, book)]
    return refusals(calls, texts) | answered(texts) | sizes(calls, texts) | of_entries(short) | turned(tables)


if __name__ == "__main__":
    print(__doc__)
