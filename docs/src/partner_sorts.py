"""How many recorded second sets there are of each sort (document 02, R-7): those refused, with 23 or beside another ground,
those at an edge of the lengths or the numbers, and those that change the verdict, the rate, the level or the working levels
of the same job.
"""

import itertools

import reference as ref

# The verdict with the book's own numbers, and another with the set's.
TURNS = list(itertools.permutations(("below", "close", "above"), 2))


# ---- Refused -------------------------------------------------------------------------------------


def members_of(job):
    """The first byte of the book, or 0 where there is none."""
    return job[48] if len(job) > 48 else 0


def numbers_of(second):
    return [int.from_bytes(second[at : at + 4], "little") for at in range(0, len(second) - 3, 4)]


def is_bad(second, job):
    """Lent and out of range."""
    return second != ref.NOT_LENT and (len(second) != 20 * members_of(job) or max(numbers_of(second)) > ref.MOST)


def refusals(calls, texts):
    def count(number, bad):
        return sum(text == f"refused {number}\n" and is_bad(*call) == bad for call, text in zip(calls, texts))

    counts = {f"refused {number}, and the set is bad": count(number, True) for number in (*range(1, 19), 23)}
    return counts | {"refused 13, and the set is good": count(13, False)}


# ---- At the edge ---------------------------------------------------------------------------------


def edges(calls, texts):
    """Of the lengths and of the numbers in the first and the last place."""
    def count(begins, test):
        return sum(text.startswith(begins) and test(second, members_of(job)) for (second, job), text in zip(calls, texts))

    counts = {"no bytes": count("set 1", lambda second, n: second == ref.NOT_LENT),
              "20 n bytes": count("set 2", lambda second, n: len(second) == 20 * n),
              "1 byte": count("refused 23", lambda second, n: len(second) == 1),
              "20 n - 1 bytes": count("refused 23", lambda second, n: len(second) == 20 * n - 1),
              "20 n + 1 bytes": count("refused 23", lambda second, n: len(second) == 20 * n + 1)}
    for name, place in (("first", 0), ("last", -1)):
        for number, begins in ((ref.MOST, "set 2"), (ref.MOST + 1, "refused 23")):
            counts[f"{number:,} in the {name} place"] = count(
                begins, lambda second, n: len(second) == 20 * n and numbers_of(second)[place] == number)
    return counts


# ---- What a set changes --------------------------------------------------------------------------


def said(text):
    """The words of an answer, without its factors."""
    return dict(line.split() for line in text.splitlines() if not line.startswith("factor"))


def own_bytes(job):
    """The book's own numbers as a second set."""
    return b"".join(job[64 + 32 * i : 84 + 32 * i] for i in range(members_of(job)))


def turned(pairs):
    """The verdicts, and what is none with one of the two sets, or another number."""
    def count(word, test):
        return sum(test(own[word], used[word]) for own, used in pairs)

    counts = {f"'{a}' turned into '{b}'": count("verdict", lambda own, used: (own, used) == (a, b)) for a, b in TURNS}
    for word in ("rate", "equilibrium"):
        counts[f"{word} none with the set alone"] = count(word, lambda own, used: own != "none" and used == "none")
        counts[f"{word} none with the book's own alone"] = count(word, lambda own, used: own == "none" and used != "none")
    for word in ("rate", "level", "equilibrium", "working"):
        counts[f"another {word}"] = count(word, lambda own, used: "none" not in (own, used) and own != used)
    counts["nothing changes but the name"] = sum(own | {"set": "2"} == used for own, used in pairs)
    return counts


def lent_with(lent):
    """The sets and jobs by themselves."""
    def count(test):
        return sum(test(second, job) for second, job in lent)

    return {"the book's own numbers": count(lambda second, job: second == own_bytes(job)),
            "all zero": count(lambda second, job: not any(second)),
            "W odd": count(lambda second, job: job[50] % 2 == 1),
            "kind 0": count(lambda second, job: job[4] == 0),
            "kind 1": count(lambda second, job: job[4] == 1),
            "gas alone": count(lambda second, job: members_of(job) == 1),
            "2 to 15 members": count(lambda second, job: 2 <= members_of(job) <= 15),
            "16 members": count(lambda second, job: members_of(job) == 16)}


def sorts(calls, texts):
    lent = [(call, text) for call, text in zip(calls, texts) if text.startswith("set 2")]
    pairs = [(said(ref.partner_answer(ref.NOT_LENT, job)), said(text)) for (_, job), text in lent]
    return refusals(calls, texts) | edges(calls, texts) | turned(pairs) | lent_with([call for call, _ in lent])


if __name__ == "__main__":
    print(__doc__)
