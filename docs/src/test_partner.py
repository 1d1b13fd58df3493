"""Are the recorded second sets sharp? Each wrong reading of R-7 in document 02 must change some recorded text.

    test_partner.py

As in test_lowest.py the lowest rate is found by halves, and each mistake is tried until three texts have changed.
"""

from recorded import PARTNER
from test_lowest import ENOUGH, mixed, prepare
from wrong_readings import between, run

# Texts of the reference that several mistakes are about.
NAME = "    return 1 if second == NOT_LENT else 2\n"
LENGTH = "    refuse_if(len(data) != 20 * n, 23)\n"
GROUPS = '    groups = [struct.unpack_from("<5I", data, 20 * i) for i in range(n)]\n'
LIMIT = "    refuse_if(any(max(group) > MOST for group in groups), 23)\n"
CHECK = LENGTH + GROUPS + LIMIT
FILLED = CHECK.replace("data, 20", "data.ljust(20 * n, b'\\0'), 20")  # zeros for what is missing
LENT = "    if set_in_use(second) == 1:\n        return book\n"
READ = "    groups = read_second(second, book.n)\n"
MEMBERS = "members=[Member(member.T, *group) for member, group in zip(book.members, groups)]"
IN_USE = "    return job, C, in_use(read_book(job_bytes[48:]), second)\n"
READ_ALL = "    job, C = read_job(job_bytes)\n" + IN_USE
REFUSED = '        return f"refused {refusal.number}\\n"\n'
BOTH = '        return f"set {set_in_use(second)}\\n" + report(job, book, C) + rate_line(job, book, C)\n'
OWN_LIMIT = "max(member[1:]) > MOST"

# From the reading of a job and a second set to the text.
TEXTS = between("def read_all(", "# ---- Demand 3")


def placed(numbers):
    """Each member's five numbers from elsewhere: `groups` are those of the set, and `i` is the member's number."""
    return MEMBERS, f"members=[Member(member.T, *{numbers}) for i, member in enumerate(book.members)]"


def with_own(old, new):
    """One figure with the book's own numbers, which are kept as OWN for it."""
    kept = "    global OWN\n    OWN = read_book(job_bytes[48:])\n    return job, C, in_use(OWN, second)\n"
    changed = TEXTS.replace(IN_USE, kept).replace(old, new)
    assert changed.count("OWN") > kept.count("OWN"), old
    return TEXTS, changed


def before(ground):
    """23 before this ground. Members are counted by the book's first byte, if it is there."""
    guarded = ("    try:\n        job, C = read_job(job_bytes)\n        book = read_book(job_bytes[48:])\n"
               "    except Refused as refusal:\n"
               f"        if refusal.number == {ground} and set_in_use(second) == 2:\n"
               "            read_second(second, job_bytes[48] if len(job_bytes) > 48 else 0)\n        raise\n"
               "    return job, C, in_use(book, second)\n")
    return READ_ALL, guarded


def taken(length):
    """Sets of another length taken too, cut or filled up with zeros."""
    checked = f"    refuse_if(len(data) not in (20 * n, {length}), 23)\n    data = data[: 20 * n].ljust(20 * n, b'\\0')\n"
    return CHECK, checked + GROUPS + LIMIT


def own_unchecked(start, end):
    """These of each member's own five numbers read as 0 where a set is lent; the set's are used in any case."""
    return READ_ALL, ("    job, C = read_job(job_bytes)\n    data = bytearray(job_bytes[48:])\n"
                      "    members_end = min(len(data) - 4, 8 + 32 * sum(data[:1])) if set_in_use(second) == 2 else 0\n"
                      "    for at in range(16, members_end, 32):\n"
                      f"        data[at + {4 * start} : at + {4 * end}] = bytes({4 * (end - start)})\n"
                      "    return job, C, in_use(read_book(data), second)\n")


def limit_of(groups):
    """Only these groups' numbers checked."""
    return LIMIT, LIMIT.replace("in groups)", f"in {groups})")


# What is wrong, the reference's text, the text put in its place.
MISTAKES = [
    # Whose numbers.
    ("the set not used", *placed("member[1:]")),
    ("the last member's left as the book's", *placed("(member[1:] if i == book.n - 1 else groups[i])")),
    ("the first member's left as the book's", *placed("(member[1:] if i == 0 else groups[i])")),
    ("the first group for all", *placed("groups[0]")),
    ("the last group for all", *placed("groups[-1]")),
    ("the groups from the last member to the first", *placed("groups[len(groups) - 1 - i]")),
    ("each group one member later", *placed("groups[i - 1]")),
    ("the first daughter's group first, the parent's last", *placed("groups[(i + 1) % len(groups)]")),
    ("all inhalation risks, then all submersion risks, and so on", *placed("sum(groups, ())[i :: len(groups)]")),
    ("dose before risk", *placed("groups[i][2:4], *groups[i][:2], groups[i][4]")),
    ("submersion before inhalation", *placed("[groups[i][k] for k in (1, 0, 3, 2, 4)]")),
    ("the weight first", *placed("groups[i][1:], groups[i][0]")),
    *((f"the {name} left as the book's", *placed(f"groups[i][:{k}], member[{k + 1}], *groups[i][{k + 1}:]"))
      for k, name in enumerate(("inhalation risk", "submersion risk", "inhalation dose", "submersion dose", "weight"))),
    ("the larger of both", *placed("map(max, groups[i], member[1:])")),
    ("the smaller of both", *placed("map(min, groups[i], member[1:])")),
    ("both added", *placed("map(sum, zip(groups[i], member[1:]))")),
    ("the book's own where the set has 0", *placed("[a or b for a, b in zip(groups[i], member[1:])]")),
    ("the book's own where they are 0", *placed("[a and b for a, b in zip(member[1:], groups[i])]")),
    ("highest byte first", GROUPS, GROUPS.replace("<5I", ">5I")),
    ("numbers of two bytes", GROUPS, GROUPS.replace("struct", "tuple(x % 65_536 for x in struct").replace(" for i", ") for i")),
    ("signed numbers", GROUPS, GROUPS.replace("<5I", "<5i")),
    # What stays the book's.
    ("W of radon beside a set", MEMBERS, MEMBERS + ", W=1_000"),
    ("W from the set's first two bytes", MEMBERS, MEMBERS + ", W=int.from_bytes(second[:2], 'little') or book.W"),
    ("W from the last member's weight", MEMBERS, MEMBERS + ", W=groups[-1][4] or book.W"),
    ("W halved and doubled", MEMBERS, MEMBERS + ", W=book.W // 2 * 2 or 1"),
    ("half-lives from the set", MEMBERS, MEMBERS.replace("member.T", "group[0] or member.T")),
    ("a member without numbers feeds none", MEMBERS,
     MEMBERS + ", feeds_into=[[f for f in feeds if any(groups[f.from_])] for feeds in book.feeds_into]"),
    # One figure with the book's own numbers.
    ("Fm with the book's own", *with_own("Fm(job.v, book)", "Fm(job.v, OWN)")),
    ("the verdict with the book's own", *with_own("{verdict(job, book, C)}", "{verdict(job, OWN, C)}")),
    ("the level with the book's own", *with_own("screening_level(job, book)", "screening_level(job, OWN)")),
    ("the report with the book's own", *with_own("+ report(job, book, C)", "+ report(job, OWN, C)")),
    ("the lowest rate with the book's own", *with_own("+ rate_line(job, book, C)", "+ rate_line(job, OWN, C)")),
    ("the lowest rate with the set where the book's own has none", *with_own(
        "+ rate_line(job, book, C)", "+ rate_line(job, OWN if lowest_rate(job, OWN, C) is not None else book, C)")),
    ("the lower of both rates", *with_own(
        "+ rate_line(job, book, C)",
        "+ min((rate_line(job, x, C) for x in (OWN, book)), key=lambda line: int(line[5:].replace('none', '100001')))")),
    ("the worse verdict of both", *with_own(
        "{verdict(job, book, C)}", "{max((verdict(job, x, C) for x in (OWN, book)), key=('below', 'close', 'above').index)}")),
    # The name.
    ("1 always", NAME, "    return 1\n"),
    ("1 with a set that is used", BOTH, BOTH.replace("{set_in_use(second)}", "1")),
    ("2 always", BOTH, BOTH.replace("{set_in_use(second)}", "2")),
    ("0 for the book's", BOTH, BOTH.replace("{set_in_use(second)}", "{2 if second else 0}")),
    ("0 and 1", BOTH, BOTH.replace("{set_in_use(second)}", "{set_in_use(second) - 1}")),
    ("1 and 2 exchanged", BOTH, BOTH.replace("{set_in_use(second)}", "{3 - set_in_use(second)}")),
    ("1 where the set is equal to the book's", *with_own("{set_in_use(second)}", "{1 if book == OWN else 2}")),
    ("1 where the report is the same", *with_own(
        "{set_in_use(second)}", "{1 if report(job, book, C) == report(job, OWN, C) else 2}")),
    ("no name", BOTH, BOTH.replace('f"set {set_in_use(second)}\\n" + ', "")),
    ("no name for the book's", BOTH, BOTH.replace('f"set {set_in_use(second)}\\n"', '("set 2\\n" if second else "")')),
    ("the name last", BOTH, '        return report(job, book, C) + rate_line(job, book, C) + f"set {set_in_use(second)}\\n"\n'),
    ("the rate before the report", BOTH,
     '        return f"set {set_in_use(second)}\\n" + rate_line(job, book, C) + report(job, book, C)\n'),
    ("no rate", BOTH, BOTH.replace(" + rate_line(job, book, C)", "")),
    ("a refusal with the name", REFUSED, REFUSED.replace('f"', 'f"set {set_in_use(second)}\\n')),
    # Lent or not.
    ("no bytes are out of range", LENT, ""),
    ("no bytes are a set of zeros", LENT + READ,
     "    groups = [(0,) * 5] * book.n if second == NOT_LENT else read_second(second, book.n)\n"),
    ("a set of zeros is not lent", NAME, NAME.replace("second == NOT_LENT", "not any(second)")),
    ("a set of zeros is named 1", BOTH, BOTH.replace("set_in_use(second)", "2 if any(second) else 1")),
    ("a set under 20 bytes is not lent", NAME, NAME.replace("second == NOT_LENT", "len(second) < 20")),
    ("a set that is out of range is not lent", LENT + READ,
     LENT + "    try:\n        groups = read_second(second, book.n)\n    except Refused:\n        return book\n"),
    # The length.
    ("20 n + 1 bytes taken", *taken("20 * n + 1")),
    ("20 n - 1 bytes taken", *taken("20 * n - 1")),
    ("a group more taken", *taken("20 * n + 20")),
    ("a group less taken", *taken("20 * n - 20")),
    ("a longer set taken", LENGTH, LENGTH.replace("!=", "<")),
    ("a shorter set taken", CHECK, FILLED.replace("!=", ">")),
    ("whole groups asked, but not how many", CHECK, FILLED.replace("len(data) != 20 * n", "len(data) % 20 != 0")),
    ("20 bytes taken for any chain", *taken("20")),
    ("320 bytes taken for any chain", *taken("320")),
    ("the length in one byte", CHECK, FILLED.replace("len(data) != 20 * n", "len(data) % 256 != 20 * n % 256")),
    # The limit.
    ("4,000,000,000 refused", LIMIT, LIMIT.replace("> MOST", ">= MOST")),
    ("4,000,000,001 taken", LIMIT, LIMIT.replace("> MOST", "> MOST + 1")),
    ("any number taken", LIMIT, ""),
    ("the limit of 31 bits", LIMIT, LIMIT.replace("> MOST", "> 2**31 - 1")),
    ("the last number of a group not checked", LIMIT, LIMIT.replace("max(group)", "max(group[:-1])")),
    ("the first number of a group not checked", LIMIT, LIMIT.replace("max(group)", "max(group[1:])")),
    *((f"number {k} alone of a group not checked", LIMIT, LIMIT.replace("max(group)", f"max(group[:{k}] + group[{k + 1}:])"))
      for k in (1, 2, 3)),
    ("the last group not checked", *limit_of("groups[:-1]")),
    ("the first group not checked", *limit_of("groups[1:]")),
    ("the last group alone checked", *limit_of("groups[-1:]")),
    ("the first group alone checked", *limit_of("groups[:1]")),
    ("fifteen groups checked", *limit_of("groups[:15]")),
    ("the numbers that count for risk alone checked", LIMIT, LIMIT.replace("max(group)", "max(group[:2])")),
    # The grounds and their order.
    *((f"23 before {ground}", *before(ground)) for ground in range(1, 19)),
    ("the number 13 for 23, for a number", LIMIT, LIMIT.replace("23", "13")),
    ("the number 11 for 23, for a length", LENGTH, LENGTH.replace("23", "11")),
    ("the number 22 for 23, for a length", LENGTH, LENGTH.replace("23", "22")),
    ("the number 24 for 23, for a number", LIMIT, LIMIT.replace("23", "24")),
    ("the book's own numbers not checked under a set", *own_unchecked(0, 5)),
    *((f"the book's own number {k} not checked under a set", *own_unchecked(k, k + 1)) for k in range(5)),
    ("13 without the five numbers", OWN_LIMIT, "False"),
    ("23 not made", CHECK, FILLED.replace(LENGTH, "").replace(LIMIT, "")),
]


if __name__ == "__main__":
    run(__doc__, PARTNER, MISTAKES, prepare, mixed, ENOUGH)
