"""Are the recorded jobs for the lowest rate sharp? Each wrong reading of R-6 in document 02, or of what it rests on,
must change some recorded text.

    test_lowest.py

The mistakes are tried by halves (test_halves.py shows that these find what R-6's definition does), in an order that mixes
the jobs, refused ones first, each until three texts have changed.
"""

import test_cases
from draws import Random
from recorded import LOWEST
from wrong_readings import SOURCE, between, in_place_of, run

ENOUGH = 3

# Texts of the reference that several mistakes are about.
RATES = "RATES = range(100_001)"
AT = "return verdict(job._replace(v=v), book, C)"
LOOK = 'if verdict_at(rates[place], job, book, C) == "below"'
END = "return rates[after] if after < len(rates) else None"
FOUND = "    found = first_below(RATES[:FEW], job, book, C)\n"
RETURN = "    return first_below_by_halves(RATES[FEW:], job, book, C) if found is None else found\n"
SEARCH = FOUND + RETURN
READ = '''        job, C, book = read_all(job_bytes, second)
    except Refused as refusal:
        return f"refused {refusal.number}\\n"
'''
PRINT = "    return f\"rate {'none' if rate is None else rate}\\n\"\n"
BELOW = '    if C * high_sum(job, book) <= B(job):\n        return "below"\n'
ABOVE = '    if C * low_sum(job, book) > B(job):\n        return "above"\n'
HIGH = "min(factors[i] + 2 * i, G)"
FACTOR = "factors.append(F * K // (K + v * book.members[i].T))\n    return factors\n\n\ndef exact_factors"
CHECK_2 = "    refuse_if(kind > 1 or medium > 2 or unit > 2 or zero != 0, 2)\n"
CHECK_3 = "    check_rate(v)\n"
CHECK_4 = "    refuse_if(target > 1_000_000_000, 4)\n"
CHECK_5 = "    refuse_if(AF > 1_000_000 or (medium == INDOOR_AIR and AF != 1_000_000), 5)\n"
CHECK_6 = "    refuse_if(group_too_large(child) or group_too_large(adult) or Z((child, adult)) == 0, 6)\n"
CHECK_7 = "    refuse_if(not is_reading(value) or not is_reading(uncertainty), 7)\n"
CHECK_8 = "    return job, concentration(job)\n"
OF_THE_JOB = CHECK_2 + CHECK_3 + CHECK_4 + CHECK_5 + CHECK_6 + CHECK_7 + CHECK_8
READ_ALL = "    job, C = read_job(job_bytes)\n    return job, C, in_use(read_book(job_bytes[48:]), second)\n"
CHECK_10 = "    refuse_if(not 1 <= n <= 16 or m > 64, 10)\n"
CHECK_11 = "    refuse_if(len(data) != 8 + 32 * n + 8 * m, 11)\n"
CHECK_12 = "    refuse_if(W == 0 or any(zeros), 12)\n"
CHECK_13 = between("    for i, member in enumerate(members):\n        longest", "    for feed in feeds.values():\n")
CHECK_14 = between("    for feed in feeds.values():\n", "    chains = walk(first, next_)\n")
CHECK_15 = "    chains = walk(first, next_)\n"
CHECK_16 = "    refuse_if(chains[0] != [] or any(chain == [] for chain in chains[1:]), 16)\n"
CHECK_17 = "    for i, chain in enumerate(chains):\n        refuse_if(any(feeds[number].from_ >= i for number in chain), 17)\n"
CHECK_18 = between("    for i in range(n):\n        refuse_if(sum(feed.share", "    return Book(n, W")

in_order = in_place_of(OF_THE_JOB)


def swapped(one, other):
    """Two neighbouring checks of the book in the other order."""
    assert one + other in SOURCE
    return one + other, other + one


def own_rate_after(ground):
    """The job's own rate is checked after this ground, of the job or of the book."""
    guarded = ("    (v,) = struct.unpack_from('<I', job_bytes.ljust(4, b'\\0'))\n"
               "    try:\n        job, C = read_job(struct.pack('<I', 0) + job_bytes[4:])\n        book = read_book(job_bytes[48:])\n"
               f"    except Refused as refusal:\n        refuse_if(refusal.number > {ground} and v > 100_000, 3)\n        raise\n"
               "    check_rate(v)\n    return job._replace(v=v), C, book\n")
    return READ_ALL, guarded


def search(*lines):
    """Another search in place of the reference's; `found` is the right answer."""
    return SEARCH, "    found = first_below_by_halves(RATES, job, book, C)\n" + "".join(f"    {line}\n" for line in lines)


def last_with(verdict):
    """The rate before the answer, where it has this verdict."""
    return search("last = 100_000 if found is None else found - 1",
                  f"return last if last >= 0 and verdict_at(last, job, book, C) == '{verdict}' else found")


def refused_3(text):
    """An answer in place of refusal 3."""
    return READ, READ.replace("        return f", f"        if refusal.number == 3:\n            return '{text}\\n'\n        return f")


def steps(size):
    """Only every so many rates looked at."""
    return RATES, f"RATES = range(0, 100_001, {size})"


# What is wrong, the reference's text, the text put in its place.
OWN_MISTAKES = [
    # Which rates.
    ("up to 99,999", RATES, "RATES = range(100_000)"),
    ("up to 100,001", RATES, "RATES = range(100_002)"),
    ("up to 200,000", RATES, "RATES = range(200_001)"),
    ("up to 65,535", RATES, "RATES = range(65_536)"),
    ("up to 32,767", RATES, "RATES = range(32_768)"),
    ("up to 1,000", RATES, "RATES = range(1_001)"),
    ("from 1 on", RATES, "RATES = range(1, 100_001)"),
    ("even rates only", *steps(2)),
    ("tens only", *steps(10)),
    ("whole air changes only", *steps(100)),
    ("rates in air changes, not hundredths", AT, "return verdict(job._replace(v=100 * v), book, C)"),
    ("a rate in 16 bits", AT, "return verdict(job._replace(v=v % 65_536), book, C)"),
    # Which of them is the answer.
    ("one too high", *search("return None if found is None else found + 1")),
    ("one too high, but for 0", *search("return found + 1 if found else found")),
    ("one too high, but not above 100,000", *search("return None if found is None else min(found + 1, 100_000)")),
    ("one too low", *search("return None if found is None else max(found - 1, 0)")),
    ("one too low, but for 0 and 1", *search("return found - 1 if found and found > 1 else found")),
    ("the highest rate that is 'close'", *last_with("close")),
    ("the highest rate that is 'above'", *last_with("above")),
    ("the highest 'close' rate, and none for no such rate",
     *search("last = 100_000 if found is None else found - 1",
             "return last if last >= 0 and verdict_at(last, job, book, C) == 'close' else None")),
    ("the highest rate that is 'below'", *search("return None if found is None else 100_000")),
    ("the lowest rate that is not 'above'", LOOK, LOOK.replace('== "below"', '!= "above"')),
    ("the lowest rate that is 'close', or else 'below'", LOOK, LOOK.replace('== "below"', 'in ("close", "below")')),
    ("none at 0", *search("return found or None")),
    ("none at 100,000", *search("return None if found == 100_000 else found")),
    ("none at 1", *search("return None if found == 1 else found")),
    ("0 for none", *search("return found or 0")),
    ("100,000 for none", *search("return 100_000 if found is None else found")),
    ("100,001 for none", *search("return 100_001 if found is None else found")),
    ("none where 0 is not 'close' or 'below'",
     *search("return None if verdict_at(0, job, book, C) == 'above' else found")),
    ("none where 100,000 is 'close' taken for 100,000",
     *search("return 100_000 if found is None and verdict_at(100_000, job, book, C) == 'close' else found")),
    ("100,000 not looked at by itself",
     *search("return found if verdict_at(99_999, job, book, C) == 'below' else None")),
    ("the first rate at which the verdict changes",
     *search("rates = range(1, 100_001)", "first = verdict_at(0, job, book, C)",
             "return 0 if first == 'below' else next((v for v in rates[:300] if verdict_at(v, job, book, C) != first), found)")),
    ("the halving stopped one early", "while after - before > 1:", "while after - before > 2:"),
    ("the halving never looks at the lowest rate", "before, after = -1, len(rates)", "before, after = 0, len(rates)"),
    ("the halving takes the highest rate for granted", "before, after = -1, len(rates)", "before, after = -1, len(rates) - 1"),
    ("the place before", END, "return rates[max(before, 0)] if after < len(rates) else None"),
    ("the highest rate where none will do", END, "return rates[min(after, len(rates) - 1)]"),
    # The job's own rate.
    ("from the job's own rate on", SEARCH, "    return first_below_by_halves(RATES[job.v:], job, book, C)\n"),
    ("from the rate after the job's own", SEARCH, "    return first_below_by_halves(RATES[job.v + 1:], job, book, C)\n"),
    ("up to the job's own rate", SEARCH, "    return first_below_by_halves(RATES[: job.v + 1], job, book, C)\n"),
    ("below the job's own rate", SEARCH, "    return first_below_by_halves(RATES[: job.v], job, book, C)\n"),
    ("the verdict at the job's own rate throughout", AT, "return verdict(job, book, C)"),
    ("the job's own rate where it is 'below'", *search("return job.v if verdict(job, book, C) == 'below' else found")),
    ("the job's own rate where it is 'close'", *search("return job.v if verdict(job, book, C) == 'close' else found")),
    ("none where the job's own rate is not 'below'", *search("return found if verdict(job, book, C) == 'below' else None")),
    ("none where the job's own rate is 'above'", *search("return None if verdict(job, book, C) == 'above' else found")),
    ("0 where the job's own rate is 'below'", *search("return 0 if verdict(job, book, C) == 'below' else found")),
    ("what is to be added to the job's own rate", *search("return None if found is None else max(found - job.v, 0)")),
    ("the job's own rate added", AT, "return verdict(job._replace(v=v + job.v), book, C)"),
    ("the job's own rate at least", *search("return None if found is None else max(found, job.v)")),
    ("the job's own rate at most", *search("return job.v if found is None else min(found, job.v)")),
    ("Low at the job's own rate, High at the rate looked at", AT,
     'return verdict(job, book, C) if verdict(job, book, C) == "above" else verdict(job._replace(v=v), book, C)'),
    ("the job's own rate not checked", *in_order(CHECK_2, CHECK_4, CHECK_5, CHECK_6, CHECK_7, CHECK_8)),
    ("the job's own rate checked in 16 bits", CHECK_3 + CHECK_4, "    check_rate(v % 65_536)\n" + CHECK_4),
    ("an own rate over 100,000 taken for 100,000", CHECK_3 + CHECK_4, "    job = job._replace(v=min(v, 100_000))\n" + CHECK_4),
    ("an own rate over 100,000 gives none", *refused_3("rate none")),
    ("an own rate over 100,000 gives 100,000", *refused_3("rate 100000")),
    ("an own rate of 100,000 refused", "refuse_if(v > 100_000, 3)", "refuse_if(v >= 100_000, 3)"),
    ("an own rate of 100,001 taken", "refuse_if(v > 100_000, 3)", "refuse_if(v > 100_001, 3)"),
    ("an own rate of 0 refused", "refuse_if(v > 100_000, 3)", "refuse_if(v > 100_000 or v == 0, 3)"),
    ("3 before 2", *in_order(CHECK_3, CHECK_2, CHECK_4, CHECK_5, CHECK_6, CHECK_7, CHECK_8)),
    ("3 before 1", READ_ALL, "    check_rate(struct.unpack_from('<I', job_bytes.ljust(4, b'\\0'))[0])\n" + READ_ALL),
    *((f"3 after {ground}", *own_rate_after(ground)) for ground in range(4, 19)),
    # What is printed.
    ("no line feed", PRINT, PRINT.replace("\\n", "")),
    ("'lowest' for 'rate'", PRINT, PRINT.replace("rate {", "lowest {")),
    ("a rate in air changes", PRINT, "    return f\"rate {'none' if rate is None else rate / 100}\\n\"\n"),
    ("a comma in the thousands", PRINT, "    return f\"rate {'none' if rate is None else format(rate, ',')}\\n\"\n"),
    ("'rate 0' without its number", PRINT, "    return f\"rate {'none' if rate is None else rate or ''}\\n\"\n"),
    ("'none' alone", PRINT, "    return 'none\\n' if rate is None else f\"rate {rate}\\n\"\n"),
    ("'rate -1' for none", PRINT, PRINT.replace("'none' if", "-1 if")),
    ("the report at the answer", PRINT, "    return report(job._replace(v=rate or 0), book, C)\n"),
    ("'none' for a refusal", READ, READ.replace('f"refused {refusal.number}\\n"', '"rate none\\n"')),
    ("a refusal without its number", READ, READ.replace(" {refusal.number}", "")),
    # The verdict: 'below' and what it is made of.
    ("'below' not at equality", BELOW, BELOW.replace("<=", "<")),
    ("Low for 'below'", BELOW, BELOW.replace("high_sum", "low_sum")),
    ("'below' wherever Low is not over B", BELOW + ABOVE, ABOVE + BELOW.replace("if C * high_sum(job, book) <= B(job)", "if True")),
    ("'below' only where the exact quantity is", BELOW, BELOW.replace("high_sum", "exact_sum")),
    ("High without its cap", HIGH, "(factors[i] + 2 * i)"),
    ("High without its margin", HIGH, "min(factors[i], G)"),
    ("i grains of margin", HIGH, "min(factors[i] + i, G)"),
    ("2 grains of margin for every member", HIGH, "min(factors[i] + 2 * (i > 0), G)"),
    ("2i - 1 grains of margin", HIGH, "min(factors[i] + max(2 * i - 1, 0), G)"),
    ("2i + 1 grains of margin", HIGH, "min(factors[i] + 2 * i + 1, G)"),
    ("2i + 2 grains of margin", HIGH, "min(factors[i] + 2 * i + 2, G)"),
    ("3i grains of margin", HIGH, "min(factors[i] + 3 * i, G)"),
    ("no margin where no grain is reported", HIGH, "(min(factors[i] + 2 * i, G) if factors[i] else 0)"),
    ("capped at G - 1", HIGH, "min(factors[i] + 2 * i, G - 1)"),
    ("the parent left out", "factors[i] + 2 * i, G) for i in range(book.n))", "factors[i] + 2 * i, G) for i in range(1, book.n))"),
    ("the last member left out", "factors[i] + 2 * i, G) for i in range(book.n))",
     "factors[i] + 2 * i, G) for i in range(max(1, book.n - 1)))"),
    ("the parent aired too", "    factors = [G]\n", "    factors = [G * K // (K + v * book.members[0].T)]\n"),
    ("a factor rounded to the nearest", FACTOR,
     FACTOR.replace("F * K // (K + v * book.members[i].T)", "floor(Fraction(F * K, K + v * book.members[i].T) + Fraction(1, 2))")),
    ("a factor one grain less", FACTOR,
     FACTOR.replace("F * K // (K + v * book.members[i].T)", "max(F * K // (K + v * book.members[i].T) - 1, 0)")),
    ("the half-life of the member before", FACTOR, FACTOR.replace("members[i]", "members[i - 1]")),
    ("K one more", "K = 249_532_985_160_000", "K = 249_532_985_160_001"),
    ("T one more", FACTOR, FACTOR.replace("book.members[i].T)", "(book.members[i].T + 1))")),
    ("groundwater rounded down", "rounded_up(total * 434 * AF, 100_000_000)", "(total * 434 * AF // 100_000_000)"),
    ("the reading not carried indoors", "C = indoors(value + uncertainty, job.medium, job.AF)", "C = value + uncertainty"),
    ("the uncertainty left out", "C = indoors(value + uncertainty", "C = indoors(value"),
    ("the uncertainty taken off", "C = indoors(value + uncertainty", "C = indoors(max(value - uncertainty, 0)"),
    ("C one less", CHECK_8, "    return job, max(concentration(job) - 1, 0)\n"),
    ("C one more", CHECK_8, "    return job, concentration(job) + 1\n"),
    # Numbers too short.
    ("High in 128 bits", BELOW, BELOW.replace("C * high_sum(job, book)", "C * high_sum(job, book) % 2**128")),
    ("the sum before C in 96 bits", BELOW, BELOW.replace("high_sum(job, book)", "(high_sum(job, book) % 2**96)")),
    ("q in 64 bits", test_cases.RISK_Q, f"({test_cases.RISK_Q}) % 2**64"),
    ("B in 96 bits", BELOW, BELOW.replace("B(job)", "B(job) % 2**96")),
    ("F * K in 64 bits", FACTOR, FACTOR.replace("F * K //", "F * K % 2**64 //")),
    ("v * T in 32 bits", FACTOR, FACTOR.replace("v * book.members[i].T)", "v * book.members[i].T % 2**32)")),
    # The grounds and their order.
    ("4 before 3", *in_order(CHECK_2, CHECK_4, CHECK_3, CHECK_5, CHECK_6, CHECK_7, CHECK_8)),
    ("5 before 4", *in_order(CHECK_2, CHECK_3, CHECK_5, CHECK_4, CHECK_6, CHECK_7, CHECK_8)),
    ("6 before 5", *in_order(CHECK_2, CHECK_3, CHECK_4, CHECK_6, CHECK_5, CHECK_7, CHECK_8)),
    ("7 before 6", *in_order(CHECK_2, CHECK_3, CHECK_4, CHECK_5, CHECK_7, CHECK_6, CHECK_8)),
    ("8 before 7", CHECK_7 + CHECK_8, "    if is_reading(value):\n        refuse_if(converted(value, unit) > MOST, 8)\n"
     "    if is_reading(uncertainty):\n        refuse_if(converted(uncertainty, unit) > MOST, 8)\n" + CHECK_7 + CHECK_8),
    ("the book before the job", READ_ALL, "    refuse_if(len(job_bytes) < 48, 1)\n    book = read_book(job_bytes[48:])\n"
     "    job, C = read_job(job_bytes)\n    return job, C, book\n"),
    ("the book's length before the job", READ_ALL, "    refuse_if(48 <= len(job_bytes) < 56, 9)\n" + READ_ALL),
    ("8 after the book", READ_ALL, "    try:\n        job, C = read_job(job_bytes)\n    except Refused as refusal:\n"
     "        if refusal.number == 8:\n            read_book(job_bytes[48:])\n        raise\n"
     "    return job, C, read_book(job_bytes[48:])\n"),
    ("11 before 10", *swapped(CHECK_10, CHECK_11)),
    ("13 before 12", *swapped(CHECK_12, CHECK_13)),
    ("14 before 13", *swapped(CHECK_13, CHECK_14)),
    ("16 before 15", CHECK_15, "    refuse_if(first[0] != 0 or any(number == 0 for number in first[1:]), 16)\n" + CHECK_15),
    ("17 before 16", *swapped(CHECK_16, CHECK_17)),
    ("18 before 17", *swapped(CHECK_17, CHECK_18)),
    ("18 not made", CHECK_18, ""),
    *((f"{number} for {number - 1}", check, check.replace(f", {number - 1})", f", {number})"))
      for number, check in ((3, CHECK_2), (5, CHECK_4), (6, CHECK_5), (7, CHECK_6), (8, CHECK_7), (11, CHECK_10), (12, CHECK_11),
                            (13, CHECK_12), (14, CHECK_13), (15, CHECK_14), (17, CHECK_16), (18, CHECK_17), (19, CHECK_18))),
]

# What test_cases.py tries and `fan` cannot show: the line between 'close' and 'above', the level and the working levels. Some
# others have a row of their own above.
NOT_SHOWN = {"'above' at equality", "100 for W of every gas", "the level from Low", "the level without its limit", "the gas weighed too",
             "no divisor gives 0", "Fm in other parts", "10 as 11 in the working level"}
ABOVE_ALREADY = {"Low against B for 'below'", "the cap at G left off High", "'below' not at equality", "i for 2i",
                 "v 100,000 refused", "v 100,001 taken"}
MISTAKES = OWN_MISTAKES + [row for row in test_cases.MISTAKES if row[0] not in NOT_SHOWN | ABOVE_ALREADY]


def prepare(reference):
    """By halves alone."""
    reference.FEW = 0


def mixed(items):
    return Random(0x4D69786564).shuffled(items)


def refused_first(cases):
    return sorted(mixed(cases), key=lambda case: case[1].startswith("rate"))


if __name__ == "__main__":
    run(__doc__, LOWEST, MISTAKES, prepare, refused_first, ENOUGH)
