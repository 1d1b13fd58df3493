"""Are the recorded openings sharp? Each wrong reading of R-5 in document 02 must change some recorded answer.

    test_openings.py

The few runs of a day and more are made once, with the right reference; the mistakes show without them.
"""

from recorded import OPENING
from wrong_readings import (K_ONE_LESS, RATE_LIMITS, SHARES_IN, SHARES_OUT_FREE, SOURCE, between, book_but_before, in_place_of,
                            run)

# Texts of the reference that several mistakes are about.
START = "return [G] + [0] * (book.n - 1)"
PARENT = "    new = [G]\n"
HALF_LIFE = "        T = book.members[i].T\n"
F = "F = sum(feed.share * new[feed.from_] for feed in book.feeds_into[i]) // 100_000"
ABOVE = "6_000 * T * old[i] + K * F"
BELOW = "K + (6_000 + v) * T"
STEP = f"new.append(({ABOVE}) // ({BELOW}))\n    return new\n"
MINUTE = "        factors = minute_later(v, book, factors)\n"
MINUTES = "    for _ in range(minutes):\n" + MINUTE
PERIOD = "        factors = minutes_later(v, minutes, book, factors)\n"
PERIODS = "    for v, minutes in periods:\n" + PERIOD
IN_TURN = "zip(numbers[0::2], numbers[1::2])"
EACH_RATE = "        for rate in numbers[0::2]:  # every second number from the first, so an unpaired last one too\n"
ODD = "    refuse_if(len(numbers) % 2 == 1, 22)\n"
COUNT = "    refuse_if(not 1 <= len(in_turn(numbers)) <= 32, 22)\n"
LENGTH = "    refuse_if(any(not 1 <= minutes <= 1_440 for _, minutes in in_turn(numbers)), 22)\n"
CHECK_3 = EACH_RATE + "            check_rate(rate)\n"
CHECK_22 = "        check_periods(numbers)\n"
BOOK = "        book = read_book(book_bytes)\n"
CHECK_19 = "        refuse_if(room < book.n, 19)\n"
CALL = CHECK_3 + CHECK_22 + BOOK + CHECK_19
RETURN = "    return opening_factors(in_turn(numbers), book)\n"

# From the first line of a minute to the end of a period.
STEPS = between(PARENT, "def opening_factors")

in_order = in_place_of(CALL)


def indented(lines):
    return "".join("    " + line + "\n" for line in lines.splitlines())


def after_ground(ground):
    """The book's grounds up to this one come before 22."""
    guarded = ("        try:\n            read_book(book_bytes)\n        except Refused as refusal:\n"
               f"            refuse_if(refusal.number <= {ground}, refusal.number)\n")
    return in_order(CHECK_3, guarded, CHECK_22, BOOK, CHECK_19)


def room_before(ground):
    """19 before one ground of the book."""
    return in_order(CHECK_3, CHECK_22, book_but_before(ground, "room < book_bytes[0], 19"), CHECK_19)


def finer(bits):
    """Grains cut up within a period, and rounded down to whole ones where it ends."""
    text = STEPS.replace(PARENT, "    new = [old[0]]\n")
    loop = f"    factors = [x << {bits} for x in factors]\n" + MINUTES + f"    return [x >> {bits} for x in factors]\n"
    return STEPS, text.replace(MINUTES + "    return factors\n", loop)


def from_the_start(start, parent):
    """Another shut room, and another parent in each minute."""
    text = SOURCE[SOURCE.index(START) : SOURCE.index(PARENT) + len(PARENT)]
    return text, text.replace(START, start).replace(PARENT, parent)


# What is wrong, the reference's text, the text put in its place.
MISTAKES = [
    # The start, and the parent.
    ("the others start at G", START, "return [G] * book.n"),
    ("the others start at their steady factors at rate 0", START, "return reported_factors(0, book)"),
    ("the first daughter starts at G", START, "return [G] * min(2, book.n) + [0] * (book.n - 2)"),
    ("a grain to start with", START, "return [G] + [1] * (book.n - 1)"),
    ("the others start at what the lent list held", START, "return [G] + [7] * (book.n - 1)"),
    ("the parent too", *from_the_start("return [7] * book.n", "    new = [old[0]]\n")),
    ("the parent starts at 0", *from_the_start("return [0] * book.n", "    new = [G if any(old) else 0]\n")),
    ("the parent starts at 0 and grows like the others", *from_the_start(
        "return [0] * book.n", "    T = book.members[0].T\n    new = [(6_000 * T * old[0] + K * G) // (K + 6_000 * T)]\n")),
    ("the parent decays", PARENT, "    T = book.members[0].T\n    new = [6_000 * T * old[0] // (K + 6_000 * T)]\n"),
    ("the parent is aired", PARENT, "    T = book.members[0].T\n    new = [6_000 * old[0] // (6_000 + v)]\n"),
    ("the parent airs as in the balance", PARENT, "    new = [G * K // (K + v * book.members[0].T)]\n"),
    ("the parent is G - 1", PARENT, "    new = [G - 1]\n"),
    # F.
    ("F from the minute before", F, F.replace("new[", "old[")),
    ("F from the minute before, but for the parent's feeds", F,
     F.replace("new[feed.from_]", "(new if feed.from_ == 0 else old)[feed.from_]")),
    ("F from the mean of both minutes", F,
     "F = sum(feed.share * (new[feed.from_] + old[feed.from_]) for feed in book.feeds_into[i]) // 200_000"),
    ("F from the member before, whatever the feeds say", F, "F = new[i - 1]"),
    ("F from the steady factors", F, F.replace("new[", "reported_factors(v, book)[")),
    ("F not rounded", F, "F = Fraction(sum(feed.share * new[feed.from_] for feed in book.feeds_into[i]), 100_000)"),
    ("F rounded up", F, "F = -(-sum(feed.share * new[feed.from_] for feed in book.feeds_into[i]) // 100_000)"),
    ("F rounded to the nearest", F, F.replace("F = sum(", "F = (50_000 + sum(").replace("[i])", "[i]))")),
    ("each feed rounded by itself", F,
     "F = sum(feed.share * new[feed.from_] // 100_000 for feed in book.feeds_into[i])"),
    ("the first feed only", F, F.replace("book.feeds_into[i]", "book.feeds_into[i][:1]")),
    ("the last feed only", F, F.replace("book.feeds_into[i]", "book.feeds_into[i][-1:]")),
    ("member 1 copied for the rest", F, F.replace("book.feeds_into[i]", "book.feeds_into[1]")),
    ("shares into a member over 100,000 scaled down to it", F,
     F.replace("// 100_000", "// max(100_000, sum(feed.share for feed in book.feeds_into[i]))")),
    ("shares in other parts", F, F.replace("// 100_000", "// 100_001")),
    # The step: what stands above and below.
    ("6,000 left out below", BELOW, "K + v * T"),
    ("6,000 left out above", ABOVE, "T * old[i] + K * F"),
    ("6,000 left out on both sides", f"({ABOVE}) // ({BELOW})", "(T * old[i] + K * F) // (K + (1 + v) * T)"),
    *((f"{steps:,} for 6,000", f"({ABOVE}) // ({BELOW})", f"({ABOVE}) // ({BELOW})".replace("6_000", f"{steps}"))
      for steps in (60, 100, 600, 5_999, 6_001, 60_000, 360_000)),
    *((f"{steps:,} for 6,000 above", ABOVE, ABOVE.replace("6_000", f"{steps}")) for steps in (600, 5_999, 6_001, 60_000)),
    *((f"{steps:,} for 6,000 below", BELOW, BELOW.replace("6_000", f"{steps}")) for steps in (600, 5_999, 6_001, 60_000)),
    ("v left out below", BELOW, "K + 6_000 * T"),
    ("v twice below", BELOW, "K + (6_000 + 2 * v) * T"),
    ("v in air changes", BELOW, "K + (6_000 + v // 100) * T"),
    ("v per minute", BELOW, "K + (6_000 + 60 * v) * T"),
    ("v in 16 bits", BELOW, "K + (6_000 + v % 65_536) * T"),
    ("v without T", BELOW, "K + 6_000 * T + v"),
    ("6,000 without T below", BELOW, "K + 6_000 + v * T"),
    ("6,000 less v", BELOW, "K + abs(6_000 - v) * T"),
    ("6,000 times v", BELOW, "K + 6_000 * max(v, 1) * T"),
    ("K left out below", BELOW, "(6_000 + v) * T"),
    ("K twice below", BELOW, "2 * K + (6_000 + v) * T"),
    ("a 60th of K on both sides", f"({ABOVE}) // ({BELOW})",
     "(6_000 * T * old[i] + K // 60 * F) // (K // 60 + (6_000 + v) * T)"),
    ("K left out above", ABOVE, "6_000 * T * old[i] + F"),
    ("T left out above", ABOVE, "6_000 * old[i] + K * F"),
    ("v above too", ABOVE, "(6_000 + v) * T * old[i] + K * F"),
    ("the old factor left out", ABOVE, "K * F"),
    ("F left out once something is there", ABOVE, "6_000 * T * old[i] + K * F * (old[i] == 0)"),
    ("F for member 1 only", ABOVE, "6_000 * T * old[i] + K * F * (i < 2)"),
    ("the old factor of the member before", ABOVE, "6_000 * T * old[i - 1] + K * F"),
    ("the new factor of the member before for the old", ABOVE, "6_000 * T * new[i - 1] + K * F"),
    ("the old factor of the last member", ABOVE, "6_000 * T * old[-1] + K * F"),
    ("the old factor of member 1", ABOVE, "6_000 * T * old[1] + K * F"),
    ("F in place of the old factor", ABOVE, "6_000 * T * F + K * F"),
    ("the factor and F exchanged", ABOVE, "6_000 * T * F + K * old[i]"),
    ("the half-life of the member before", HALF_LIFE, HALF_LIFE.replace("[i]", "[i - 1]")),
    ("the half-life of member 1", HALF_LIFE, HALF_LIFE.replace("[i]", "[1]")),
    ("the half-life of the last member", HALF_LIFE, HALF_LIFE.replace("[i]", "[-1]")),
    ("a step forward from the old factor", f"({ABOVE}) // ({BELOW})",
     "max(0, old[i] + (K * F - (K + v * T) * old[i]) // (6_000 * T))"),
    ("decay first, then air", f"({ABOVE}) // ({BELOW})", f"({ABOVE}) // (K + 6_000 * T) * 6_000 // (6_000 + v)"),
    K_ONE_LESS,
    # The step: rounding, and limbs too short.
    ("rounded up", STEP, f"new.append(-(-({ABOVE}) // ({BELOW})))\n    return new\n"),
    ("rounded to the nearest", STEP, f"new.append((2 * ({ABOVE}) + ({BELOW})) // (2 * ({BELOW})))\n    return new\n"),
    ("each part rounded by itself", STEP,
     f"new.append(6_000 * T * old[i] // ({BELOW}) + K * F // ({BELOW}))\n    return new\n"),
    ("rounded up where it rises", STEP, f"new.append(max(-(-({ABOVE}) // ({BELOW})) if K * F > (K + v * T) * old[i] else 0, "
                                        f"({ABOVE}) // ({BELOW})))\n    return new\n"),
    ("rounded down at the end of a period only", *finer(40)),
    ("half grains kept within a period", *finer(1)),
    *((f"above in {bits} bits", ABOVE, f"({ABOVE}) % 2**{bits}") for bits in (64, 80, 96, 97, 98)),
    ("below in 62 bits", BELOW, f"({BELOW}) % 2**62"),
    # Held to the promise where it is not made.
    ("never lower than the minute before, at any rate", STEP,
     f"new.append(max(old[i], ({ABOVE}) // ({BELOW})))\n    return new\n"),
    ("never higher than the steady factor of the rate", STEP,
     STEP.replace("return new", "return [min(pair) for pair in zip(new, reported_factors(v, book))]")),
    ("the steady factors", PERIOD, "        factors = reported_factors(v, book)\n"),
    ("the steady factors after an hour", PERIOD,
     PERIOD + "        factors = reported_factors(v, book) if minutes >= 60 else factors\n"),
    # Minutes and periods.
    ("one minute too few", "range(minutes)", "range(minutes - 1)"),
    ("one minute too many", "range(minutes)", "range(minutes + 1)"),
    ("one minute a period", "range(minutes)", "range(1)"),
    ("a tenth of the minutes", "range(minutes)", "range(-(-minutes // 10))"),
    ("minutes in one byte", "range(minutes)", "range(minutes % 256)"),
    ("every minute from the period's first factors", MINUTES,
     "    first = factors\n" + MINUTES.replace("book, factors)", "book, first)")),
    ("each period from the shut room", PERIOD, PERIOD.replace("book, factors)", "book, shut_room(book))")),
    ("each period from the factors of rate 0", PERIOD,
     PERIOD.replace("book, factors)", "book, reported_factors(0, book))")),
    ("the rate of the first period for all", PERIODS, PERIODS.replace("(v, minutes", "(periods[0][0], minutes")),
    ("the rate of the last period for all", PERIODS, PERIODS.replace("(v, minutes", "(periods[-1][0], minutes")),
    ("the minutes of the first period for all", PERIODS, PERIODS.replace("(v, minutes", "(v, periods[0][1]")),
    ("the minutes of the last period for all", PERIODS, PERIODS.replace("(v, minutes", "(v, periods[-1][1]")),
    ("the mean rate for all", PERIODS,
     PERIODS.replace("(v, minutes", "(sum(a * b for a, b in periods) // sum(b for _, b in periods), minutes")),
    ("the first period only", "in periods:", "in periods[:1]:"),
    ("the last period only", "in periods:", "in periods[-1:]:"),
    ("the last period left out", "in periods:", "in periods[:-1] or periods:"),
    ("the first period left out", "in periods:", "in periods[1:] or periods:"),
    ("the periods from the last to the first", "in periods:", "in reversed(periods):"),
    ("the periods by rate", "in periods:", "in sorted(periods):"),
    ("the periods without those that come again", "in periods:", "in dict.fromkeys(periods):"),
    ("31 periods made, however many there are", "in periods:", "in periods[:31]:"),
    ("the next rate a minute early", PERIODS,
     "    for k, (v, minutes) in enumerate(periods):\n"
     "        factors = minutes_later(v, minutes - 1, book, factors)\n"
     "        factors = minutes_later(periods[min(k + 1, len(periods) - 1)][0], 1, book, factors)\n"),
    ("the next rate a minute late", PERIODS,
     "    for k, (v, minutes) in enumerate(periods):\n"
     "        factors = minutes_later(periods[max(k - 1, 0)][0], 1, book, factors)\n"
     "        factors = minutes_later(v, minutes - 1, book, factors)\n"),
    ("no later period once a minute changes nothing", PERIOD,
     PERIOD + "        if minute_later(v, book, factors) == factors:\n            break\n"),
    ("a period ended once member 1 is at rest", MINUTE,
     "        factors, before = minute_later(v, book, factors), factors\n"
     "        if factors[1:2] == before[1:2]:\n            break\n"),
    ("a period ended once the last member is at rest", MINUTE,
     "        factors, before = minute_later(v, book, factors), factors\n"
     "        if factors[-1] == before[-1]:\n            break\n"),
    ("a minute between periods", PERIOD,
     PERIOD + "        factors = minute_later(0, book, factors) if (v, minutes) != periods[-1] else factors\n"),
    ("minutes and rate in turn", IN_TURN, "zip(numbers[1::2], numbers[0::2])"),
    ("all rates, then all minutes", IN_TURN, "zip(numbers[: len(numbers) // 2], numbers[len(numbers) // 2 :])"),
    # 22: limits.
    ("31 for 32 periods", COUNT, COUNT.replace("32", "31")),
    ("33 for 32 periods", COUNT, COUNT.replace("32", "33")),
    ("any number of periods", COUNT,
     COUNT.replace("not 1 <= len(in_turn(numbers)) <= 32", "len(in_turn(numbers)) < 1")),
    ("no period at all taken", COUNT, COUNT.replace("not 1", "not 0")),
    ("one period refused", COUNT, COUNT.replace("not 1", "not 2")),
    ("the count of numbers for that of periods", COUNT, COUNT.replace("len(in_turn(numbers))", "len(numbers)")),
    ("over 32 cut to 32", CHECK_22,
     "        numbers = numbers[:64] if len(numbers) % 2 == 0 else numbers\n" + CHECK_22),
    ("1,439 minutes at most", LENGTH, LENGTH.replace("1_440", "1_439")),
    ("1,441 minutes at most", LENGTH, LENGTH.replace("1_440", "1_441")),
    ("any length of a period", LENGTH, LENGTH.replace("not 1 <= minutes <= 1_440", "minutes < 1")),
    ("0 minutes taken", LENGTH, LENGTH.replace("not 1", "not 0")),
    ("1 minute refused", LENGTH, LENGTH.replace("not 1", "not 2")),
    ("minutes in 16 bits checked", LENGTH, LENGTH.replace("1 <= minutes", "1 <= minutes % 65_536")),
    ("the minutes of all periods together limited", LENGTH, LENGTH + "    refuse_if(sum(numbers[1::2]) > 1_440, 22)\n"),
    ("the minutes of all periods together limited, each free", LENGTH,
     "    refuse_if(not 1 <= sum(numbers[1::2]) <= 32 * 1_440, 22)\n"),
    ("only the first period's length checked", LENGTH, LENGTH.replace("in_turn(numbers))", "in_turn(numbers)[:1])")),
    ("only the last period's length checked", LENGTH, LENGTH.replace("in_turn(numbers))", "in_turn(numbers)[-1:])")),
    ("the last period's length not checked", LENGTH, LENGTH.replace("in_turn(numbers))", "in_turn(numbers)[:-1])")),
    ("the first period's length not checked", LENGTH, LENGTH.replace("in_turn(numbers))", "in_turn(numbers)[1:])")),
    ("a period too long cut to 1,440", LENGTH,
     "    refuse_if(0 in numbers[1::2], 22)\n    numbers[1::2] = [min(minutes, 1_440) for minutes in numbers[1::2]]\n"),
    ("a period of no minutes left out", LENGTH, LENGTH.replace("not 1 <= minutes <= 1_440", "minutes > 1_440")),
    ("an odd list's last number ignored", ODD, ""),
    ("an odd list's last number for one minute", ODD, "    numbers += [1] * (len(numbers) % 2)\n"),
    ("an odd list's last number to the end of the day", ODD, "    numbers += [1_440] * (len(numbers) % 2)\n"),
    ("one number alone taken", ODD,
     "    refuse_if(len(numbers) % 2 == 1 and len(numbers) > 1, 22)\n    numbers += [1] * (len(numbers) % 2)\n"),
    ("an odd list refused only where it is over 64", ODD,
     "    refuse_if(len(numbers) % 2 == 1 and len(numbers) > 64, 22)\n"),
    ("an even list refused", ODD, "    refuse_if(len(numbers) % 2 == 0, 22)\n"),
    # 3: which numbers.
    *RATE_LIMITS,
    ("an unpaired last number not checked for 3", EACH_RATE, "        for rate, _ in in_turn(numbers):\n"),
    ("minutes checked as rates", EACH_RATE, "        for rate in numbers:\n"),
    ("minutes checked for the rates", EACH_RATE, "        for rate in numbers[1::2]:\n"),
    ("only the first rate checked", EACH_RATE, "        for rate in numbers[:1]:\n"),
    ("only the last rate checked", EACH_RATE, "        for rate in numbers[0::2][-1:]:\n"),
    ("the first rate not checked", EACH_RATE, "        for rate in numbers[2::2]:\n"),
    ("the last rate not checked", EACH_RATE, "        for rate in numbers[0::2][:-1]:\n"),
    ("the last rate of an even list not checked", EACH_RATE,
     "        for rate in numbers[0:-2:2] + numbers[-1:] * (len(numbers) % 2):\n"),
    ("only the first 32 rates checked", EACH_RATE, "        for rate in numbers[0:64:2]:\n"),
    ("only the first 33 rates checked", EACH_RATE, "        for rate in numbers[0:66:2]:\n"),
    ("the last number of an even list checked as a rate too", EACH_RATE,
     "        for rate in numbers[0::2] + numbers[-1:]:\n"),
    ("rates not checked where their number is wrong", EACH_RATE,
     "        for rate in numbers[0::2] * (len(numbers) <= 64):\n"),
    ("rates not checked in an odd list", EACH_RATE, "        for rate in numbers[0::2] * (len(numbers) % 2 == 0):\n"),
    ("rates not checked where minutes are wrong", EACH_RATE,
     "        for rate in numbers[0::2] * all(1 <= x <= 1_440 for x in numbers[1::2]):\n"),
    ("the rate in 16 bits checked", "check_rate(rate)", "check_rate(rate % 65_536)"),
    ("a rate too high taken as 100,000", CHECK_3,
     "        numbers = [min(x, 100_000) if k % 2 == 0 else x for k, x in enumerate(numbers)]\n"),
    # The grounds' numbers and their order.
    *((f"22 as {number}, for {what}", old, old.replace("22", f"{number}"))
      for number in (3, 6, 19, 20, 21, 23) for what, old in (("an odd list", ODD), ("the count", COUNT), ("a length", LENGTH))),
    ("22 for 3", CHECK_3, "        refuse_if(any(rate > 100_000 for rate in numbers[0::2]), 22)\n"),
    ("22 before 3", *in_order(CHECK_22, CHECK_3, BOOK, CHECK_19)),
    ("an odd list before 3", *in_order(indented(ODD), CHECK_3, CHECK_22, BOOK, CHECK_19)),
    ("the count before 3", *in_order(indented(COUNT), CHECK_3, CHECK_22, BOOK, CHECK_19)),
    ("the lengths before 3", *in_order(indented(LENGTH), CHECK_3, CHECK_22, BOOK, CHECK_19)),
    ("3 and 22 period by period", *in_order(
        "        for k, number in enumerate(numbers):\n            refuse_if(k % 2 == 0 and number > 100_000, 3)\n"
        "            refuse_if(k % 2 == 1 and not 1 <= number <= 1_440, 22)\n", CHECK_22, BOOK, CHECK_19)),
    ("22 after the book", *in_order(CHECK_3, BOOK, CHECK_22, CHECK_19)),
    ("22 after 19", *in_order(CHECK_3, BOOK, CHECK_19, CHECK_22)),
    ("an odd list after the book", *in_order(CHECK_3, indented(COUNT + LENGTH), BOOK, CHECK_22, CHECK_19)),
    ("the lengths after the book", *in_order(CHECK_3, indented(ODD + COUNT), BOOK, CHECK_22, CHECK_19)),
    ("the count after the book", *in_order(CHECK_3, indented(ODD + LENGTH), BOOK, CHECK_22, CHECK_19)),
    *((f"22 after {ground}", *after_ground(ground)) for ground in range(9, 19)),
    ("3 after the book", *in_order(CHECK_22, BOOK, CHECK_3, CHECK_19)),
    ("3 after 9", *in_order("        refuse_if(len(book_bytes) < 8, 9)\n", CHECK_3, CHECK_22, BOOK, CHECK_19)),
    ("19 before 22",
     *in_order(CHECK_3, "        refuse_if(book_bytes and room < book_bytes[0], 19)\n", CHECK_22, BOOK, CHECK_19)),
    ("19 before 3",
     *in_order("        refuse_if(book_bytes and room < book_bytes[0], 19)\n", CHECK_3, CHECK_22, BOOK, CHECK_19)),
    ("19 before the book",
     *in_order(CHECK_3, CHECK_22, "        refuse_if(book_bytes and room < book_bytes[0], 19)\n", BOOK, CHECK_19)),
    *((f"19 before {ground}", *room_before(ground)) for ground in range(10, 19)),
    ("19 not made, the list cut short",
     *in_order(CHECK_3, CHECK_22, BOOK, "        if room < book.n:\n            return shut_room(book)[:room]\n")),
    ("19 at the exact length", *in_order(CHECK_3, CHECK_22, BOOK, CHECK_19.replace("<", "<="))),
    ("19 with two places too few only", *in_order(CHECK_3, CHECK_22, BOOK, CHECK_19.replace("room <", "room + 1 <"))),
    ("19 where there is more room than n", *in_order(CHECK_3, CHECK_22, BOOK, CHECK_19.replace("<", "!="))),
    ("19 with fewer than 16 places", *in_order(CHECK_3, CHECK_22, BOOK, CHECK_19.replace("book.n", "16"))),
    ("19 by the count of periods",
     *in_order(CHECK_3, CHECK_22, BOOK, CHECK_19.replace("book.n", "len(in_turn(numbers))"))),
    ("21 for 19", *in_order(CHECK_3, CHECK_22, BOOK, CHECK_19.replace("19", "21"))),
    SHARES_OUT_FREE,
    SHARES_IN,
    # What goes out.
    ("the parent left out", RETURN, RETURN.rstrip() + "[1:]\n"),
    ("the last member left out", RETURN, RETURN.rstrip() + "[:-1] or [G]\n"),
    ("the last member first", RETURN, RETURN.rstrip() + "[::-1]\n"),
    ("the rest of the list filled with zeros", RETURN, RETURN.rstrip() + " + [0] * (room - book.n)\n"),
    ("the rest of the list filled with G", RETURN, RETURN.rstrip() + " + [G] * (room - book.n)\n"),
    ("every period's factors, one after the other", RETURN,
     "    return (sum((opening_factors(in_turn(numbers)[: k + 1], book) for k in range(len(numbers) // 2)), []))[:room]\n"),
    ("the shut room", RETURN, "    return shut_room(book)\n"),
    ("the steady factors of the last rate", RETURN, "    return reported_factors(numbers[-2], book)\n"),
]


def is_quick(numbers, book, room):
    """Refused, or few enough minutes for the daughters that there are."""
    daughters = book[0] - 1 if book else 0
    return len(numbers) > 64 or max(numbers[1::2], default=0) > 1_440 or sum(numbers[1::2]) * daughters <= 6_000


def impatient(later):
    """A period far beyond the limit, where a mistake lets one through, is not waited for."""
    def bounded(v, minutes, book, factors):
        assert minutes <= 10_000
        return later(v, minutes, book, factors)
    return bounded


def prepare(reference):
    reference.minutes_later = impatient(reference.minutes_later)


def quick(cases):
    chosen = [(body, right) for body, right in cases if is_quick(*OPENING.unpack(body))]
    print(f"{len(cases) - len(chosen)} of {len(cases)} openings are long: no wrong reading is tried on them")
    return chosen


if __name__ == "__main__":
    run(__doc__, OPENING, MISTAKES, prepare, quick)
