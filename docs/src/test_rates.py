"""Are the recorded runs of many rates sharp? Each wrong reading of R-9 in document 02 must change some recorded answer.

    test_rates.py
"""

import functools

import wrong_readings
from recorded import RATES
from wrong_readings import K_ONE_LESS, RATE_LIMITS, SHARES_IN, SHARES_OUT_FREE, book_but_before, in_place_of

# Texts of the reference that several mistakes are about.
REFUSED = "    if isinstance(filled, int):\n        return -filled, row\n"
ACCEPTED = "    return len(filled), filled + row[len(filled) :]\n"
COUNT = "    count = min(len(rates), len(answers))\n"
EACH = "    for k in range(count):\n"
ROW = "        row = slice(k * width, (k + 1) * width)  # shorter where the list ends within it, or empty\n"
STEP = "        answers[k], rows[row] = factors_in(rows[row], rates[k], book_bytes)\n"
RETURN = "    return count, answers, rows\n"
CHECK_3 = "        check_rate(v)\n"
BOOK = "        book = read_book(book_bytes)\n"
CHECK_19 = "        refuse_if(room < book.n, 19)\n"
FACTORS = "    return reported_factors(v, book)\n"
CALL = CHECK_3 + BOOK + CHECK_19

in_order = in_place_of(CALL)
N = "(book_bytes or b'?')[0]"  # as the book's first byte claims


# ---- Texts put in their place --------------------------------------------------------------------


def lines_of(lines, indent):
    return "".join(indent + line + "\n" for line in lines)


def run(count):
    """Another number of rates run."""
    return COUNT, f"    count = {count}\n"


def before(*lines):
    """Something done before the first row."""
    return EACH, lines_of(lines, "    ") + EACH


def after(*lines):
    """Something done after the last row."""
    return RETURN, lines_of(lines, "    ") + RETURN


def then(*lines):
    """Something done after each row."""
    return STEP, STEP + lines_of(lines, "        ")


def instead(test, line):
    """Where this holds the line is done, and the row not worked out."""
    return STEP, lines_of((f"if {test}:", f"    {line}", "    continue"), "        ") + STEP


def at(start, end):
    """Each row at other places."""
    return ROW, f"        row = slice({start}, {end})\n"


def moved_up(test):
    """A row is past the one before only where this holds of that one."""
    return at("at := 0 if k == 0 else at + width * (" + test + ")", "at + width")


def rate(text):
    """Each row at another rate."""
    return STEP, STEP.replace("rates[k]", text)


def told(room):
    """The factor call is told of another number of places; what has no place in the row is lost."""
    return STEP, lines_of((f"answers[k], filled = factors_in([7] * ({room}), rates[k], book_bytes)",
                           "rows[row] = filled[: len(rows[row])] + rows[row][len(filled) :]"), "        ")


def refused(row):
    """Another content of a refused row."""
    return REFUSED, REFUSED.replace(", row", f", {row}")


def filled(row):
    """Another content of a row that is filled."""
    return ACCEPTED, f"    return len(filled), {row}\n"


def accepted(answer):
    """Another answer where the row is filled."""
    return ACCEPTED, ACCEPTED.replace("len(filled)", answer, 1)


def answered(count):
    """Another answer of the call."""
    return RETURN, RETURN.replace("count", count)


def all_answers(text):
    """Other answers for the rates that were run."""
    return after(f"answers[:count] = {text}")


def past_the_last(answer):
    """Something in the places past the last rate's answer."""
    return after(f"answers[count:] = [{answer}] * (len(answers) - count)")


def run_too(count):
    """Rates without a place for their answer run too, up to this many."""
    return STEP, (STEP + f"    for k in range(count, {count}):\n" + ROW
                  + "        _, rows[row] = factors_in(rows[row], rates[k], book_bytes)\n")


def with_book(*lines):
    """Something done once for the whole run where the book is refused."""
    return COUNT, COUNT + lines_of(("try:", "    read_book(book_bytes)", "except Refused as refusal:"), "    ") + (
        lines_of(lines, "        "))


def book_first(ground):
    """The book's grounds up to this one come before 3."""
    guarded = ("try:", "    read_book(book_bytes)", "except Refused as refusal:",
               f"    refuse_if(refusal.number <= {ground}, refusal.number)")
    return in_order(lines_of(guarded, "        "), CHECK_3, BOOK, CHECK_19)


def room_before(ground):
    """19 before one ground of the book."""
    return in_order(CHECK_3, book_but_before(ground, "room < book_bytes[0], 19"), CHECK_19)


# ---- What is wrong, the reference's text, the text put in its place ------------------------------

MISTAKES = [
    # Which rates are run.
    ("the last rate left out", *run("max(0, min(len(rates), len(answers)) - 1)")),
    ("the first rate left out", EACH, EACH.replace("range(", "range(1, ")),
    ("rates sorted", *before("rates = sorted(rates)")),
    ("rates from the last to the first", *before("rates = rates[::-1]")),
    ("the rates that are run from the last to the first", *before("rates = rates[:count][::-1]")),
    ("a rate that comes again not run", *instead("rates[k] in rates[:k]", "pass")),
    ("a rate that comes again run once, the rows moved up", COUNT, "    rates = list(dict.fromkeys(rates))\n" + COUNT),
    ("the rate before again not run", *instead("k > 0 and rates[k] == rates[k - 1]", "pass")),
    ("no rate run from the first that falls on", *instead("rates[: k + 1] != sorted(rates[: k + 1])", "pass")),
    ("a rate that falls refused with 20", *instead("k > 0 and rates[k] < rates[k - 1]", "answers[k] = -20")),
    ("over 200 rates refused with 20", *instead("len(rates) > 200", "answers[k] = -20")),
    ("no rates refused with 20", *after("if not rates and answers:", "    answers[0] = -20")),
    *((f"{most} rates at most", *run(f"min({most}, len(rates), len(answers))"))
      for most in (1, 16, 64, 99, 200, 255, 256)),
    ("the number of rates in one byte", *run("min(len(rates) % 256, len(answers))")),
    ("the number of answers in one byte", *run("min(len(rates), len(answers) % 256)")),
    ("only the rates that have a whole row", *run("min(len(rates), len(answers), len(rows) // (width or 1))")),
    ("only the rates whose row begins in the list",
     *run("min(len(rates), len(answers), -(-len(rows) // (width or 1)))")),
    ("rates without a place for their answer run", *run_too("len(rates)")),
    ("one rate without a place for its answer run", *run_too("min(count + 1, len(rates))")),
    ("the last rate again for the answers past it", COUNT,
     "    rates = rates + rates[-1:] * (len(answers) - len(rates))\n" + COUNT),
    ("rate 0 for the answers past the last", COUNT, "    rates = rates + [0] * (len(answers) - len(rates))\n" + COUNT),
    ("none where answers are too few", *run("len(rates) * (len(rates) <= len(answers))")),
    ("none where answers are too many", *run("len(answers) * (len(rates) >= len(answers))")),
    ("none where rows are too few", COUNT, COUNT + "    count *= len(rates) * width <= len(rows)\n"),
    ("none where rows are too many", COUNT, COUNT + "    count *= len(rates) * width >= len(rows)\n"),
    ("none at a width of 0", COUNT, COUNT + "    count *= width > 0\n"),
    ("none at a width over 16", COUNT, COUNT + "    count *= width <= 16\n"),
    ("none at a width under n", COUNT, COUNT + f"    count *= width >= {N}\n"),
    ("none at a width past the list", COUNT, COUNT + "    count *= width <= len(rows)\n"),
    # The rate of a row.
    ("every row at the first rate", *rate("rates[0]")),
    ("every row at the last rate", *rate("rates[-1]")),
    ("every row at the rate before", *rate("rates[max(k - 1, 0)]")),
    ("every row at the rate after", *rate("rates[min(k + 1, len(rates) - 1)]")),
    ("every row at rate 0", *rate("0")),
    ("every row at the highest rate so far", *rate("max(rates[: k + 1])")),
    ("every row at the lowest rate so far", *rate("min(rates[: k + 1])")),
    ("rates in tens from the first on", *rate("rates[0] + 10 * k")),
    ("the row's number for the rate", *rate("k")),
    ("the rate in tens", *rate("rates[k] // 10 * 10")),
    ("the rate in whole air changes", *rate("rates[k] // 100 * 100")),
    ("the rate in air changes", *rate("rates[k] // 100")),
    *((f"the rate in {bits} bits", *rate(f"rates[k] % 2**{bits}")) for bits in (16, 24, 31)),
    ("the rate one higher", *rate("rates[k] + 1")),
    # What the call answers.
    ("how many rates there are", *answered("len(rates)")),
    ("how many answers there are", *answered("len(answers)")),
    ("the larger of both", *answered("max(len(rates), len(answers))")),
    ("one rate more", *answered("count + 1")),
    ("one rate fewer", *answered("max(count - 1, 0)")),
    ("how many rows were filled", *answered("sum(answer > 0 for answer in answers[:count])")),
    ("how many rates were not too high", *answered("sum(answer != -3 for answer in answers[:count])")),
    ("how many rows there are", *answered("(len(rows) // width if width else 0)")),
    ("how many places were filled", *answered("sum(max(answer, 0) for answer in answers[:count])")),
    ("the last answer", *answered("(answers[count - 1] if count else 0)")),
    ("the first refusal", *answered("next((answer for answer in answers[:count] if answer < 0), count)")),
    ("the count in one byte", *answered("count % 256")),
    ("0 where every row is refused", *answered("count * (max(answers[:count], default=1) > 0)")),
    # The answers.
    ("a refusal without its minus", REFUSED, REFUSED.replace("-filled", "filled")),
    ("-1 for every refusal", REFUSED, REFUSED.replace("-filled", "-1")),
    ("0 for every refusal", REFUSED, REFUSED.replace("-filled", "0")),
    ("a refusal not answered", REFUSED, REFUSED.replace("-filled", "7")),
    ("0 for a row that is filled", *accepted("0")),
    ("1 for a row that is filled", *accepted("1")),
    ("how many places the row has", *accepted("len(row)")),
    ("one member fewer", *accepted("len(filled) - 1")),
    ("the first answer for all", *all_answers("answers[:1] * count")),
    ("the last answer for all", *all_answers("answers[count - 1 : count] * count")),
    ("the lowest answer for all", *all_answers("[min(answers[:count], default=0)] * count")),
    ("the highest answer for all", *all_answers("[max(answers[:count], default=0)] * count")),
    ("the answers from the last to the first", *all_answers("answers[:count][::-1]")),
    ("each answer one place late", *all_answers("answers[count - 1 : count] + answers[: max(count - 1, 0)]")),
    ("each answer one place late, past the last too", *after("answers = answers[-1:] + answers[:-1]")),
    ("0 in the answers past the last", *past_the_last("0")),
    ("0 in the one answer past the last", *after("answers[count : count + 1] = [0] * (len(answers) > count)")),
    ("19 in the answers past the last", *past_the_last("-19")),
    ("n in the answers past the last", *past_the_last("max(answers[:count], default=1)")),
    ("the answers not written", *after("answers = [7] * len(answers)")),
    # What a row holds.
    ("a refused row set to 0", *refused("[0] * len(row)")),
    ("a refused row's first place set to 0", *refused("[0] * min(1, len(row)) + row[1:]")),
    ("a refused row's first place G", *refused("[G] * min(1, len(row)) + row[1:]")),
    ("a refused row's first place its number", *refused("[filled] * min(1, len(row)) + row[1:]")),
    ("a row refused with 3 has the factors at 100,000", REFUSED,
     "    if filled == 3:\n        return -3, factors_in(row, 100_000, book_bytes)[1]\n" + REFUSED),
    ("a row refused with 19 has the factors that go into it", REFUSED,
     "    if filled == 19:\n        return -19, factor_call(v, book_bytes, 16)[: len(row)]\n" + REFUSED),
    ("a refused row has what the row before has",
     *then("if k > 0 and answers[k] < 0:", "    rows[row] = rows[(k - 1) * width : k * width][: len(rows[row])]")),
    ("the places past the n-th set to 0", *filled("filled + [0] * (len(row) - len(filled))")),
    ("the place past the n-th set to 0", *filled("(filled + [0] + row[len(filled) + 1 :])[: len(row)]")),
    ("the last factor up to the row's end", *filled("filled + filled[-1:] * (len(row) - len(filled))")),
    ("the factors at the row's end", *filled("row[len(filled) :] + filled")),
    ("the last member first", *filled("filled[::-1] + row[len(filled) :]")),
    ("the gas left out", *filled("filled[1:] + row[len(filled) - 1 :]")),
    ("the last member left out", *filled("filled[:-1] + row[len(filled) - 1 :]")),
    ("the first row for all",
     *then("if answers[k] > 0 < k:", "    rows[row] = (rows[:width] + rows[row])[: len(rows[row])]")),
    ("the highest of this row and the one before",
     *then("if answers[k] > 0 < k:", "    rows[row] = [*map(max, rows[row], rows[(k - 1) * width :])]")),
    ("only the first row written", *then("if k > 0:", "    rows[row] = [7] * len(rows[row])")),
    ("only the last row written", *then("if k < count - 1:", "    rows[row] = [7] * len(rows[row])")),
    ("no row written", *after("rows = [7] * len(rows)")),
    ("no row written unless all are", *after("if min(answers[:count], default=0) < 0:", "    rows = [7] * len(rows)")),
    ("0 past the last row", *after("rows[count * width :] = [0] * len(rows[count * width :])")),
    ("0 in the one place past the last row", *after("if len(rows) > count * width:", "    rows[count * width] = 0")),
    ("the exact factors in whole grains", FACTORS, "    return [floor(x * G) for x in exact_factors(v, book)]\n"),
    ("one rounding of the factor, not two", "F = inflow // 100_000", "F = Fraction(inflow, 100_000)"),
    ("member 1 copied for the rest", "book.feeds_into[i])\n        F", "book.feeds_into[1])\n        F"),
    K_ONE_LESS,
    # Where a row is.
    ("rows one place apart", *at("k", "k + width")),
    ("rows n places apart", *at(f"k * {N}", f"k * {N} + width")),
    ("rows of n places, n places apart", *at(f"k * {N}", f"(k + 1) * {N}")),
    ("rows of n places, whatever the width", *at("k * width", f"k * width + {N}")),
    ("rows 16 places apart", *at("k * 16", "k * 16 + width")),
    ("rows of 16 places, 16 places apart", *at("k * 16", "(k + 1) * 16")),
    ("rows a place more than the width apart", *at("k * (width + 1)", "k * (width + 1) + width")),
    ("rows a place fewer than the width apart", *at("k * max(width - 1, 0)", "k * max(width - 1, 0) + width")),
    ("rows that go on to the list's end", *at("k * width", "None")),
    ("rows from the second on", *at("(k + 1) * width", "(k + 2) * width")),
    ("rows from the second place on", *at("k * width + 1", "(k + 1) * width + 1")),
    ("every row at the start", *at("0", "width")),
    ("rows from the last to the first", *at("(count - 1 - k) * width", "(count - k) * width")),
    ("rows from the list's end", *at("max(len(rows) - (k + 1) * width, 0)", "max(len(rows) - k * width, 0)")),
    ("the list in as many rows as there are rates",
     *at("k * (len(rows) // len(rates))", "(k + 1) * (len(rows) // len(rates))")),
    ("a refused row takes no place", *moved_up("answers[k - 1] > 0")),
    ("a row refused with 3 takes no place", *moved_up("answers[k - 1] != -3")),
    ("member by member, the rates side by side", *after(
        "whole = [*rows[: count * width]] if len(rows) >= count * width else []",
        "rows[: len(whole)] = [whole[k * width + i] for i in range(width) for k in range(count)] if whole else []")),
    ("a width of 0 as 1", *at("k * (width or 1)", "(k + 1) * (width or 1)")),
    ("a width of 0 as n", *at(f"k * (width or {N})", f"(k + 1) * (width or {N})")),
    ("a width of 0 as 16", *at("k * (width or 16)", "(k + 1) * (width or 16)")),
    ("a width of 0 as the whole list", *at("k * (width or len(rows))", "(k + 1) * (width or len(rows))")),
    ("a width under n as n", *at(f"k * max(width, {N})", f"(k + 1) * max(width, {N})")),
    *((f"a width over {most} as {most}", *at(f"k * min(width, {most})", f"(k + 1) * min(width, {most})"))
      for most in (16, 64, 255)),
    ("the width in one byte", *at("k * (width % 256)", "(k + 1) * (width % 256)")),
    *((f"where a row starts in {bits} bits", *at(f"k * width % 2**{bits}", f"k * width % 2**{bits} + width"))
      for bits in (8, 16)),
    # 19: a row too narrow, cut short or missing.
    ("19 where the row is not whole", *told("len(rows[row]) // (width or 1) * width")),
    ("a row that is cut short filled as far as it goes", *told("width if rows[row] else 0")),
    ("19 by the width alone", *told("width")),
    ("19 only where the row is missing", *told("16 if rows[row] else 0")),
    ("19 never", *told("16")),
    ("19 at exactly n places", *told("max(0, len(rows[row]) - 1)")),
    ("19 with two places too few only", *told("len(rows[row]) + 1")),
    ("19 with fewer than 16 places", *told("len(rows[row]) // 16 * 16")),
    ("19 where there are more places than n", *in_order(CHECK_3, BOOK, CHECK_19.replace("<", "!="))),
    ("19 by the places from the row on to the list's end", *told("max(len(rows) - k * width, 0)")),
    ("19 by the places of the whole list", *told("len(rows)")),
    ("19 for every row where the list has too few places for all", *told("0 if len(rows) < count * width else width")),
    ("19 for every row where one is refused so", *after(
        "if -19 in answers[:count]:", "    answers[:count] = [-19] * count")),
    ("0 for a row that is missing", *instead("rows[row] == []", "answers[k] = 0")),
    ("0 for a row that is cut short", *instead("0 < len(rows[row]) < width", "answers[k] = 0")),
    ("a row that is missing not answered", *instead("rows[row] == []", "pass")),
    ("a row that is cut short not answered", *instead("0 < len(rows[row]) < width", "pass")),
    ("the run ends with the first 19", *instead("-19 in answers[:k]", "pass")),
    *((f"19 as {number}", *in_order(CHECK_3, BOOK, CHECK_19.replace("19", f"{number}"))) for number in (18, 20, 21)),
    # 3: a rate that is too high.
    *RATE_LIMITS,
    ("a rate that is too high refuses all", *instead("max(rates[:count]) > 100_000", "answers[k] = -3")),
    ("a rate that is too high refuses all, even if it is not run", *instead("max(rates) > 100_000", "answers[k] = -3")),
    ("a rate that is too high refuses those after it", *instead("max(rates[: k + 1]) > 100_000", "answers[k] = -3")),
    ("a rate that is too high refuses those before it", *instead("max(rates[k:count]) > 100_000", "answers[k] = -3")),
    ("a rate that is too high ends the run", *instead("max(rates[:k], default=0) > 100_000", "pass")),
    ("a rate that is too high ends the run before it", COUNT,
     COUNT + "    count = next((k for k in range(count) if rates[k] > 100_000), count)\n"),
    ("a rate that is too high not answered", *instead("rates[k] > 100_000", "pass")),
    ("a rate that is too high answered with 0", *instead("rates[k] > 100_000", "answers[k] = 0")),
    ("a rate that is too high taken as 100,000", *rate("min(rates[k], 100_000)")),
    ("a rate that is too high left out, the rows moved up", COUNT,
     "    rates = [v for v in rates if v <= 100_000]\n" + COUNT),
    ("no row written where a rate is too high", *after("if -3 in answers[:count]:", "    rows = [7] * len(rows)")),
    *((which, *rate(f"(rates[k] if {test} else min(rates[k], 100_000))")) for which, test in (
        ("only the first rate checked", "k == 0"), ("only the last rate checked", "k == count - 1"),
        ("the first rate not checked", "k > 0"), ("the last rate not checked", "k < count - 1"),
        ("only the first 200 rates checked", "k < 200"), ("only the first 256 rates checked", "k < 256"))),
    # The book's grounds, and their order beside 3 and 19.
    SHARES_OUT_FREE,
    SHARES_IN,
    ("the book before 3", *in_order(BOOK, CHECK_3, CHECK_19)),
    ("3 after 19", *in_order(BOOK, CHECK_19, CHECK_3)),
    *((f"3 after {ground}", *book_first(ground)) for ground in range(9, 18)),
    ("19 before 3", *in_order(f"        refuse_if(room < {N} <= 16, 19)\n", CHECK_3, BOOK, CHECK_19)),
    ("19 before the book", *in_order(CHECK_3, f"        refuse_if(book_bytes and room < {N}, 19)\n", BOOK, CHECK_19)),
    ("19 before the book for a row without a place",
     *in_order(CHECK_3, "        refuse_if(room == 0, 19)\n", BOOK, CHECK_19)),
    *((f"19 before {ground}", *room_before(ground)) for ground in range(10, 19)),
    ("a refused book answered once", *instead("k > 0 and -18 <= answers[0] <= -9", "pass")),
    ("a refused book ends the run", *with_book("count = min(count, 1)")),
    ("no rate of a refused book run", *with_book("count = 0")),
    ("a refused book's number the call's answer", *with_book("return -refusal.number, answers, rows")),
    ("a refused book's number in the first answer, and no rate run", *with_book(
        "answers[:1] = [-refusal.number] * len(answers[:1])", "count = 0")),
    ("3 for every rate of a refused book where one is too high", *with_book(
        "rates = [max(rates, default=0)] * len(rates)")),
    ("the book's number for every rate", *with_book("rates = [0] * len(rates)")),
    # One row after another.
    ("a row after a refused one not run", *instead("k > 0 and answers[k - 1] < 0", "pass")),
    ("the run ends with the first refusal", *instead("min(answers[:k], default=0) < 0", "pass")),
    ("a row after a refused one refused as that was",
     *instead("k > 0 and answers[k - 1] < 0", "answers[k] = answers[k - 1]")),
]


def prepare(reference):
    """The same book comes up for every rate of a run."""
    reference.read_book = functools.cache(reference.read_book)


if __name__ == "__main__":
    wrong_readings.run(__doc__, RATES, MISTAKES, prepare)
