"""The grounds for refusal in plain words: what is wrong, and where to look."""

GROUNDS = {
    1: ("The job is shorter than 48 bytes.", "the file: it is empty, cut short or no job; encode the text again"),
    2: ("The kind, the medium or the unit is none of those listed, or a byte that must be zero is not.", "kind, medium, unit"),
    3: ("The rate is more than 100,000 hundredths: 1,000 air changes per hour.", "rate"),
    4: ("The target is more than 1,000,000,000: a risk of 1, or 1,000,000 mrem per year.", "target"),
    5: (
        "The attenuation is more than 1,000,000 millionths, or the medium is indoor air and it is not 1,000,000.",
        "attenuation, medium",
    ),
    6: (
        "A group has over 366 days per year, 100 years, 24 hours (96 quarter hours) per day or 100 m3 per day, "
        "or neither has a year.",
        "exposure, or child and adult",
    ),
    7: ("The value or its uncertainty is negative (minus zero too), infinite or not a number.", "value, uncertainty"),
    8: (
        "The value, its uncertainty, both together or the concentration indoors is more than 4,000,000,000 mBq/m3.",
        "value, uncertainty, unit",
    ),
    9: ("The book is shorter than 8 bytes.", "the file: it is cut short after the job; encode the text again"),
    10: ("There is no member, or there are more than 16, or more than 64 feeds.", "the number of member and feed lines"),
    11: (
        "The book's length is not what its counts of members and feeds ask.",
        "the file: it is cut short, or something follows the book; encode the text again",
    ),
    12: ("The divisor is 0, or a byte of the book that must be zero is not.", "divisor"),
    13: (
        "A half-life is 0 or too long (the parent gas: over 10^15 ns, about 11.57 days; a later member: over 60,000 s, "
        "16 hours 40 minutes), or a coefficient or weight is more than 4,000,000,000.",
        "the member lines",
    ),
    14: (
        "A share is 0 or more than 100,000, or a feed comes from a member, or a chain leads to a feed, that is not there.",
        "the feed lines",
    ),
    15: ("A feed belongs to two members, or to none.", "the file: it is damaged; encode the text again"),
    16: ("The parent gas has a feed, or a later member has none.", "the feed lines"),
    17: (
        "A feed comes from the member that it feeds, or from a later one.",
        "the order of the member lines: each after all that feed it",
    ),
    18: ("The shares out of one member add up to more than 100,000.", "the feed lines from that member"),
    19: ("The list lent to the factor call is shorter than the chain.", "the program that calls; `screen` never says this"),
    20: ("A table has no rate, or more than 200.", "the rates given to `table`"),
    21: ("The report or the table is longer than the buffer lent to the call.", "the program that calls; no program here says this"),
    22: (
        "A rate has no minutes after it, or there is no period or more than 32, or one has 0 minutes or more than 1,440.",
        "the periods given to `opening`: rate and minutes in turn",
    ),
    23: (
        "The second set is not exactly 20 bytes for each member, or has a number over 4,000,000,000.",
        "the text of the set: its member lines; encode it again with the text of this chain",
    ),
    24: (
        "The table is not 1 to 200 lines of the printed form, each a rate of at most 100,000 and an entry for each member.",
        "the lines of the table; docs/CHECK.md says how one is written",
    ),
}


def explained(number):
    wrong, look = GROUNDS[number]
    return f"{number}. {wrong}\n    Where to look: {look}\n"


def table():
    """The grounds as docs/REFUSALS.md shows them."""
    rows = [f"| {number} | {wrong} | {look} |" for number, (wrong, look) in GROUNDS.items()]
    return "\n".join(["| number | what is wrong | where to look |", "|---|---|---|"] + rows) + "\n"
