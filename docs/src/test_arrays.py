"""No list of factors but the lent ones: every array in the source of the crates that the three calls for factors reach.

    test_arrays.py

Every place where these crates write an array type or an array literal, or have a function make an array, must be on
the lists below. A factor takes 41 bits, so an array of narrower elements holds none; of a struct the fields are looked
up in the source, and of another name of a type what it stands for. Those with wider elements are the half-lives and the
sums of the shares, in the crate of the book, which works out no factor, and the columns of a wide number, which no call
reaches. The crates that do work out factors own no array, and have every other lent, or held in a chain. They write
to the lent lists alone, and a chain they only read from a book, accept, ask and hand on, so that it keeps what was read
into it. What the search would miss is tried too: spare lists, put into the source in several ways, must each be found.
Prints the arrays that each call meets on its way, with their bytes.
"""

import functools
import math
import pathlib
import re
import sys

from plain_help import answer_help
from tally import say_passed

CRATES = pathlib.Path(__file__).resolve().parents[2] / "crates"
CALLS = {
    "the factor call": ("balance", "factors"),
    "the call for periods": ("minutes", "factors_after"),
    "the call for many rates": ("portfolios", "factors_at_rates"),
}
FACTOR_BITS = 41
WIDTHS = {"u8": 8, "u16": 16, "u32": 32, "u64": 64, "usize": 64, "i64": 64, "f64": 64, "bool": 8}

# The arrays whose elements are too narrow for a factor.
LISTED = {
    "book/src/chain.rt": {"pub ends: [u8; MAX_MEMBERS]", "pub feeds: [Feed; MAX_FEEDS]"},
    "book/src/held.rt": {
        "ends: &mut [u8; MAX_MEMBERS]",
        "let mut ends = [0u8; MAX_MEMBERS]",
        "feeds: &mut [Feed; MAX_FEEDS]",
        "let mut feeds = [Feed { share: 0, from: 0 }; MAX_FEEDS]",
    },
    "book/src/layout.rt": {"pub type Coefficients = [u32; COEFFICIENTS]"},
    "book/src/checks/walk.rt": {"counts: &mut [u8; 256]", "let mut counts = [0u8; 256]"},
    "numbers/src/bytes.rt": {"-> [u8; N]"},
    "wide/src/number.rt": {"limbs: [u32; 6]", "-> [u32; 6]"},
}

# The columns of a wide number and the limbs that they become. No call reaches them.
COLUMNS = {
    "wide/src/columns.rt": {"columns: [u64; 6]", "let mut limbs = [0; 6]"},
    "wide/src/arithmetic.rt": {
        "let settled = settle(from_fn(|i| limb_sum(a[i], b[i])))",
        "settle(from_fn(|i| limb_product(a[i], k)))",
    },
}

# The arrays with wider elements, or that do not say how wide they are, and what they hold: half-lives, sums of shares,
# a member's numbers, bytes and limbs.
WIDE_LISTS = COLUMNS | {
    "book/src/chain.rt": {"pub half_lives: [u64; MAX_MEMBERS]"},
    "book/src/held.rt": {"let mut half_lives = [0u64; MAX_MEMBERS]"},
    "book/src/checks/shares.rt": {"sums: &mut [u64; MAX_MEMBERS]", "let mut sums = [0u64; MAX_MEMBERS]"},
    "book/src/coefficients.rt": {"from_fn(|which| coefficient_at(bytes, at, which as u16))"},
    "numbers/src/bytes.rt": {"return from_fn(|k| bytes[at + k])", "from_fn(|k| byte_at(bytes, at + k))"},
    "wide/src/number.rt": {
        "limbs: [0, 0, 0, 0, upper(x), low(x)]",
        "limbs: [f, e, d, c, b, a]",
        "[f, e, d, c, b, a]",
    },
}

# The lists that are lent: that of a call for one rate; those of a call for many, whose rows are cut into parts.
LENT = {"out", "answers", "rows", "front", "back", "a", "b", "c", "d"}
LENT_PARTS = (
    r"\b\w+: &mut \[[iu]64\]|&mut (?:answers|rows)\[[^]]*\]|\blet \(\w+, \w+\) = (?:front|back|rows)\.split_at_mut\("
)

# What a crate that works out factors may change besides: a number of its own, and the sums of four rows.
OWN = r"let mut \w+(: \w+)? = \d\w*;|let mut sums = Four \{"

# What the crates that work out factors take from the book besides its limits, and what they may do with a chain: take
# it as a parameter, read it from a book, accept it, ask it and hand it on. Some functions are lent it before it is
# accepted.
TAKEN = {"AcceptedChain", "Feed", "HeldChain", "Rate", "check_book", "member_count", "read_chain"}
LENT_UNACCEPTED = "factors_read|run_rates|run_next|run_one"
HANDED = (
    r"\bchain: AcceptedChain<'_>(?=[,)])"
    rf"|\bfn (?:{LENT_UNACCEPTED})\([\w\s:<>(),&[\]]*\bchain: &HeldChain<'_>(?=[,)])"
    r"|\blet chain = read_chain\(book\);"
    r"|\blet accepted = AcceptedChain \{ chain(?:: &\*chain)? \};|\bAcceptedChain \{ chain: &chain \}(?=[,)])"
    r"|\b(chain|accepted)\.(members|scale|half_life|feeds)\(|[(,]\s*&?(chain|accepted)(?=[,)])"
)


def bare(text):
    """The source without its comments, contracts and imports of definitions."""
    text = re.sub(r"//[^\n]*", "", text)
    return without_contracts(re.sub(r"ghost use [^;]*;", "", text))


def without_contracts(text):
    """A contract may have a name; it ends with the brace that closes its first one."""
    kept, at = "", 0
    for contract in re.finditer(r"\b(requires|ensures)(\s+\w+)?\s*\{", text):
        kept += text[at : contract.start()]
        at, open_braces = contract.end(), 1
        while open_braces > 0:
            open_braces += {"{": 1, "}": -1}.get(text[at], 0)
            at += 1
    return kept + text[at:]


def brackets(text):
    """Each [...] of the source, from its first bracket to the one that closes it, with what stands before it."""
    opened = []
    for at, sign in enumerate(text):
        if sign == "[":
            opened.append(at)
        elif sign == "]":
            start = opened.pop()
            yield text[:start].rstrip(), " ".join(text[start : at + 1].split())


def made(text):
    """The statements that have a function make an array."""
    for statement in re.findall(r"[^;{}]*\bfrom_fn\b[^;{}]*", text):
        if statement.strip() != "use std::array::from_fn":
            yield " ".join(statement.split())


def written_out(text):
    """The array types and array literals, each with what stands before it in its parameter, field or statement."""
    for before, found in brackets(text):
        index = re.search(r"((^|[^'\w])\w+|[)\]])$", before) and not re.search(r"\b(mut|return|break|in|else)$", before)
        slice_type = re.search(r"&('\w+)?( ?mut)?$", before) and re.fullmatch(r"\[\w+\]", found)
        if not index and not slice_type and not before.endswith(("#", "#!")):
            place = " ".join(re.search(r"[^,;(){}[]*$", before)[0].split())
            yield f"{place} {found}".strip().replace("& [", "&[")


@functools.cache
def arrays(text):
    return [*written_out(text), *made(text)]


def functions(text):
    """The name and the text of each function."""
    starts = [start.start() for start in re.finditer(r"\bfn \w+", text)] + [len(text)]
    for start, end in zip(starts, starts[1:]):
        yield re.match(r"fn (\w+)", text[start:])[1], text[start:end]


def needed_by(crate):
    """A crate and what it stands on, by the list of crates."""
    lines = CRATES.parent.joinpath("crates.txt").read_text(encoding="utf-8").splitlines()
    named = (line.partition(":") for line in lines if not line.startswith("#"))
    uses = {head.split()[0]: rest.split() for head, _, rest in named}
    return {crate}.union(*(needed_by(used) for used in uses.get(crate, [])))


def sources():
    """The bare text of each source file of the crates that the calls stand on."""
    crates = set().union(*(needed_by(crate) for crate, _ in CALLS.values()))
    files = (path for crate in crates for path in CRATES.joinpath(crate, "src").rglob("*.rt"))
    return {str(path.relative_to(CRATES)): bare(path.read_text(encoding="utf-8")) for path in sorted(files)}


def reached(texts, call):
    """The functions that a call reaches, by their crates and names. Where a name has several, all of them."""
    bodies, called = {}, {}
    for path, text in texts.items():
        for name, body in functions(text):
            bodies.setdefault((path.split("/")[0], name), []).append((path, body))
    crates = {crate for crate, _ in bodies}
    waiting = [call]
    while waiting:
        crate, name = waiting.pop()
        if (crate, name) in called or (crate, name) not in bodies:
            continue
        called[crate, name] = bodies[crate, name]
        words = {word for _, body in bodies[crate, name] for word in re.findall(r"\b(\w+)\(", body)} - {name}
        waiting += [(other, word) for other in crates for word in words]
    return called


def complaints(texts):
    """What the search finds wrong, a line each."""
    found = {(path, array) for path, text in texts.items() for array in arrays(text)}
    lists = [*LISTED.items(), *WIDE_LISTS.items()]
    listed = {(path, array) for path, written in lists for array in written}
    lines = [f"{path}: {array} is not on the list" for path, array in sorted(found - listed)]
    return lines + [f"{path}: {array} is on the list and not in the source" for path, array in sorted(listed - found)]


def count(texts, size):
    """How many elements an array's size is, by the constants of the book."""
    book = texts["book/src/limits.rt"] + texts["book/src/layout.rt"]
    constants = dict(re.findall(r"const (\w+): usize = (\d+);", book))
    return math.prod(int(number) if number.isdigit() else int(constants[number]) for number in size.split(" * "))


def stands_for(texts, name):
    """The types that a name of the source stands for: a struct's fields, or the type that it is another name of."""
    source = "\n".join(texts.values())
    structs = re.findall(rf"\bstruct {name}\b[^;({{]*\{{\n(.*?)\n\}}", source, re.DOTALL)
    fields = [re.findall(r"(?<!ghost )\b\w+: ((?:\[.*\]|[^,\n])+)", struct) for struct in structs]
    return sum(fields, re.findall(rf"\btype {name} = (.*);", source))


def widths(texts, element):
    """The bits of each number of an element, by its type or a literal that names it. One that the source does not
    explain is as wide as can be."""
    array = re.fullmatch(r"\[(.*); ([^];]+)\]", element)
    if array:
        return widths(texts, array[1]) * count(texts, array[2])
    name = re.match(r"\d*([A-Za-z]\w*)", element)
    if name and name[1] in WIDTHS:
        return [WIDTHS[name[1]]]
    types = stands_for(texts, name[1]) if name else []
    return [bits for each in types for bits in widths(texts, each)] or [math.inf]


def size(texts, array):
    """The bytes of an array. The numbers of an element have no gap between them, but may have one after them, so that
    the next element's widest number stands where it may."""
    element, _, length = array[1:-1].rpartition("; ")
    bits = widths(texts, element)
    aligned = math.ceil(sum(bits) / max(bits)) * max(bits)
    return aligned // 8 * count(texts, length)


def met(texts, call):
    """The arrays that the functions on the way of a call own by a name, and the bytes of each."""
    bodies = "".join(body for places in reached(texts, call).values() for _, body in places)
    lets = (re.fullmatch(r"let (?:mut )?(\w+)(?:: | = )(\[.*\])", array) for array in arrays(bodies))
    return {let[1]: size(texts, let[2]) for let in lets if let}


def of_factors(path):
    """Whether the file is of a crate that works out factors."""
    return path.split("/")[0] in {crate for crate, _ in CALLS.values()}


def holds(texts, array):
    """Whether an element of the array could hold a factor, as far as the array says."""
    element = re.search(r"\[(.*); [^];]+\]$", array)
    return not element or max(widths(texts, element[1])) >= FACTOR_BITS


def wide(texts):
    """Arrays whose elements could hold a factor, and are not known to hold something else; and arrays that a crate of
    factors does not just read."""
    for path, text in texts.items():
        for array in arrays(text):
            if holds(texts, array) and array not in WIDE_LISTS.get(path, set()):
                yield f"{path}: {array} has elements that hold a factor"
            if of_factors(path) and "&[" not in array:
                yield f"{path}: {array} is not lent to be read"


def columns(texts):
    """The columns that a call reaches."""
    for name, call in CALLS.items():
        for path, body in sum(reached(texts, call).values(), []):
            for array in COLUMNS.get(path, set()).intersection(arrays(body)):
                yield f"{path}: {name} reaches {array}"


def lent(words):
    """Whether the words speak of no list but the lent ones."""
    named = re.match(r"(\w+): &mut ", words)
    return not named or named[1] in LENT


def written(texts):
    """What the crates that work out factors write to, or could keep a list in, besides the lent lists."""
    for path, text in texts.items():
        if not of_factors(path):
            continue
        for target in re.findall(r"([\w.]+)\s*\[[^]]*\]\s*[-+*/|&^%<>]*=(?!=)", text):
            if target not in LENT | {"let"}:
                yield f"{path}: {target} is written to"
        unlent = re.sub(rf"{LENT_PARTS}|{OWN}", lambda kept: "" if lent(kept[0]) else kept[0], text)
        for found in re.findall(r".*(?:mut\b|\b(?:Vec|Box|vec|alloc)\b).*", unlent):
            yield f"{path}: {found.strip()}"


def chains(texts):
    """What the crates that work out factors take from the book, or do with a chain, and may not."""
    for path, text in texts.items():
        if not of_factors(path):
            continue
        code = re.sub(r"#!?\[[^]]*\]", "", text)
        for names in re.findall(r"\bbook::(\{[^}]*\}|\w+|\*)", code):
            for name in re.findall(r"[^{},\s][^{},]*", names):
                if name.strip() not in TAKEN and not name.isupper():
                    yield f"{path}: {name.strip()} is taken from the book"
        unlisted = re.sub(rf"{HANDED}|\buse book::[^;]*;", "", code)
        for found in re.findall(r".*\b(?:AcceptedChain|Held\w+|read_\w+|chain|accepted)\b.*", unlisted):
            yield f"{path}: {found.strip()}: a chain is handed on, and not made"


def wrong(texts):
    return [*complaints(texts), *wide(texts), *columns(texts), *written(texts), *chains(texts)]


# Spare lists, each in a form of its own: (file, what is replaced, by what).
FILL = "balance/src/fill.rt"
INFLOW = "balance/src/feeds.rt"
READ = "balance/src/lib.rt"
PASSING = "minutes/src/passing.rt"
BEGUN = "out[0] = GRAINS;"
COPIED = "let mut spare = *chain.chain;"
ACCEPTED = "chain: AcceptedChain<'_>"
HANDED_ON = f"{ACCEPTED}, out: &mut [u64]"
NEW = "out[i] = new_factor("
FOUR = "portfolios/src/four.rt"
NEXT = "portfolios/src/next.rt"
RUN = "portfolios/src/run.rt"
MANY = "portfolios/src/lib.rt"
ROWS_BEGUN = "a[0] = GRAINS;"
ACCEPT = "AcceptedChain { chain"
PRODUCT = "pub fn product_quotient("
QUOTIENT = "low_word(product(f, k) / u128::from(d))"
PLANTED = [
    (FILL, BEGUN, f"let mut spare = [0u64; 16]; {BEGUN}"),
    (FILL, BEGUN, f"let mut spare: [u64; 16] = zeros(); {BEGUN}"),
    (FILL, BEGUN, f"let spare = [first, second]; {BEGUN}"),
    (FILL, BEGUN, f"let half_lives = [0u64; MAX_MEMBERS]; {BEGUN}"),
    (FILL, BEGUN, f"{BEGUN} return [0u64;\n 16];"),
    (FILL, BEGUN, f"let spare = from_fn(|i| factor(i)); {BEGUN}"),
    (FILL, BEGUN, f"let mut spare = vec![in alloc; 0u64; 16]; {BEGUN}"),
    (FILL, BEGUN, f"let mut spare = Vec::new(room); {BEGUN}"),
    (FILL, BEGUN, f"{COPIED} spare.half_lives[0] = GRAINS; {BEGUN}"),
    (FILL, BEGUN, f"{COPIED} spare.half_lives[0] += GRAINS; {BEGUN}"),
    (FILL, BEGUN, f"{COPIED} keep(&mut spare.half_lives, GRAINS); {BEGUN}"),
    (FILL, BEGUN, f"{COPIED} spare.half_lives.fill(GRAINS); {BEGUN}"),
    (FILL, BEGUN, f"let spare = HeldChain {{ half_lives: factors, ..*chain.chain }}; {BEGUN}"),
    (FILL, BEGUN, f"let spare = chain.with_factor(0, GRAINS); {BEGUN}"),
    (FILL, BEGUN, f"let spare = book::with_factor(chain, 0, GRAINS); {BEGUN}"),
    (FILL, "out: &mut [u64])", "out: &mut [u64], spare: &mut [u64; 16])"),
    (FILL, "out: &mut [u64])", "out: &mut [u64], spare: &mut [u64])"),
    (FILL, ACCEPTED, "chain: &mut AcceptedChain<'_>"),
    (FILL, "{AcceptedChain, Rate}", "{AcceptedChain, HeldChain as Factors, Rate}"),
    (INFLOW, ACCEPTED, f"{ACCEPTED}, feeds: &mut [Feed; MAX_FEEDS]"),
    (INFLOW, ACCEPTED, f"{ACCEPTED}, shares: &[u64; MAX_FEEDS]"),
    (READ, "chain: &HeldChain<'_>", "chain: &mut HeldChain<'_>"),
    (READ, "let chain = read_chain(book);", "let mut chain = read_chain(book);"),
    (READ, "book: &[u8], out", "chain: &HeldChain<'_>, out"),
    (READ, ACCEPT, f"{ACCEPT}: &spare"),
    (PASSING, "begin(out, ", "let before = [0u64; MAX_MEMBERS]; begin(out, "),
    (PASSING, HANDED_ON, f"before: &[u64; MAX_MEMBERS], {HANDED_ON}"),
    (PASSING, HANDED_ON, "mut chain: HeldChain<'_>, out: &mut [u64]"),
    (PASSING, HANDED_ON, "chain: &mut HeldChain<'_>, out: &mut [u64]"),
    (PASSING, HANDED_ON, "chain: &HeldChain<'_>, out: &mut [u64]"),
    (PASSING, NEW, "chain.chain.half_lives[i] = new_factor("),
    (PASSING, f"{ACCEPT}: &chain", f"{ACCEPT}: &with_factor(chain, 0, GRAINS)"),
    (FOUR, ROWS_BEGUN, f"let mut spare = [0u64; 16]; {ROWS_BEGUN}"),
    (FOUR, ROWS_BEGUN, f"let mut spare = a.to_vec(alloc); {ROWS_BEGUN}"),
    (FOUR, ROWS_BEGUN, f"let mut spare = chain.chain.half_lives; {ROWS_BEGUN}"),
    (FOUR, "pub(crate) a: T,", "pub(crate) a: T, pub(crate) spare: [u64; 16],"),
    (FOUR, "d: &mut [u64],", "d: &mut [u64], spare: &mut [u64],"),
    (NEXT, "answers: &mut [i64],", "answers: &mut [i64], spare: &mut [i64],"),
    (NEXT, "AcceptedChain { chain: &*chain }", "AcceptedChain { chain: &with_factor(chain, 0, GRAINS) }"),
    (NEXT, "rows.len());", "rows.len()); let spare = [0u64; 16];"),
    (RUN, "let mut at = 0;", "let mut at = 0; let mut spare = rows.to_vec(alloc);"),
    (RUN, "let mut at = 0;", "let mut at = 0; spare[at] = GRAINS;"),
    (MANY, "let chain = read_chain(book);", "let mut chain = read_chain(book);"),
    ("book/src/chain.rt", "pub members: usize,", "pub members: usize, pub factors: [u64; MAX_MEMBERS],"),
    ("book/src/feed.rt", "pub share: u32,", "pub share: u64,"),
    ("book/src/feed.rt", "pub from: u32,", "pub from: u32, pub factor: Option<u64>,"),
    ("book/src/layout.rt", "Coefficients = [u32;", "Coefficients = [u64;"),
    ("book/src/checks/walk.rt", "[0u8; 256]", "[0u64; 256]"),
    ("book/src/checks/shares.rt", "some_below(", "let mut factors = [0u64; MAX_MEMBERS]; some_below("),
    ("wide/src/division.rt", PRODUCT, f"pub fn spare() -> [u64; 16] {{ zeros() }} {PRODUCT}"),
    ("wide/src/division.rt", QUOTIENT, f"settle(factors); {QUOTIENT}"),
    ("wide/src/arithmetic.rt", "let product = self", "let factors = keep(from_fn(|i| a[i])); let product = self"),
    ("wide/src/division.rt", "fn product(", "fn product(limbs: [u32; 6], "),
]


def unseen(texts):
    """The planted lists that are not found, or that the source has no place for."""
    for path, old, new in PLANTED:
        if old not in texts[path]:
            yield f"{path}: nothing can be planted at {old}"
        elif not wrong(texts | {path: texts[path].replace(old, new, 1)}):
            yield f"{path}: not seen: {new}"


def main():
    answer_help(__doc__)
    texts = sources()
    found = wrong(texts) + list(unseen(texts))
    if found:
        sys.exit("\n".join(found))
    for name, call in CALLS.items():
        functions_of = f"{len(reached(texts, call))} functions of {len(needed_by(call[0]))} crates"
        print(f"arrays: {name} reaches {functions_of}, none with a list of factors")
        print("arrays: theirs, in bytes: " + ", ".join(f"{array} {size}" for array, size in met(texts, call).items()))
    print(f"arrays: {len(PLANTED)} planted lists were looked for")
    say_passed(len(CALLS) + len(PLANTED))


if __name__ == "__main__":
    main()
