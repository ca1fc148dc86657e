"""The rows: calls of crates/rows by texts that are the same in every run."""
import collections
import random
import re
import subprocess

import building

# name: as it is printed. call: of crates/rows and rust/rows.rs. is_short: whether the text of each value is inline.
# size: of each text in bytes, or how many texts a call takes at once. what: how they are drawn.
Row = collections.namedtuple("Row", "name call is_short size what")
LETTERS = "abcdefghijklmnopqrstuvwxy"

# A row is a name with `{}` for its size, the call, the sizes, first those of inline values, and what the texts are.
TABLE = [
    ("the loop alone", "nothing", [5], [], "letters"),
    ("new {}", "new", [5, 20, 39], [100, 10000], "letters"),
    ("new blank run of {}", "new", [], [160], "blank"),
    ("new {} into a Vec", "new, into a Vec", [20], [100], "letters"),
    ("new_inline {}", "new_inline", [5, 39], [], "letters"),
    ("new_inline_in_case {}", "new_inline_in_case", [5, 39], [], "both cases"),
    ("new_static", "new_static", [], [5], "letters"),
    ("clone {}", "clone", [20], [100, 10000], "letters"),
    ("clone {} into a Vec", "clone, into a Vec", [20], [100], "letters"),
    ("from_char, {} bytes", "From<char>", [2], [], "two bytes"),
    ("blank {}", "blank", [10], [100, 1000], "letters"),
    ("from_utf8 {}", "from_utf8", [10], [100, 1000, 10000], "letters"),
    ("from_utf8 {} of é", "from_utf8", [], [100, 1000], "two bytes"),
    ("from_utf8_unchecked {}", "from_utf8_unchecked", [10], [100, 10000], "letters"),
    ("from_string {}", "from_string", [10], [100, 10000], "letters"),
    ("from_owned {}", "from_owned", [10], [100, 10000], "letters"),
    ("from_boxed_str {}", "from_boxed_str", [10], [100, 10000], "letters"),
    ("into_string {}", "into_string", [20], [100, 10000], "letters"),
    ("into_rc_str {} and back", "into_rc_str", [20], [100, 10000], "letters"),
    ("len {}", "len", [20], [100, 10000], "letters"),
    ("is_ascii {}", "is_ascii", [20], [100, 10000], "letters"),
    ("eq {}", "PartialEq", [20], [40, 100, 306, 1000, 10000], "letters"),
    ("eq_str {}", "eq_str", [20], [40, 100, 10000], "letters"),
    ("cmp {}, differ late", "Ord", [20], [40, 100, 10000], "differs late"),
    ("cmp_str {}, differ late", "cmp_str", [20], [100, 10000], "differs late"),
    ("hash {} by SipHash", "Hash", [20], [100, 10000], "letters"),
    ("look-up by default, {} values", "Hash, get", [100, 1000], [], "many"),
    ("display {}", "Display", [20], [100, 10000], "letters"),
    ("debug {}", "Debug", [20], [100, 1000, 10000], "letters"),
    ("to_smolstr {}", "to_smolstr", [20], [100, 10000], "letters"),
    ("format_smolstr! {} and a number", "builder.write_fmt", [5], [50, 100, 10000], "letters"),
    ("from_chars {}", "from_chars", [10], [100, 10000], "letters"),
    ("collect {}", "FromIterator", [10], [100, 1000, 10000], "letters"),
    ("collect {} of é", "FromIterator", [24], [1000], "two bytes"),
    ("from_strs, {} in words", "from_strs", [12], [100, 10000], "words of three"),
    ("from_strings, {} of 10", "from_strings", [3], [100, 1000], "many"),
    ("from_string_refs, {} of 10", "from_string_refs", [3], [100, 1000], "many"),
    ("join 3 of {}", "join, three", [5], [20], "letters"),
    ("join {} of 10", "join", [3], [10, 100, 1000, 10000], "many"),
    ("join {} of 50", "join", [], [1000], "many of 50"),
    ("join {} &str of 10", "join, of &str", [], [100, 1000], "many"),
    ("build of {} steps of 10", "build", [3], [100, 1000], "many"),
    ("with_capacity 100, {}", "builder.with_capacity", [10], [100, 10000], "letters"),
    ("push {} times", "builder.push", [10], [100, 10000], "letters"),
    ("push {} bytes of é", "builder.push", [], [2000], "two bytes"),
    ("push_str 3 times {}", "builder.push_str", [5], [20, 100, 10000], "letters"),
    ("push_with_spare {}", "builder.push_with_spare", [20], [100, 10000], "letters"),
    ("push_blank {}", "builder.push_blank", [10], [100, 1000], "letters"),
    ("extend_chars {}", "builder.extend_chars", [10], [100, 10000], "letters"),
    ("extend_chars {} times 10", "builder.extend_chars, many", [3], [100, 1000], "many"),
    ("extend_strs, {} in words", "builder.extend_strs", [12], [100, 10000], "words of three"),
    ("extend_strings, {} of 10", "builder.extend_strings", [3], [100, 1000], "many"),
    ("extend {}", "builder.Extend", [10], [100, 10000], "letters"),
    ("write_str {}", "builder.Write", [20], [100, 10000], "letters"),
    ("clone of a builder, {}", "builder.clone", [20], [100, 10000], "letters"),
    ("eq of builders, {}", "builder.PartialEq", [20], [100, 10000], "letters"),
    ("serialize {} into a Vec", "serialize", [10], [100, 10000], "letters"),
    ("serialize {} of 10 into a Vec", "serialize, many", [1000], [], "many"),
    ("deserialize_reader {}", "deserialize_reader", [10], [100, 300, 10000], "letters"),
    ("from_wire {}", "from_wire", [10], [100, 10000], "letters"),
    ("split_wire {}", "split_wire", [10], [100, 10000], "letters"),
    ("deserialize_limited {}", "deserialize_limited", [10], [100, 10000], "letters"),
    ("read_up_to {}", "read_up_to", [10], [100, 10000], "letters"),
    ("write_fully {}", "write_fully", [10], [100, 10000], "letters"),
    ("to_json {}", "to_json", [10], [100, 10000], "letters"),
    ("to_json {}, a quote", "to_json", [20], [], "quote"),
    ("to_json {} newlines", "to_json", [10], [100], "newlines"),
    ("to_json {} control characters", "to_json", [], [100, 1000], "control"),
    ("from_json {}", "from_json", [10], [100, 10000], "letters"),
    ("from_json {}, a quote", "from_json", [20], [], "quote"),
    ("from_json one control character", "from_json", [1], [], "control"),
    ("from_json {} newlines", "from_json", [], [100], "newlines"),
    ("JSON value of {}", "to_value", [10], [100, 10000], "letters"),
    ("from a JSON value of {}", "from_value", [10], [100, 10000], "letters"),
    ("document of JSON, {} of 10", "DeserializeOwned", [], [10, 100, 1000], "many"),
    ("document of JSON, {} of 5 to 80", "DeserializeOwned", [], [1000], "of many sizes"),
    ("document of JSON written, {} of 10", "Serialize", [], [10, 100, 1000], "many"),
    ("ASCII lower {}", "to_ascii_lowercase_smolstr", [20], [100, 10000], "both cases"),
    ("ASCII upper {}", "to_ascii_uppercase_smolstr", [20], [100, 10000], "both cases"),
    ("lower {}", "to_lowercase_smolstr", [20], [100, 10000], "both cases"),
    ("lower {} of é", "to_lowercase_smolstr", [12], [], "two bytes"),
    ("lower É and {} letters", "to_lowercase_smolstr", [], [360], "É first"),
    ("lower {}, é in the middle", "to_lowercase_smolstr", [], [1000], "é in the middle"),
    ("lower {}, é at the end", "to_lowercase_smolstr", [], [40, 1000], "é at the end"),
    ("lower {} of CJK", "to_lowercase_smolstr", [], [999], "CJK"),
    ("lower {}, Σ in the middle", "to_lowercase_smolstr", [12], [1000], "Σ in the middle"),
    ("upper {}", "to_uppercase_smolstr", [20], [100, 10000], "both cases"),
    ("upper Straße", "to_uppercase_smolstr", [7], [], "Straße"),
    ("upper {}, é in the middle", "to_uppercase_smolstr", [], [1000], "é in the middle"),
    ("upper {}, é at the end", "to_uppercase_smolstr", [], [1000], "é at the end"),
    ("replace a by x in {}", "replace_smolstr, by x", [20], [60, 10000], "a in few letters"),
    ("replace ab by x in {}", "replace_smolstr, by x", [], [60, 1000], "ab in few letters"),
    ("replace a by xyz in {}", "replace_smolstr, by xyz", [], [60, 1000], "a in few letters"),
    ("replace, no match in {}", "replace_smolstr, by x", [], [200], "no match"),
    ("replacen a by xyz 5 times in {}", "replacen_smolstr", [10], [100, 10000], "a in few letters"),
    ("next_match {}, none", "next_match", [20], [100, 10000], "letters"),
    ("convert_while_ascii {}", "convert_while_ascii", [5, 39], [], "both cases"),
    ("words into a Vec", "new, into a Vec", [2000], [], "lexemes"),
    ("words cloned", "clone, into a Vec", [2000], [], "lexemes"),
    ("words cloned and sorted", "Ord, sorted", [2000], [], "lexemes"),
    ("words counted", "Hash, counted", [2000], [], "lexemes"),
    ("lex {} bytes", "lex", [], [100, 10000, 100000], "words of three"),
    ("Tally::add, {} tokens", "tally.add", [10], [100, 1000, 10000], "many"),
    ("Tally::count, {} tokens", "tally.count", [10], [100, 1000], "many"),
    ("Tally::at, {} tokens", "tally.at", [10], [100, 1000], "many"),
    ("Tally::add and len, {} tokens", "tally.len", [10], [100, 1000], "many"),
]

# How many texts a call takes in turn: a power of two, so that crates/rows picks them by a mask.
COUNTS = ((500, 128), (20000, 4), (1_000_000, 1))
# Calls that take all texts of a row at once: the size is how many, and this the bytes of each.
EACH = {"many": 10, "many of 50": 50, "of many sizes": 80, "lexemes": 0}


def all_rows():
    for name, call, short, others, what in TABLE:
        for size in short + others:
            yield Row(name.replace("{}", f"{size:,}"), call, size in short, size, what)


def count_of(row):
    """How many texts a row has, by which its count is divided."""
    if row.what in EACH:
        return row.size
    return 32 if ", into" in row.call else next(count for most, count in COUNTS if row.size < most)


def given(row):
    """What both sides are given: the texts and then the other text of each, with a bar between two."""
    draw = random.Random(1)
    pool = [letters(draw, draw.randint(1, 12)) for _ in range(max(1, count_of(row) // 4))]
    texts = [text(draw, row, pool) for _ in range(count_of(row))]
    return "|".join(texts + [other(draw, row, it) for it in texts]).encode()


def letters(draw, size, of=LETTERS):
    return "".join(draw.choices(of, k=size))


def text(draw, row, pool):
    size = EACH.get(row.what, row.size)
    half = size // 2
    return {
        "blank": lambda: "\n" * 32 + " " * (size - 32),
        "two bytes": lambda: "é" * half,
        "words of three": lambda: " ".join(letters(draw, 3) for _ in range(size // 4)) + " ",
        "quote": lambda: letters(draw, half) + '"' + letters(draw, size - half - 1),
        "newlines": lambda: "\n" * size,
        "control": lambda: "\1" * size,
        "É first": lambda: "É" + letters(draw, size, "aZ"),
        "é in the middle": lambda: letters(draw, half - 1, "aZ") + "é" + letters(draw, half - 1, "aZ"),
        "é at the end": lambda: letters(draw, size - 2, "aZ") + "é",
        "Σ in the middle": lambda: letters(draw, half - 1, "aZ") + "Σ" + letters(draw, half - 1, "aZ"),
        "Straße": lambda: "Straße",
        "CJK": lambda: "".join(chr(draw.randint(0x4e00, 0x9fff)) for _ in range(size // 3)),
        "of many sizes": lambda: letters(draw, draw.randint(5, size)),
        "both cases": lambda: letters(draw, size, "aZ"),
        "a in few letters": lambda: letters(draw, size, "abcde"),
        "ab in few letters": lambda: letters(draw, size, "abcde"),
        "no match": lambda: letters(draw, size, LETTERS[1:]),
        # as a lexer has them: words, each of which occurs some times, and one in eight is a keyword
        "lexemes": lambda: draw.choice(["if", "else", "while", "return"] if draw.random() < 1 / 8 else pool),
    }.get(row.what, lambda: letters(draw, size))()


def other(draw, row, it):
    """The other text of a case: what is replaced, or what a text is compared with."""
    if row.call.startswith("replace"):
        return "ab" if row.what.startswith("ab") else "a"
    return it[:-1] + draw.choice(LETTERS) if row.what == "differs late" else it


def times_of(row):
    """So many calls are counted, after as many rounds that warm up: fewer of longer texts."""
    rounds = max(2, min(80, 200_000 // (count_of(row) * (EACH.get(row.what, row.size) + 10))))
    return 4 * turns(row), rounds * turns(row)


def turns(row):
    """How many calls make a round."""
    return 1 if row.what in EACH or ", into" in row.call else count_of(row)


class Side:
    """A program that runs rows: ours, or the Rust program for a type."""

    def __init__(self, *words, env=building.PLAIN):
        self.words, self.env = words, env

    def sum(self, row):
        """What it prints for a row; None where it has no such call."""
        words = [*map(str, self.words), row.call, str(2 * turns(row))]
        ran = subprocess.run(words, input=given(row), capture_output=True)
        return ran.stdout if ran.returncode == 0 else None

    def instructions(self, row):
        """Instructions of a call on a text: of more calls, less those of few."""
        first, more = times_of(row)
        few, many = (building.count([*self.words, row.call, times], given(row), self.env)
                     for times in (first, first + more))
        return (many - few) / (more // turns(row)) / count_of(row)

    def nanoseconds(self, row):
        """The least processor time of five runs of some 50 ms, without the time to make the texts."""
        took = lambda rounds: building.seconds([*self.words, row.call, rounds * turns(row)], given(row))
        rounds = 1
        while took(rounds) < 0.05 + took(0):
            rounds *= 2
        least, empty = (min(took(it) for _ in range(5)) for it in (rounds, 0))
        return (least - empty) * 1e9 / rounds / count_of(row)


# The head of an implementation or a trait; or of a function: its indent, `pub` and its name.
ITEM = re.compile(r"^((?:pub )?(?:impl|trait)\b[^{]*)|^( *)(pub )?(?:const )?fn (\w+)", re.M)
OWN_TRAITS = ("BorshSerialize", "BorshDeserialize", "StrExt", "ToSmolStr", "Piece", "ValueAlloc")
# Public calls without rows: they hand on to a call that has some, return what is stored, or have rows of the program's.
HAND_ON = {*"""as_str is_empty place is_heap_allocated inline_buffer DerefStr AsStr AsSlice AsPath AsBytes AsDeref
Default Drop Clone Iterator from_str from_string_ref from_cow_str from_builder From<SharedText> eq_string cmp_string
PartialOrd Equivalent ToValue Deserialize read_all fill length_prefix append_to value_of builder builder.new
builder.as_str builder.len builder.is_empty builder.inline_buffer builder.finish builder.into_value builder.Clone
builder.AsStr from_rc_str builder.AsSlice builder.MadeWith builder.Emptied builder.Debug builder.Drop tally.new
tally.with_hasher tally.iter run lent run_with_hasher mode_of fault_line""".split()}
# Calls of a short text alone, or of none.
OF_SHORT = {"new_inline", "new_inline_in_case", "new_static", "From<char>", "convert_while_ascii"}


def public_calls():
    """The library's and the core's public calls, as rows name them: a method of another's trait by the trait."""
    for crate in ("smol_str", "smol_tokens_core"):
        top = building.TOP / "crates" / crate / "src"
        root = (top / "lib.rt").read_text(encoding="utf-8")
        for path in sorted({*top.rglob("*.rt")} - {top / "laws.rt"}):
            is_seen = re.search(rf"^pub (?:mod|use) {path.relative_to(top).with_suffix('').parts[0]}\b", root, re.M)
            owner = ""
            for head, indent, is_pub, name in ITEM.findall(path.read_text(encoding="utf-8")):
                owner = head or (owner if indent else "")
                trait, _, of = re.sub(r"^(?:pub )?(?:impl|trait)(?:<.*?>)? ", "", owner.strip()).partition(" for ")
                is_open = of or owner.startswith("pub trait") or (is_pub and is_seen)
                if name and is_open and not of.endswith(("Fault", "Error")):
                    yield called(trait, of, name)


def called(trait, of, name):
    """The name of a call in rows."""
    if of and not trait.startswith(OWN_TRAITS):
        name = (trait if trait.startswith("From<") else trait.partition("<")[0]).rpartition("::")[2]
    return {"SmolStrBuilder": "builder.", "Tally": "tally."}.get((of or trait).partition("<")[0], "") + name


def without_rows():
    """The public calls that lack a row of a short text, of some 100 bytes or of some 1,000 and more."""
    sizes = collections.defaultdict(list)
    for row in all_rows():
        sizes[row.call.partition(",")[0]].append(row.size)
    there = {*public_calls()}
    for call in sorted(there - HAND_ON):
        kinds = {(size >= 40) + (size >= 1000) for size in sizes[call]}
        if not kinds >= ({0} if call in OF_SHORT else {0, 1, 2}):
            yield f"{call} has no rows of three sizes in bench/rows.py, and is not named there as one that hands on"
    yield from (f"{call} is named in bench/rows.py, and is no public call" for call in sorted(HAND_ON - there))
