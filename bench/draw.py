"""Draws random calls for `bench/upstream compare`, a line each: the call, the registers that it writes and reads,
a form, a number, a width, digits, and its texts, in which `%` and two digits stand for a byte.

Texts are weighted toward what the library treats apart: lengths about its limits and about powers of two, characters of
each size, blank runs, letters whose other case is longer or shorter, bytes that are nearly UTF-8, all escapes of JSON.
"""
import random
import sys
import unicodedata
from urllib.parse import quote_from_bytes

LETTERS = "abcdefghijklmnopqrstuvwxyz"
# Characters whose case is more than one ASCII letter for another, and what decides a final sigma.
WITH_CASE = ("ΣσςİıßẞŉǰΐΰևﬀﬁﬂﬃﬄﬅﬆﬓǄǅǆǇǈǉKÅΩᾳᾼᾀᾈῳῼẖẗẘéÉÿŸµſᲐაᎠꭰᏰᏸȺⱥȾⱦ𐐀𐐨𞤀𞤢ＡａⒶⓐⅧⅷ"
             "\u0307\u0345\u0301'’.:·\xadΔδАаёЁ\u212a\u2126")
# The ends of the ranges of two, three and four bytes, and characters between them.
WIDE = "éß\x80\u07ff€\u0800\ufffd\uffff\ud7ff\ue000🦀\U00010000\U0010ffff中"
# Characters whose order by code units of 16 bits is another.
ORDERED = "é中\ue000\uffff\U00010000🦀"
QUOTED = '"\\/\n\r\t\b\f\0\1\x0b\x0e\x10\x1a\x1f\x7f\u2028\xad\u0300aé'
ALPHABETS = [LETTERS, LETTERS, WITH_CASE, WITH_CASE, WIDE, "abAZz@[`{\x7f0", "\u212aẞ\u2126ﬃ", "aaZ Σ", "abé€", "aab",
             QUOTED]
NOT_UTF8 = [b"\xed\xa0\x80", b"\xed\xbf\xbf", b"\xf4\x90\x80\x80", b"\xe0\x9f\xbf", b"\xf0\x8f\xbf\xbf", b"\xc0\x80",
            b"\xc1\xbf", b"\xf0\x9f\xa6", b"\xe2\x82", b"\xc3", b"\xf5\x80\x80\x80", b"\xff", b"\x80",
            b"\xf4\x8f\xbf\xbf", b"\xef\xbf\xbf"]
# The ends of what a byte of UTF-8 may be at each place.
ODD_BYTES = b"\0\x7f\x80\x8f\x90\x9f\xa0\xbf\xc0\xc1\xc2\xdf\xe0\xe1\xec\xed\xee\xef\xf0\xf1\xf3\xf4\xf5\xff"
JSON_WORDS = ('null true false nul tru 0 -0 - 01 1.5 1. .5 1e5 1e 1E+5 1e-400 1e400 18446744073709551615 '
              '18446744073709551616 -9223372036854775809 123456789012345678901234567890 -1 +1 NaN '
              '\'a\' " "\\ ["a"] {"a":"b"} [ ] ["a",] '
              '{"a"} {} [] {"a":1,"a":2} [1,2,[3]] {"a":} ["\\ud800"] [1e999]').split(" ")
ESCAPES = (r'\" \\ \/ \b \f \n \r \t \u0000 \u0001 \u001f \u0022 \u005C \u007F \u0080 \u00e9 \u07fF \u0800 \u2028 '
           r"\ufFfD").split(" ")
PAIRS = (r"\ud800\udc00 \ud800\udd80 \ud800\udfff \ud83e\udc00 \uD83E\uDD80 \ud83e\udfff \udbff\udc00 "
         r"\udbff\udfff").split()
BAD_ESCAPES = ("\\ud800 \\udc00 \\ud800\\ud800 \\udc00\\ud800 \\ud800a \\ud800\\n \\ud800\\u0041 \\x41 \\u12 \\u12g4 "
               "\\U0041 \\ \" \n \x1f \0 \\a \\' \\u \\ud800\\ \\ud800\\u").split(" ")
BEHIND_JSON = ["x", '"', "1", ",", "]", "}", "null", "\xa0", "\ufeff", "\f", "\0"]
NUMBERS = [0, 1, 7, 9, 10, 99, 100, 255, 256, 1000, 1001, 2**64 - 1, 2**63, 2**63 - 1, 2**32, 2**32 - 1]
COUNTS = [0, 1, 1, 2, 3, 5, 1000, 2**64 - 1]


def is_known(character):
    """Whether the versions of Unicode agree on a character: it is assigned, and a letter with a case has another."""
    has_case = character.lower() != character or character.upper() != character
    return (unicodedata.category(character)[0] in "LNPSZ" and unicodedata.category(character) not in ("Lm", "Sk")
            and (has_case or unicodedata.category(character) not in ("Lu", "Ll", "Lt")))


KNOWN = [chr(it) for it in range(0x30000) if is_known(chr(it))]
CASED = [it for it in KNOWN if it.lower() != it or it.upper() != it]


class Draw(random.Random):
    """Draws by a seed: texts of at most `longest` bytes, and about the library's limits."""

    def __init__(self, seed, longest, limits):
        super().__init__(seed)
        self.longest, self.limits = longest, limits
        near = [2**power for power in range(3, 13)] + [limits["INLINE_CAP"], 2 * limits["INLINE_CAP"]]
        self.edges = [0, 1, *(it + more for it in near for more in (-1, 0, 1) if it < longest)]

    def one_in(self, chances):
        return self.random() * chances < 1

    def below(self, limit):
        return int(self.random() * limit)

    def length(self):
        turn = self.below(40)
        if turn < 16:
            return self.choice(self.edges[:20] if turn > 1 else self.edges)
        return self.below(46 if turn < 34 else 400 if turn < 39 else self.longest)

    def characters(self, count, alphabet):
        return "".join(self.choices(alphabet, k=count))

    def sized(self, length):
        alphabet, turn = self.choice(ALPHABETS), self.below(6)
        if turn == 0:
            unit = self.characters(1 + self.below(4), alphabet)
            text = unit * (length // len(unit))
        elif turn == 1:  # ASCII with one wide character, which ends at, before or behind the length
            text = "a" * self.below(length + 1) + self.choice(WIDE) + "Z" * self.below(length + 1)
        elif turn == 2:
            text = self.characters(length, KNOWN)
        else:
            text = self.characters(length, alphabet)
        return self.cut(text, length)

    def cut(self, text, most):
        return text.encode()[:most].decode(errors="ignore")

    def blank(self):
        """Newlines and then spaces, at times with another character among them."""
        newlines, spaces = (self.choice([0, most - 1, most, most + 1, self.below(40), self.below(most + 4)])
                            for most in (self.limits["BLANK_NEWLINES"], self.limits["BLANK_SPACES"]))
        text = "\n" * newlines + " " * spaces
        if text and self.one_in(5):
            at = self.below(len(text))
            text = text[:at] + self.choice(["\t", "\r", "a", "\n", " ", "\0", "\xa0", "\n "]) + text[at + 1:]
        return text

    def text(self):
        turn = self.below(20)
        if turn < 3:
            return self.blank()
        if turn < 5:  # one of few texts that begin in the same way: orders are decided late and by wide characters
            return "a" * self.choice([0, 0, 15, 39]) + self.choice(ORDERED) + self.choice(["", "a"])
        return self.sized(self.length())

    def short(self):
        return self.cut(self.text(), self.limits["INLINE_CAP"])

    def cased(self):
        if self.one_in(3):
            return self.text()
        return self.characters(self.below(60), self.choice([WITH_CASE, CASED, CASED]))

    def piece(self):
        return self.sized(self.below(12)) if self.one_in(2) else self.text()

    def pieces(self):
        pieces = [self.sized(self.below(12)) if self.one_in(4) else self.characters(self.below(9), LETTERS)
                  for _ in range(self.below(12))]
        return pieces or [self.text()]

    def spoilt(self, whole):
        """Bytes with a few faults."""
        bytes = bytearray(whole)
        for _ in range(1 + self.below(3)):
            at, turn = self.below(len(bytes) + 1), self.below(4)
            if turn == 0:
                bytes[at:at + 1] = [self.choice(ODD_BYTES)]
            elif turn == 1:
                bytes[at:at] = [self.below(256)]
            elif turn == 2:
                del bytes[max(0, len(bytes) - 1 - self.below(4)):]
            else:
                bytes[at:at] = self.choice(NOT_UTF8)
        return whole if has_new(bytes) else bytes

    def bytes(self):
        text = self.text().encode()
        return text if self.one_in(3) else self.spoilt(text)

    def wire(self):
        """A wire form, or nearly one: of another size, cut short, longer, or with odd bytes."""
        body = self.text().encode() if self.one_in(2) else self.bytes()
        size = len(body)
        if self.one_in(6):
            odd = [size + 1, max(0, size - 1), size | 0x100, size ^ 0x80000000]
            size = self.choice([*odd, 0, 2**32 - 1, 39, 40, 4096])
        form = size.to_bytes(4, "little") + body
        turn = self.below(8)
        return (form[:self.below(len(form))] if turn == 0 else form + self.text().encode() if turn == 1
                else self.spoilt(form) if turn == 2 else form)

    def json(self):
        turn = self.below(12)
        if turn == 0:
            json = self.choice(JSON_WORDS)
        elif turn == 1:  # about as deep as is read
            start, inside, end = self.choice([("[", "", "]"), ('{"a":', "1", "}")])
            depth = self.choice([1, 2, 127, 128, 300])
            json = start * depth + inside + end * (depth - self.below(2))
        else:
            parts = [ESCAPES, PAIRS, self.choices(KNOWN, k=9), *[LETTERS] * 3, *[BAD_ESCAPES] * self.one_in(8)]
            parts = [self.choice(parts)] if self.one_in(3) else parts
            json = '"' + "".join(self.choice(self.choice(parts)) for _ in range(min(self.length(), 700))) + '"'
        json = self.choice(["", "", " ", "\n", "\t\r"]) + json + self.choice(["", "", " ", "\n", "\t\r"])
        turn = self.below(16)
        return json[:-1] if turn == 0 else json + self.choice(BEHIND_JSON) if turn == 1 else json

    def replaced(self):
        """A text, a pattern that often occurs in it, and what comes in its place."""
        unit = self.characters(1 + self.below(4), "abé€🦀 ")
        text = self.choice([self.text, lambda: unit * self.below(30), lambda: self.characters(self.length(), "aab")])()
        at, turn = self.below(len(text) + 1), self.below(8)
        few = text[at:at + self.below(len(text) + 1 if self.one_in(8) else 4)]
        common = ["a", "aa", "aba", "b", "ab", "é", "€", "\n", " "]
        pattern = "" if turn == 0 else self.choice(common) if turn < 3 else few
        piece = self.characters(self.below(9), LETTERS)
        to = self.choice(["", "x", "\n", " ", "é", "aa", "🦀", pattern + "a", " " * self.below(5), piece])
        return [text, pattern, to]


def has_new(bytes):
    """Whether bytes hold a character past ASCII on which the versions of Unicode may disagree."""
    return any(it > "\x7f" and not is_known(it) for it in bytes.decode(errors="ignore"))


TEXT, NONE, CASED_TEXT = (lambda draw: [draw.text()]), (lambda draw: []), (lambda draw: [draw.cased()])
WIRE, READ = (lambda draw: [draw.wire()]), (lambda draw: [draw.json()])
# The calls: how often each is drawn beside the others, how many forms it has, and its texts.
CALLS = {
    **dict.fromkeys("new from_str from_string_ref from_utf8_unchecked".split(), (9, 1, TEXT)),
    **dict.fromkeys("from_string from_owned from_boxed_str".split(), (9, 1, TEXT)),
    **dict.fromkeys("from_cow_str from_rc_str".split(), (9, 2, TEXT)),
    "from_utf8": (17, 1, lambda draw: [draw.bytes()]), "new_inline": (8, 1, lambda draw: [draw.short()]),
    "new_inline_in_case": (8, 2, lambda draw: [draw.short()]), "new_static": (14, 6, NONE), "default": (2, 1, NONE),
    "from_char": (8, 1, lambda draw: [draw.choice(KNOWN)]), "clone": (10, 1, NONE), "into_rc_str": (9, 1, NONE),
    "from_builder": (24, 3, NONE), "from_chars": (30, 5, TEXT), "from_strs": (25, 2, Draw.pieces),
    "from_strings": (7, 1, Draw.pieces), "from_string_refs": (7, 1, Draw.pieces), "join": (10, 2, Draw.pieces),
    "collect": (25, 6, Draw.pieces), "to_smolstr": (20, 6, TEXT), "format_smolstr": (30, 8, TEXT),
    **dict.fromkeys("to_ascii_lowercase_smolstr to_ascii_uppercase_smolstr".split(), (15, 2, CASED_TEXT)),
    **dict.fromkeys("to_lowercase_smolstr to_uppercase_smolstr".split(), (25, 2, CASED_TEXT)),
    "replace_smolstr": (45, 2, Draw.replaced), "replacen_smolstr": (40, 2, Draw.replaced), "compare": (30, 1, NONE),
    "compare_str": (30, 1, TEXT), "into_string": (10, 1, NONE), "next_match": (12, 1, Draw.replaced),
    "print": (40, 10, NONE), "builder_new": (10, 1, NONE), "with_capacity": (20, 1, NONE),
    "builder_clone": (10, 1, NONE), "builder_eq": (5, 1, NONE),
    "push": (20, 1, lambda draw: [draw.choice(KNOWN)]), "push_str": (40, 3, lambda draw: [draw.piece()]),
    "extend": (15, 4, Draw.pieces), "extend_chars": (10, 1, TEXT),
    "extend_strs": (6, 1, Draw.pieces), "extend_strings": (6, 1, Draw.pieces), "write": (20, 4, TEXT),
    "serialize": (20, 2, NONE), "from_wire": (20, 1, WIRE), "split_wire": (10, 1, WIRE),
    "deserialize_reader": (30, 2, WIRE),
    "to_json": (40, 4, lambda draw: [draw.characters(draw.length(), QUOTED + LETTERS)]),
    "from_json": (30, 1, READ), "from_value": (15, 2, READ), "from_str_by_serde": (20, 1, READ),
}
JSON = "to_json from_json from_value from_str_by_serde".split()


def call(draw, name, forms, texts):
    texts = [it.encode() if isinstance(it, str) else bytes(it) for it in texts(draw)]
    number = draw.choice([draw.choice(NUMBERS), draw.below(1000), draw.getrandbits(64) >> draw.below(64)])
    width = max(draw.choice(draw.edges[:40]), 1)
    if name == "replacen_smolstr":
        number = draw.choice(COUNTS)
    if name == "next_match":
        number = len(draw.cut(texts[0].decode(), draw.below(len(texts[0]) + 1)).encode())
        texts[1] = texts[1] or b"a"
    fields = [name, draw.below(4), draw.below(4), draw.below(forms), number, width, draw.below(45)]
    return " ".join([*map(str, fields), *map(field, texts)]) + "\n"


def field(text):
    """A text in a line: where it is UTF-8, as it is but for what parts fields and lines."""
    try:
        return text.decode().replace("%", "%25").replace(" ", "%20").replace("\n", "%0A").replace("\r", "%0D")
    except UnicodeDecodeError:
        return quote_from_bytes(text)


def lines(count, seed, longest, limits, json_weight):
    """So many lines; the calls of JSON are drawn so many times as often."""
    draw = Draw(seed, longest, limits)
    weights = [weight * (json_weight if name in JSON else 1) for name, (weight, _, _) in CALLS.items()]
    for name in draw.choices(list(CALLS), weights, k=count):
        yield call(draw, name, *CALLS[name][1:])
