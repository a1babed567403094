"""Texts to compare on: the hand-chosen ones of texts.txt, and seeded random and damaged ones."""

import random
import re
from pathlib import Path

HAND = Path(__file__).parent / "definitions" / "texts.txt"

# ---------------------------------------------------------------- hand-chosen

ESCAPE = re.compile(rb"\\(?:x([0-9a-f]{2})|u\{([0-9a-f]+)\}|\*([0-9]+)\{([^}]*)\}|(.))")
LETTERS = {b"\\": b"\\", b"n": b"\n", b"r": b"\r", b"t": b"\t", b"z": b""}


def unescape(line):
    """The text of a line of texts.txt."""

    def one(match):
        byte, code, times, what, letter = match.groups()
        if byte:
            return bytes.fromhex(byte.decode())
        if code:
            return chr(int(code, 16)).encode()
        if times:
            return int(times) * unescape(what)
        return LETTERS[letter]

    return ESCAPE.sub(one, line)


def hand():
    lines = HAND.read_bytes().split(b"\n")
    return [unescape(line) for line in lines if line and not line.startswith(b"#")]


# ---------------------------------------------------------------- random grammars

NAMES = ["a", "b", "c", "T", "x-1", "_y", "std", "from", "as", "tokens", "é", "λ9", "_anon", "prop", "日本", "__"]
STRINGS = [
    '"s"', "'q'", '""', "''", '"\\u{41}"', '"\\""', "'\"'", '"\\\\"', '"a b"', '"\\n\\x41\\q"', '"é"', '"\n"',
    '"\\u{110000}"', '"\\uD800"', '"\U0001F600"', '"//"', '"/*"',
]
SETS = [
    "$[a-z]", "![b]", "$[]", "$[aa]", "$[b-a]", "$[-a]", "$[a-]", "$[+--]", "$[\\u{61}-\\x7a_]", "![\\]\\\\]", "$[é-€]",
    "$[zyx]", "$[a-cb-d]", "$[\\n\\t ]", "$[0-9a-fA-F]",
]
CLASSES = ["asciiLetter", "asciiLowercase", "asciiUppercase", "digit", "whitespace", "eof"]
KEYWORDS = [
    "@top", "@tokens", "@local", "@context", "@external", "@dialects", "@precedence", "@detectDelim", "@skip", "@else",
    "@conflict", "@left", "@right", "@cut", "@specialize", "@extend", "@digit", "@eof", "@foo",
]
WORDS = ["tokens", "prop", "propSource", "extend", "specialize", "from", "as", "std"]
BLANKS = [" ", "  ", "\n", "\t", "/*c*/", "//l\n", "\r\n", "\u00a0", "\ufeff", "\u2028", "/**/"]
BAD = ["@", '"', "'", "$[", "![", "#", "/", "/*", "\u0085", ";", "\\", "\x00", "\u00b2", "`"]
MARKS = list("[]()!~+*?{}<>.,|:$=")


class Grammars:
    """Random grammars that are mostly accepted."""

    def __init__(self, rng):
        self.rng = rng

    def some(self, make, most, between):
        return between.join(make() for _ in range(self.rng.randint(0, most)))

    def blank(self):
        return self.rng.choice(BLANKS) if self.rng.random() < 0.3 else " "

    def name(self):
        return self.rng.choice(NAMES)

    def plain_name(self):
        """A name that begins no class and is not the any mark."""
        return self.rng.choice(["a", "b", "c", "foo", "é"])

    def string(self):
        return self.rng.choice(STRINGS)

    def prop(self):
        parts = ["b", '"v"', ".", "{n}", "'w'"]
        value = "=" + self.some(lambda: self.rng.choice(parts), 3, " ") if self.rng.random() < 0.6 else ""
        return self.rng.choice(["", "@"]) + self.name() + value

    def props(self):
        return "[" + self.some(self.prop, 2, ",") + "]" if self.rng.random() < 0.3 else ""

    def expression(self, depth):
        rng = self.rng
        roll = rng.random()
        below = lambda: self.expression(depth - 1)
        if depth <= 0 or roll < 0.25:
            return self.single()
        if roll < 0.37:
            return "(" + below() + ")"
        if roll < 0.5:
            return below() + rng.choice("*+?") + rng.choice(["", "", "*", "?+"])
        if roll < 0.67:
            return below() + rng.choice([" ", "~m ", " !p ", "/**/", "\n"]) + below()
        if roll < 0.77:
            return below() + rng.choice(["|", " | "]) + below()
        if roll < 0.83:
            special = rng.choice(["@specialize", "@extend"]) + self.props()
            return special + "<" + below() + "," + below() + ">"
        if roll < 0.89:
            return rng.choice(["n", "m", "", "[q]"])[:1].replace("[", "") + (self.props() or "[]") + "{" + below() + "}"
        if roll < 0.95:
            return "f<" + ",".join(below() for _ in range(rng.randint(0, 3))) + ">"
        return below() + " ~k"

    def single(self):
        rng = self.rng
        roll = rng.random()
        if roll < 0.35:
            return self.plain_name()
        if roll < 0.5:
            return self.string()
        if roll < 0.65:
            return rng.choice(SETS)
        if roll < 0.75:
            return rng.choice(["@", "std.", "std.@"]) + rng.choice(CLASSES)
        if roll < 0.8:
            return rng.choice(['@extend<"k">', "@specialize[p]<'k'>", "@specialize<a>"])
        return rng.choice(["_", "()", '""', "c<,>", "c<a,>", "std", "(~m)", "!p", "()*"])

    def body(self):
        return "{" + (self.expression(self.rng.randint(0, 4)) if self.rng.random() < 0.85 else "") + "}"

    def params(self):
        return "<" + self.some(self.name, 2, ",") + ">" if self.rng.random() < 0.15 else ""

    def rule(self):
        return self.name() + self.props() + self.params() + self.body()

    def reference(self):
        return self.rng.choice([self.plain_name(), '"s"', "f<a>", "(b)", "'t'", "f<,>"])

    def token_precedence(self):
        return "@precedence{" + self.some(self.reference, 3, self.rng.choice([" ", ","])) + "}"

    def token_member(self):
        conflict = "@conflict{" + self.reference() + self.rng.choice([" ", ","]) + self.reference() + "}"
        return self.rng.choice([self.rule(), self.rule(), self.token_precedence(), conflict, self.string() + self.props()])

    def local_member(self):
        return self.rng.choice([self.rule(), self.token_precedence(), "@else " + self.name() + self.props()])

    def node(self):
        return self.name() + self.props()

    def external_member(self):
        conflict = "@conflict{" + self.some(self.name, 2, self.rng.choice([" ", ","])) + "}"
        return self.rng.choice([self.node(), self.node(), conflict])

    def source(self):
        return " from " + self.string() + " "

    def declaration(self):
        rng = self.rng
        roll = rng.randrange(18)
        comma = rng.choice([" ", ","])
        if roll < 4:
            return "@top " + self.rule()
        if roll < 7:
            return self.rule()
        if roll == 7:
            return "@tokens{" + self.some(self.token_member, 4, self.blank()) + "}"
        if roll == 8:
            return "@local tokens{" + self.some(self.local_member, 3, self.blank()) + "}"
        if roll == 9:
            return "@context " + self.name() + self.source()
        if roll == 10:
            members = self.some(self.external_member, 4, comma)
            return "@external tokens " + self.name() + self.source() + "{" + members + "}"
        if roll == 11:
            special = "@external " + rng.choice(["extend", "specialize"]) + self.body() + self.name()
            return special + self.source() + "{" + self.some(self.node, 3, comma) + "}"
        if roll == 12:
            return "@external propSource " + self.name() + self.source()
        if roll == 13:
            other = rng.choice(["", " as " + self.name()])
            return "@external prop " + self.name() + other + self.source()
        if roll == 14:
            item = lambda: self.name() + rng.choice(["", " ", "@left", "@right", " @cut"])
            return "@precedence{" + self.some(item, 3, comma) + "}"
        if roll == 15:
            return "@skip" + self.body()
        if roll == 16:
            return "@skip" + self.body() + "{" + self.some(lambda: rng.choice(["@top ", ""]) + self.rule(), 3, " ") + "}"
        return rng.choice(["@dialects{" + self.some(self.name, 3, comma) + "}", "@detectDelim"])

    def grammar(self, most=5):
        declarations = [self.declaration() for _ in range(self.rng.randint(1, most))]
        if self.rng.random() < 0.7:
            declarations.insert(self.rng.randint(0, len(declarations)), "@top T" + self.body())
        return self.blank().join(declarations)


# ---------------------------------------------------------------- damage


def piece(rng):
    """A small piece of text, of any sort."""
    pools = [NAMES, STRINGS, SETS, KEYWORDS, WORDS, BLANKS, MARKS, MARKS, MARKS, BAD]
    return rng.choice(rng.choice(pools))


def damaged(rng, text, others):
    """One to three pieces put in, taken out, or doubled."""
    for _ in range(rng.randint(1, 3)):
        at = rng.randint(0, len(text))
        roll = rng.random()
        if roll < 0.4:
            text = text[:at] + piece(rng) + text[at:]
        elif roll < 0.65:
            text = text[:at] + text[at + rng.randint(1, 3) :]
        elif roll < 0.8:
            text = text[:at] + " " + piece(rng) + " " + text[at:]
        elif roll < 0.9:
            text = text[:at]
        else:
            other = rng.choice(others)
            begin = rng.randint(0, len(other))
            text = text[:at] + other[begin : begin + rng.randint(1, 12)] + text[at:]
    return text


def soup(rng):
    return "".join(piece(rng) + rng.choice(["", " "]) for _ in range(rng.randint(1, 14)))


def short_hand():
    """The hand-chosen texts that are UTF-8 and not long."""
    texts = []
    for text in hand():
        try:
            texts.append(text.decode())
        except UnicodeDecodeError:
            pass
    return [text for text in texts if len(text) < 300]


def seeded(seed, count, longest=400):
    """Random and damaged texts that are UTF-8."""
    rng = random.Random(seed)
    grammars = Grammars(rng)
    others = short_hand()
    texts = []
    while len(texts) < count:
        roll = rng.random()
        if roll < 0.35:
            text = damaged(rng, rng.choice(others), others)
        elif roll < 0.6:
            text = grammars.grammar()
        elif roll < 0.75:
            text = damaged(rng, grammars.grammar(), others)
        elif roll < 0.9:
            text = "@top T{" + grammars.expression(rng.randint(1, 6)) + "}"
        elif roll < 0.96:
            text = damaged(rng, "@top T{" + grammars.expression(rng.randint(1, 4)) + "}", others)
        else:
            text = soup(rng)
        data = text.encode()
        if len(data) <= longest:
            texts.append(data)
    return texts


# ---------------------------------------------------------------- families that have no oracle


def ill_formed(seed, count):
    """Texts that are mostly not UTF-8: sequences of table 3-7 with one byte changed, cut or put in."""
    rng = random.Random(seed)
    edges = [0x00, 0x41, 0x7F, 0x80, 0x8F, 0x90, 0x9F, 0xA0, 0xBF, 0xC0, 0xC1, 0xC2, 0xDF, 0xE0, 0xE1, 0xEC, 0xED]
    edges += [0xEE, 0xEF, 0xF0, 0xF1, 0xF3, 0xF4, 0xF5, 0xF8, 0xFF]
    codes = [0x7F, 0x80, 0x7FF, 0x800, 0xD7FF, 0xE000, 0xFFFF, 0x10000, 0x10FFFF, 0xE9, 0x20AC, 0x1F600]
    texts = []
    while len(texts) < count:
        text = bytearray(("@top T{" + "".join(rng.choice(['"', "a", "\n"]) for _ in range(3))).encode())
        for _ in range(rng.randint(1, 3)):
            text += chr(rng.choice(codes)).encode() + b"\n"[: rng.randint(0, 1)]
        for _ in range(rng.randint(1, 2)):
            at = rng.randrange(len(text))
            roll = rng.random()
            if roll < 0.4:
                text[at] = rng.choice(edges)
            elif roll < 0.6:
                del text[at]
            elif roll < 0.8:
                text.insert(at, rng.choice(edges))
            else:
                del text[at:]
            text = text or bytearray(b"\xff")
        texts.append(bytes(text))
    return texts


def nested(seed, count):
    """Levels and stacked repeats close to 64, opened in every way that opens a level."""
    rng = random.Random(seed)
    ways = [("(", ")"), ("f<", ">"), ("f<b,", ">"), ("n{", "}"), ("[]{", "}"), ("@extend<", ",a>"), ("@extend<a,", ">")]
    ways += [("(a ", ")"), ("(~m ", ")"), ("(a|", ")"), ("(", ")*"), ("(", ")?+")]
    heads = [("@top T{", "}", 63), ("@skip{", "}@top T{}", 63), ("@tokens{@precedence{", "}}@top T{}", 64)]
    heads += [("@external extend{", "}a from ''{}@top T{}", 63), ("@tokens{@conflict{a ", "}}@top T{}", 64)]
    heads += [("@skip{}{@top T{", "}}", 63), ("@local tokens{r{", "}}@top T{}", 63)]
    middles = ["a", "()", "a<>", "a<b>", "_", '"s"', "", ")", "}", "#", '"', "@", "$[aa]", "x{}", "|", "~m", "a*", "["]
    texts = []
    while len(texts) < count:
        head, tail, levels = rng.choice(heads)
        if rng.random() < 0.55:
            depth = levels + rng.choice([-2, -1, -1, 0, 0, 0, 1, 1, 2])
            chosen = rng.sample(ways, rng.randint(1, 3))
            used = [rng.choice(chosen) for _ in range(depth)]
            opened = "".join(way[0] for way in used)
            closed = "".join(way[1] for way in reversed(used))
            text = head + opened + rng.choice(middles) + closed + tail
        else:
            # Runs of marks with brackets between, 62 to 67 in all.
            left = rng.choice([62, 63, 64, 64, 65, 65, 66])
            inside = rng.choice(["a", "(a b)", "x{c*}", "()", '"s"', "(a*|b)", "f<a*>"])
            while left > 0:
                run = min(left, rng.choice([1, 3, 10, 40, 64, 65]))
                inside = "(" + inside + "".join(rng.choice("*+?") for _ in range(run)) + ")"
                left -= run
                if rng.random() < 0.03:
                    inside = "(" + inside + " z)"
            text = head + inside + rng.choice(["", "", "#", '"', "*"]) + tail
        if rng.random() < 0.1:
            text = text[: rng.randrange(len(text))]
        texts.append(text.encode())
    return texts
