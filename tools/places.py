#!/usr/bin/env python3
"""Counts the places of points 1 to 8 of docs/DESIGN-PASS.md in crates/*/src/*.rt, and of point 8 in crates/*/proofs.

Usage: places.py [--list] [--other] [FOLDER]
FOLDER is the repository to count in, by default the one that this file lies in. --list also prints each place as file:line and what it is.
--other counts points 1, 2 and 3 in a second way. The rules go by the shape of the code, so that they fit any commit.
"""
import collections, itertools, pathlib, re, sys

# Variants that stand for nothing or for a refusal.
NOTHING = set(
    "Refused Missing No Not Nothing None End Over Ill IllAt Unclosed Reversed Overlapping TooLong NotATree Err".split()
)
KEYWORDS = set(
    "as break const continue else enum false fn for if impl in let loop match mut pub ref return self Self struct true use while".split()
)
# Names that hold the number of a kind, a setting or a group.
KIND = r"(?:kind|k|setting|group|child|last|ahead|value|second|parent|above|left)"
NUMBER = r"\d+"


class Item:
    """A function, or a type: its file, line, name, parameters (name, type), result, clauses of requires, and body."""

    def __init__(self, file, line, name, comment, params=(), result="", requires=(), body=""):
        self.file, self.line, self.name, self.comment = file, line, name, comment
        self.params, self.result, self.requires, self.body = params, result, requires, body


def blanked(text):
    """The text with comments and what stands between quotes as spaces, so that places stay."""
    return re.sub(
        r"//[^\n]*|\"(?:[^\"\\]|\\.)*\"|'(?:[^'\\\n]|\\[^']+)'",
        lambda m: re.sub(r"[^\n\"']", " ", m.group()),
        text,
    )


def closing(text, at):
    """The place after the bracket that closes the one at a place."""
    depth = 0
    for i in range(at, len(text)):
        depth += (text[i] in "({[") - (text[i] in ")}]")
        if depth == 0:
            return i + 1
    return len(text)


def parts(text, mark=","):
    """The text parted at a mark that stands in no brackets."""
    found, depth, start = [], 0, 0
    for i, c in enumerate(text):
        depth += (c in "({[<") - (c in ")}]") - (c == ">" and text[i - 1] not in "-=")
        if c == mark and depth <= 0:
            found.append(text[start:i])
            start = i + 1
    return [p.strip() for p in found + [text[start:]] if p.strip()]


def read(root):
    functions, types = [], []
    for f in sorted(root.glob("crates/*/src/*.rt")):
        whole = f.read_text()
        text, name = blanked(whole), f.relative_to(root)

        def item(m, **more):
            line = text.count("\n", 0, m.start(1)) + 1
            above = re.search(r"(?:^[ ]*(?://|#\[)[^\n]*\n)*\Z", whole[: text.rfind("\n", 0, m.start(1)) + 1], re.M)
            return Item(name, line, m.group(1), above.group(), **more)

        for m in re.finditer(r"\b(?:enum|struct) (\w+)[^{;(]*\{", text):
            types.append(item(m, body=text[m.start() : closing(text, m.end() - 1)]))
            types[-1].enum = m.group().startswith("enum")
        for m in re.finditer(r"\bfn (\w+)[^(]*\(", text):
            end = closing(text, m.end() - 1)
            params = [tuple(p.split(":", 1)) for p in parts(text[m.end() : end - 1])]
            params = tuple((p[0].replace("mut ", "").strip(), p[-1].strip()) for p in params)
            result = re.match(r"\s*->\s*([^{\n]*)", text[end:])
            requires, at = [], end
            for c in iter(lambda: re.compile(r"[^{]*\{").match(text, at), None):
                start, at = c.end(), closing(text, c.end() - 1)
                if not re.search(r"\b(requires|ensures|decreases)\b[^\n]*$", c.group()):
                    break
                if "requires" in c.group():
                    requires += [" ".join(p.strip("() ").split()) for p in parts(whole[start : at - 1], "×")]
            functions.append(
                item(m, params=params, result=result.group(1).strip() if result else "", requires=requires, body=text[start : at - 1])
            )
            functions[-1].start = start
            functions[-1].text = text
    return functions, types


def variants(t):
    return [(re.match(r"\w+", v).group(), "(" in v or "{" in v) for v in parts(t.body[t.body.index("{") + 1 : -1])]


def tokens(body):
    return re.findall(r"\"[^\"]*\"|'[^']*'|\w+|[^\w\s]", body)


def shape(body):
    """The tokens of a body with one word for names, numbers and quoted text; a path, and names in a row, are one name."""
    words = [w if w in KEYWORDS or not re.match(r"[\w\"']", w) else "x" for w in tokens(re.sub(r"\b_, ?", "", body))]
    names = re.sub(r"\bx(?: , x\b)+", "x", " ".join(words).replace("x : : ", ""))
    return re.sub(r" , ([)}\]])", r" \1", names)


def loops(f):
    """The loops of a function, each with the line, head and body."""
    for m in re.finditer(r"\b(while [^{]*|loop |for [^{]* in [^{]*)\{", f.body):
        end = closing(f.body, m.end() - 1)
        yield f.text.count("\n", 0, f.start + m.start()) + 1, m.group(1).strip(), f.body[m.end() : end - 1]


def arms(body):
    """The arms of a match that is the whole body, as pairs, or none."""
    m = re.match(r"\s*match ([^{]*)\{", body)
    if not m or body[closing(body, m.end() - 1) :].strip():
        return "", []
    found, at, end = [], m.end(), closing(body, m.end() - 1) - 1
    while body[at:end].strip():
        arrow = body.index("=>", at)
        right = re.compile(r"\s*").match(body, arrow + 2).end()
        stop = closing(body, right) if body[right] == "{" else right
        while stop < end and body[stop] != "," and body[right] != "{":
            stop = closing(body, stop) if body[stop] in "({[" else stop + 1
        found.append((body[at:arrow].strip(), " ".join(body[right:stop].split())))
        at = stop + (body[stop] == ",")
    return m.group(1).strip(), found


def places(functions, types):
    out = collections.defaultdict(list)

    def add(point, item, what, line=None):
        out[point].append((f"{item.file}:{line or item.line}", what))

    # 1: enums of the shape of Option or Result; numbers for kinds; values that stand for nothing
    own = set()
    for t in types:
        if t.enum and len(variants(t)) <= 8 and any(v in NOTHING for v, _ in variants(t)):
            own.add(t.name)
            add("1a enums of the shape of Option or Result", t, t.name)
    known = {f.name: f for f in functions}
    made = {f"{t.name}::{v}": parts(fields) for t in types for v, fields in re.findall(r"(\w+)\(([^()]*)\)", t.body)}
    for f in functions:
        hits = collections.Counter()
        at = lambda m: f.text.count("\n", 0, f.start + m.start()) + 1
        for m in re.finditer(r"\bmatch (\w+)(?:\([^{]*\))? \{", f.body):
            if m.group(1) in ("n", "len", "count"):
                continue
            inside = f.body[m.end() : closing(f.body, m.end() - 1)]
            for a in re.finditer(rf"^\s*{NUMBER} =>", inside, re.M):
                hits[f.text.count("\n", 0, f.start + m.end() + a.end()) + 1] += 1
        for m in re.finditer(rf"\b{KIND}\b (?:==|!=|<=|<) ({NUMBER})\b", f.body):
            if m.group().startswith("left") and m.group(1) == "0":
                continue
            hits[at(m)] += 1
        for m in re.finditer(r"\breturn ([1-9]\d*);", f.body):
            if f.result == "u32" and f.params[0][1] != "bool":
                hits[at(m)] += 1
        for m in re.finditer(r"=> ([1-9]\d*),", f.body):
            if f.result == "u32" and not arms(f.body)[1]:
                hits[at(m)] += 1
        for m in re.finditer(r"\b(?:\w+::)*(\w+)\(", f.body):
            args = parts(f.body[m.end() : closing(f.body, m.end() - 1) - 1])
            callee = known.get(m.group(1))
            if callee and len(args) == len(callee.params):
                if any(p[0] == "kind" and re.fullmatch(NUMBER, a) for p, a in zip(callee.params, args)):
                    hits[at(m)] += 1
            fields = made.get(m.group().strip("("), [])
            if any(t == "u32" and re.fullmatch(NUMBER, a) for t, a in zip(fields, args)):
                hits[at(m)] += 1
        for m in re.finditer(rf"\bkind: {NUMBER}\b", f.body):
            hits[at(m)] += 1
        for line in sorted(hits):
            add("1b numbers for kinds (lines)", f, f.name, line)
        if hits:
            out["1b functions with numbers for kinds"].append((f"{f.file}:{f.line}", f.name))
        if re.search(r", or 0\b|[;,] 0 where", f.comment):
            add("1c a flag or a 0 beside a value", f, f"{f.name} answers 0 for none")
        for m in re.finditer(r"(\w+)::(\w+)\(([^()]*)\) => (?:\{\s*)?(?:return )?(\w+)::(\w+)\(([^()]*)\)", f.body):
            if m.group(2) == m.group(5) and m.group(2) in NOTHING and m.group(3) == m.group(6):
                add("1d refusals handed on by hand", f, f.name, at(m))
        for m in re.finditer(r"\blet \w+::\w+\(.*\) = (\w+) else \{\s*return (?:\w+::\w+\(\s*)?\1\b", f.body):
            add("1d refusals handed on by hand", f, f.name, at(m))
        taken = [re.match(r"\w+::(\w+)", p) for p, _ in arms(f.body)[1]]
        if f.params and f.params[0][0] == "self" and any(p and p.group(1) in NOTHING for p in taken):
            add("1e methods that take an own answer apart", f, f.name)
    for t in types:
        fields = [] if t.enum else [p.split(":")[1].strip() for p in parts(t.body[t.body.index("{") + 1 : -1])]
        if "bool" in fields and set(fields) != {"bool"} and any(x[0].isupper() and x != "Seen" for x in fields):
            add("1c a flag or a 0 beside a value", t, f"{t.name}: a bool beside a value")

    # 2: functions, and types, whose bodies agree but for names, numbers and quoted text
    groups = collections.defaultdict(list)
    for f in functions:
        if len(tokens(f.body)) >= 30:
            groups[shape(f.body)].append(f)
    for g in groups.values():
        for f in g if len(g) > 1 else []:
            add("2a functions with a twin", f, f"{f.name}, of the group of {g[0].name}")
    out["2a groups of them"] = [(f"{g[0].file}:{g[0].line}", ", ".join(f.name for f in g)) for g in groups.values() if len(g) > 1]
    groups = collections.defaultdict(list)
    for t in types:
        if "(" in t.body or ":" in t.body:
            groups[re.sub(r"\w+", "x", " ".join(tokens(t.body)))].append(t)
    for g in groups.values():
        for t in g if len(g) > 1 else []:
            add("2b types with a twin", t, f"{t.name}, as {', '.join(o.name for o in g if o is not t)}")

    # 3: loops that count an index by hand
    for f in functions:
        slices = [p for p, t in f.params if re.match(r"&(?:'\w+ )?(?:mut )?\[", t)]
        for line, head, body in loops(f):
            if re.search(r"/ 2\b", body) and "while" in head:
                add("6b searches by hand", f, f.name, line)
            elif re.match(r"while .*<", head) or head == "loop" and any(steps_along(body, x, slices) for x in steppers(body)):
                add("3 loops that count an index by hand", f, f"{f.name}: {head}", line)
            if re.search(r"\w+\[[^\]]*\] = \w+\[[^\]]*\];", body):
                add("4c loops that copy", f, f.name, line)

    # 4: conversions, equality, order, copying, printing by hand
    literal = r"(?:-?\d\w*|(?:\w+::)+\w+(?:\((?:\w|, |::)*\))?|true|false)"
    for f in functions:
        on, pairs = arms(f.body)
        if len(pairs) > 1 and all(re.fullmatch(literal, r) for _, r in pairs):
            if {r for _, r in pairs} <= {"true", "false"}:
                add("4b equality by hand", f, f"{f.name}: a match to true or false")
            elif f.params and f.params[0][0] != "self":
                add("4a conversions by hand", f, f"{f.name}: {pairs[0][0]} => {pairs[0][1]}, ..")
        elif f.result == "bool" and "return" in f.body and not re.search(r"\b(loop|while|for)\b", f.body):
            if re.search(r"return (?:true|false);", f.body):
                add("4b equality by hand", f, f"{f.name}: ifs that return true or false")
        if re.fullmatch(r"\s*\w+ as \w+\s*|\s*if \w+ \{\s*return \d;\s*\}\s*\d\s*", f.body):
            add("4a conversions by hand", f, f"{f.name}: {' '.join(f.body.split())}")
        if re.fullmatch(r"\s*if (\w+) <=? (\w+) \{\s*return \1;\s*\}\s*\2\s*|\s*if (\w+) == 0 \{\s*return 0;\s*\}\s*\3 - 1\s*", f.body):
            add("4e the library's arithmetic by hand", f, f.name)
        if re.search(r"0x30 \+|- 0x30\b", f.body):
            add("4d digits by hand", f, f.name)

    # 5: parameters that travel together; the same fact asked by three or more functions
    sets = [frozenset(p for p in f.params if p[0] != "self") for f in functions]
    closed = {a & b for a, b in itertools.combinations(sets, 2) if len(a & b) >= 3}
    counts = {g: sum(g <= s for s in sets) for g in closed}
    counts = {g: n for g, n in counts.items() if n >= 3}
    top = [g for g in counts if not any(g < h and counts[h] == counts[g] for h in counts)]
    out["5a groups of three or more parameters"] = [
        ("", f"{counts[g]} functions: {', '.join(sorted(p for p, _ in g))}") for g in sorted(top, key=lambda g: -counts[g])
    ]
    for f, s in zip(functions, sets):
        if any(g <= s for g in top):
            add("5a functions with such a group", f, f.name)
    facts = collections.Counter(c for f in functions for c in set(f.requires))
    out["5b facts asked by three or more functions"] = [("", f"{n} functions: {c}") for c, n in facts.most_common() if n >= 3]

    # 6: a buffer and a length or place beside it; parallel arrays
    for f in functions:
        for (a, s), (b, u) in itertools.pairwise(f.params):
            if re.match(r"&(?:mut )?\[", s) and u == "usize":
                add("6a a length or place beside a buffer", f, f"{f.name}: {a}, {b}")
                break
        lent = collections.Counter(t for _, t in f.params if t.startswith("&mut ["))
        for t, n in lent.items():
            if n > 1:
                add("6c parallel arrays", f, f"{f.name}: {n} of {t}")
    for t in types:
        if not t.enum and re.search(r": \[", t.body) and "usize" in t.body:
            add("6a a length or place beside a buffer", t, t.name)

    # 7: functions that match only to choose which function to call
    for f in functions:
        on, pairs = arms(f.body)
        calls = [re.match(r"((?:\w+::)*[a-z]\w*)\(", r) for _, r in pairs]
        named = {c.group(1) for c in calls if c}
        if on in [p for p, _ in f.params] and len(named) > 1 and sum(map(bool, calls)) * 2 > len(pairs):
            add("7 functions that choose which function to call", f, f.name)
    return out


def steppers(body):
    return set(re.findall(r"\b(\w+) [+-]= \d+;", body))


def steps_along(body, x, slices):
    """x is changed by numbers alone, and is a place in a slice."""
    if re.search(rf"\b{x} (?:[+-]= (?!\d+;)|= )", body):
        return False
    return bool(re.search(rf"\[[^\]]*\b{x}\b", body) or any(re.search(rf"\b{s}, {x}\b", body) for s in slices))


def others(functions, types):
    out = collections.defaultdict(list)
    whole = "\n".join(f.body for f in functions)
    alike = collections.Counter(v for t in types if t.enum for v in set(re.findall(r"\w+\([^()]*\)", t.body)))
    for t in types:
        if not t.enum:
            continue
        full = sum(fields for _, fields in variants(t))
        taken = len(re.findall(rf"\blet {t.name}::", whole))
        matched = len(re.findall(rf"(?<!let )\b{t.name}::\w+(?:\([^()]*\))? =>", whole))
        if full <= 1:
            add = "1 enums of bare words" if full == 0 else "1 enums with fields in one variant"
        elif taken and not matched:
            add = "1 enums that are only taken by let .. else"
        elif any(alike[v] > 2 for v in re.findall(r"\w+\([^()]*\)", t.body)):
            add = "1 enums with a variant that three enums have"
        else:
            continue
        out[add].append((f"{t.file}:{t.line}", t.name))
    groups = collections.defaultdict(list)
    for f in functions:
        calls = collections.Counter(re.findall(r"\b((?:\w+::)*[a-z]\w*)\(", f.body))
        if sum(calls.values()) > 1:
            groups[tuple(t for _, t in f.params), f.result, tuple(sorted(calls.items()))].append(f)
    for g in groups.values():
        for f in g if len(g) > 1 else []:
            out["2 functions with the types and the calls of another"].append(
                (f"{f.file}:{f.line}", f"{f.name}, as {', '.join(o.name for o in g if o is not f)}")
            )
    for f in functions:
        for line, head, body in loops(f):
            for x in sorted(set(re.findall(r"\b(\w+) [+-]= ", body)) | set(re.findall(r"\bfor (\w+) in [^{]*\.\.", head))):
                if re.search(rf"\[[^\]]*\b{x}\b[^\]]*\]", body):
                    out["3 loops with an index that they step"].append((f"{f.file}:{line}", f"{f.name}: {x}"))
                    break
    return out


def proofs(root):
    for crate in sorted(p for p in root.glob("crates/*") if (p / "proofs").is_dir()):
        texts = [f.read_text() for f in sorted(crate.glob("proofs/**/*.antt"))]
        yield crate.name, sum(len(re.findall(r"^pub \S+ +: goal\b", t, re.M)) for t in texts), sum(t.count("\n") for t in texts)


def main():
    args = [a for a in sys.argv[1:] if not a.startswith("--")]
    root = pathlib.Path(args[0] if args else pathlib.Path(__file__).resolve().parent.parent)
    found = (others if "--other" in sys.argv else places)(*read(root))
    for point in sorted(found):
        print(f"{len(found[point]):5}  {point}")
        for place, what in found[point] if "--list" in sys.argv else []:
            print(f"         {place + '  ' if place else ''}{what}")
    if "--other" not in sys.argv:
        counts = list(proofs(root))
        print(f"{sum(a for _, a, _ in counts):5}  8 answers, {sum(n for _, _, n in counts)} lines of proofs")
        for name, a, n in counts if "--list" in sys.argv else []:
            print(f"         {name}: {a} answers, {n} lines")


main()
