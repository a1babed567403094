#!/usr/bin/env python3
"""Respells the repository's own definitions and lemmas as Rattle spells names: words in snake case, a dash only between two names.

Usage: respell.py [FOLDER]    once, at the top, after port.py
It turns whole words: in .antt files outside quoted text, in the clauses and `ghost use` items of .rt files, in the definitions that
must-fail edits quote, and in code spans of .md files. A name that would fall together with another stays, and is printed.
"""
import pathlib, re, sys

root = pathlib.Path(sys.argv[1] if len(sys.argv) > 1 else ".")
WORD = r"[^\s(){}.;,@\"«»\[\]]+"
QUOTED = re.compile(r"\"(?:[^\"\\\n]|\\.)*\"|--[^\n]*", re.S)
DECLARED = re.compile(
    r"^\s*(?:(?:pub|abbrev|unfoldable)\s+)*([^\s:(){}\[\]]+(?:\s+[^\s:(){}\[\]]+)*?)(?:\s*\{ℓ[^}]*\})?\s+:\s"
)
NOT_NAMES = {"let", "in", "λ", "|", "use", "→", "module", "record", "data", "where"}
# names that mean a tactic today
OWN = {"first_of": "first_element", "noWords": "no_words_in"}
# words of the library that a dash may join to
KNOWN = set(
    "true false none some suc zero length take drop append cons nil ap sym refl eqb leb ltb min max get set split same every concat "
    "kept picked among within letters spells head over".split()
)


def antt():
    for f in sorted((root / "crates").rglob("*.antt")):
        if "out" not in f.parts:
            yield f


def declared():
    names, specs = set(), set()
    for f in antt():
        if f.name == "Proof.antt":
            continue
        for line in f.read_text().split("\n"):
            m = DECLARED.match(line)
            if not m:
                continue
            for n in m.group(1).split():
                if n in NOT_NAMES:
                    break
                names.add(n)
                if "specs" in f.parts:
                    specs.add(n)
    return names, specs


def foreign():
    """The names that a file takes from the library."""
    own = {f.name for f in (root / "crates").iterdir()}
    names = set()
    for f in antt():
        for m in re.finditer(r"(?m)^\s*(?:pub )?(?:use|open) ([^\s{]+)\.?(?:use )?\s*\{([^}]*)\}", f.read_text()):
            path = m.group(1).split(".")
            if not (path[0] == "Rattle" and len(path) > 1 and path[1] in own) and path[0] != "goal":
                names |= {n.split(" as ")[0].strip() for n in m.group(2).split(",")}
    return names


def snake(word):
    if not re.match(r"[a-z]", word) or not re.search(r"[A-Z]", word):
        return word
    return re.sub(r"(?<=[a-z0-9])([A-Z])", lambda m: "_" + m.group(1).lower(), word)


def table():
    names, specs = declared()
    taken = foreign()
    # bound names too
    for f in antt():
        for text in [QUOTED.sub(" ", f.read_text())]:
            names |= {w for w in re.findall(WORD, text) if re.fullmatch(r"[a-z]+(?:[A-Z][a-z0-9]*)+", w)}
    simple = {n for n in names if "-" not in n}
    known = {snake(n) for n in simple} | simple | KNOWN
    turned = {}
    for n in sorted(names - taken):
        if n.startswith("-") or n.endswith("-") or "-" not in n:
            new = snake(n)
        else:
            parts = [snake(p) for p in n.split("-")]
            new = parts[0]
            for a, b in zip(parts, parts[1:]):
                joined = a in known and b in known
                new += ("-" if joined else "_") + b
        if new != n:
            turned[n] = new
    for old, new in OWN.items():
        turned[old] = new
    # what would fall together stays; a definition goes before a lemma
    alone = {}
    for f in antt():
        text = re.sub(r"(?m)^\s*(?:pub )?(?:use|mod) .*$", "", f.read_text())
        for w in set(re.findall(r"(?<![\w.])" + WORD, text)):
            alone.setdefault(w, set()).add(f)
    for f in sorted((root / "crates").rglob("*.rt")):
        if "out" not in f.parts:
            for m in CLAUSE.finditer(f.read_text()):
                for w in re.findall(r"(?<![\w.])" + WORD, f.read_text()[m.end() : m.end() + 600].split("{")[0]):
                    alone.setdefault(w, set()).add(f)
    seen = {}
    for old in sorted(turned, key=lambda n: ("-" in n, n)):
        new = turned[old]
        if new in OWN.values():
            continue
        if new in names and new not in turned and "-" not in old and new not in specs:
            # a lemma with its function's name
            turned[new] = new + "_lem"
            seen[new] = old
        elif new in names and new not in turned:
            print("stays, a name already:", old, new)
            del turned[old]
        elif new in seen:
            print("stays, falls together:", old, "with", seen[new], new)
            del turned[old]
        elif "-" in old and new in alone:
            print("stays, a word already:", old, new)
            del turned[old]
        elif old != "structurallyEq" and alone.get(old, set()) & alone.get(new, set()):
            print("stays, both in a file:", old, new, sorted(f.name for f in alone[old] & alone[new])[:3])
            del turned[old]
        else:
            seen[new] = old
    return turned




def words(text, names):
    return re.sub(WORD, lambda m: names.get(m[0], names.get(m[0].rstrip("'"), m[0].rstrip("'")) + "'" * (len(m[0]) - len(m[0].rstrip("'"))) if m[0].rstrip("'") in names else m[0]), text)


def spans(text, names):
    """Only words in code spans, and words in camel case."""
    text = re.sub(r"`[^`\n]*`", lambda m: words(m[0].replace("`", " ` "), names).replace(" ` ", "`"), text)
    return re.sub(r"\b[a-z]+(?:[A-Z][a-z0-9]*)+\b", lambda m: names.get(m[0], m[0]), text)


def outside(text, names):
    out, at = [], 0
    for m in QUOTED.finditer(text):
        out.append(words(text[at : m.start()], names))
        out.append(spans(m[0], names) if m[0].startswith("--") else m[0])
        at = m.end()
    out.append(words(text[at:], names))
    return "".join(out)


CLAUSE = re.compile(r"(?:requires|ensures)\s*\*?\s*(?:\w+\s*)?\{")


def rattle(text, names):
    """The clauses and the `ghost use` items of a .rt file."""
    text = re.sub(r"ghost\s+use\b[^;]*;", lambda m: words(m[0], names), text)
    out, at = [], 0
    for m in CLAUSE.finditer(text):
        if m.start() < at:
            continue
        i, depth = m.end(), 1
        while depth:
            depth += {"{": 1, "}": -1}.get(text[i], 0)
            i += 1
        out.append(text[at : m.end()])
        out.append(outside(text[m.end() : i], names))
        at = i
    out.append(text[at:])
    return "".join(out)


def main():
    names = table()
    for f in antt():
        old = f.read_text()
        new = outside(old, names)
        if new != old:
            f.write_text(new)
    for f in sorted((root / "crates").rglob("*.rt")):
        if "out" in f.parts:
            continue
        old = f.read_text()
        new = rattle(old, names)
        if new != old:
            f.write_text(new)
    camel = {a: b for a, b in names.items() if re.search("[A-Z]", a)}
    for f in sorted((root / "crates").rglob("*.edit")):
        old = f.read_text()
        lines = old.split("\n")
        if any(l.startswith("file:") and ".antt" in l for l in lines):
            new = "\n".join(words(l, names) if l.startswith(("old:", "new:")) else l for l in lines)
        else:
            new = "\n".join(words(l, camel) if l.startswith(("old:", "new:")) else l for l in lines)
        if new != old:
            f.write_text(new)
    for f in [*sorted((root / "docs").glob("*.md")), *sorted((root / "compare").rglob("*.md"))]:
        old = f.read_text()
        new = spans(old, camel)
        if new != old:
            f.write_text(new)
    print(len(names), "names turned")


main()
