#!/usr/bin/env python3
"""Lists what changed in what is promised: each public function with its clauses, each public type, and each declaration of specs/, old
and new side by side.

usage: python3 tools/changes.py COMMIT

The commit is read by `git show`; new is what stands in the working folder. Comments, `use` lines and white space do not count.
"""

import os
import re
import subprocess
import sys

ITEM = re.compile(r"^\s*pub (?:const )?(?:extern \"C\" )?(fn|struct|enum|const|type) (\w+)")
IMPL = re.compile(r"^impl(?:<[^>]*>)? (.*?) \{$")
GHOST = re.compile(r"^\s*ghost (\w+) = ")
NAME = re.compile(r"^(?:(?:pub|abbrev|unfoldable|record|data) )*([^\s:{(]+)")


def plain(lines):
    kept = [line.split(" // ")[0].strip() for line in lines if not line.strip().startswith(("//", "#["))]
    return " ".join(" ".join(kept).split()).rstrip("{").strip()


def code(text):
    """The public functions, types and constants of a module, and the ghost items of its impls."""
    found, block = {}, ""
    lines = text.split("\n")
    i = 0
    while i < len(lines):
        line = lines[i]
        if IMPL.match(line):
            block = IMPL.match(line).group(1)
        elif line == "}":
            block = ""
        item = ITEM.match(line)
        ghost = GHOST.match(line) if block else None
        if item or ghost:
            kind, name = item.groups() if item else ("ghost", ghost.group(1))
            j = i
            if kind == "fn":
                while not lines[j].rstrip().endswith("{") or "ensures" in lines[j]:
                    j += 1
            elif kind in ("struct", "enum"):
                while not lines[j].startswith("}") and not lines[j].rstrip().endswith((";", "}")):
                    j += 1
            else:
                while not lines[j].rstrip().endswith((";", "{")):
                    j += 1
            found["::".join(part for part in (block, name) if part)] = plain(lines[i : j + 1])
            i = j
        i += 1
    return found


def specs(text):
    """The declarations of a file of specs/: blocks between blank lines, each by its first name."""
    found = {}
    for block in re.split(r"\n\s*\n", text):
        lines = [line for line in block.split("\n") if not line.strip().startswith(("--", "use ", "pub mod", "mod "))]
        if not "".join(lines).strip():
            continue
        first = lines[0].strip()
        if first.startswith("module"):
            continue
        name = NAME.match(first)
        if name:
            found[name.group(1)] = " ".join(" ".join(lines).split())
    return found


def read(names, show):
    """By crate: what each public item and each declaration says."""
    held = {}
    for path in names:
        part = path.split("/")
        if len(part) < 4 or part[0] != "crates":
            continue
        if part[2] == "src" and path.endswith(".rt"):
            module = "::".join(part[3:])[:-3]
            module = "" if module in ("lib", "main") else module
            for name, said in code(show(path)).items():
                held[(part[1], "src", "::".join(p for p in (module, name) if p))] = said
        elif part[2] == "specs" and path.endswith(".antt"):
            for name, said in specs(show(path)).items():
                held[(part[1], "specs", f"{part[3][:-5]}.{name}")] = said
    return held


def at_commit(commit):
    git = ["git", "-c", "core.quotepath=off"]
    names = subprocess.run(git + ["ls-tree", "-r", "--name-only", commit, "crates"], capture_output=True, text=True, check=True).stdout.split("\n")
    return read(names, lambda path: subprocess.run(git + ["show", f"{commit}:{path}"], capture_output=True, text=True, check=True).stdout)


def here():
    names = subprocess.run(["git", "ls-files", "-co", "--exclude-standard", "crates"], capture_output=True, text=True, check=True).stdout.split("\n")
    return read([name for name in names if os.path.isfile(name)], lambda path: open(path, encoding="utf-8").read())


def main():
    if len(sys.argv) != 2:
        raise SystemExit(__doc__)
    old, new = at_commit(sys.argv[1]), here()
    crate = None
    for key in sorted(set(old) | set(new)):
        was, now = old.get(key), new.get(key)
        if was == now:
            continue
        if key[0] != crate:
            crate = key[0]
            print(f"\n### {crate}\n")
        print(f"`{key[2]}`" + ("" if was else ", new") + ("" if now else ", gone"))
        print("\n```diff")
        if was:
            print("- " + was)
        if now:
            print("+ " + now)
        print("```\n")


if __name__ == "__main__":
    main()
