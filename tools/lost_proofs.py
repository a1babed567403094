#!/usr/bin/env python3
"""Takes each proof that crates/demands names away in turn, and sees that the crate no longer proves. Prints a line for each: the
statement, and what was said first. Works on a copy below a temporary folder; takes about half a minute for each proof.

    tools/lost_proofs.py [WORD ..]    only the names that hold one of the words
"""
import os
import re
import shutil
import subprocess
import sys
import tempfile

ROOT = os.path.dirname(os.path.dirname(os.path.realpath(__file__)))
SPECS = "crates/demands/specs"


def named(root):
    """Each proof that the crate names: the name there, the file, and the name in that file."""
    for name in sorted(os.listdir(f"{root}/{SPECS}")):
        text = open(f"{root}/{SPECS}/{name}").read()
        uses = re.findall(r"^use Rattle\.(\w+)\.proofs\.([\w.]+) as (\w+)$", text, re.M)
        modules = {alias: f"crates/{crate}/proofs/{path.replace('.', '/')}.antt" for crate, path, alias in uses}
        for here, alias, there in re.findall(r"^\s*([\w-]+) = (\w+)\.([\w-]+);?$", text, re.M):
            yield here, modules[alias], there


def indent(line):
    return len(line) - len(line.lstrip())


def without(text, name):
    """The text without the declaration of that name: up to a blank line with a line behind it that is indented no further."""
    lines = text.split("\n")
    first = next(i for i, line in enumerate(lines) if re.match(rf"\s*pub {re.escape(name)} ?:", line))
    last = first
    while last < len(lines) and not (lines[last] == "" and (last + 1 == len(lines) or indent(lines[last + 1]) <= indent(lines[first]))):
        last += 1
    return "\n".join(lines[:first] + lines[last:])


def main(words):
    bad = 0
    with tempfile.TemporaryDirectory() as at:
        copy = f"{at}/copy"
        shutil.copytree(ROOT, copy, ignore=shutil.ignore_patterns("out", "target", ".git"))
        os.mkdir(f"{copy}/.git")
        for here, path, there in named(copy):
            if words and not any(word in here for word in words):
                continue
            whole = open(f"{copy}/{path}").read()
            with open(f"{copy}/{path}", "w") as it:
                it.write(without(whole, there))
            ran = subprocess.run(["rt", "check"], cwd=f"{copy}/crates/demands", capture_output=True, text=True)
            with open(f"{copy}/{path}", "w") as it:
                it.write(whole)
            said = [line for line in (ran.stdout + ran.stderr).split("\n") if re.match(r"\S+:\d+:\d+: error:", line)]
            is_lost = ran.returncode != 0 and said
            bad += not is_lost
            print(f"{here} ({path}): {'fails: ' + said[0][:160] if is_lost else 'STILL PROVED, or nothing was tried'}", flush=True)
    print(f"{bad} not missed")
    return 1 if bad else 0


if __name__ == "__main__":
    sys.exit(main(sys.argv[1:]))
