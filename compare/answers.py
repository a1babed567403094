"""Runs the oracle and the second program on texts."""

import subprocess
from pathlib import Path

import generate

ROOT = Path(__file__).resolve().parent.parent
TARGET = ROOT / "target" / "compare"


def build(folder):
    subprocess.run([str(ROOT / "compare" / "build"), str(folder)], check=True)


def linked(folder, name, crate, stand_in=False):
    """Builds compare/NAME over rezel's files and the static library of a crate, or over the second program in its place."""
    compare = ROOT / "compare"
    laid = subprocess.run([compare / "lay", folder, name, *(compare / name).glob("*.rs")], check=True, capture_output=True, text=True)
    program = TARGET / "bin" / name
    command = ["rustc", "--edition", "2024", "-C", "opt-level=3", "-A", "dead_code", Path(laid.stdout.strip()) / "main.rs", "-o", program]
    if stand_in:
        command += ["--cfg", "stand_in"]
    else:
        subprocess.run(["rt", "lib"], cwd=ROOT / "crates" / crate, check=True, stdout=subprocess.DEVNULL)
        command += ["-L", f"crates/{crate}/out", "-l", f"static={crate}"]
    subprocess.run(command, cwd=ROOT, check=True)
    return program


def hand():
    """A file with the hand-chosen texts, one a line."""
    texts = TARGET / "hand.hex"
    texts.write_text("".join(text.hex() + "\n" for text in generate.hand()))
    return texts


def lines(program, *arguments, given):
    """One answer for each given line."""
    command = [str(TARGET / "bin" / program), *arguments]
    joined = "".join(line + "\n" for line in given)
    done = subprocess.run(command, input=joined, capture_output=True, text=True, check=True)
    answers = done.stdout.split("\n")[:-1]
    assert len(answers) == len(given), (program, len(answers), len(given))
    return answers


def oracle(texts):
    return lines("oracle", given=[text.hex() for text in texts])


def second(texts, mode="read"):
    return lines("second", mode, given=[text.hex() for text in texts])


def unanswered(answer):
    """Whether the second program's answer is a cause that the oracle does not know."""
    return answer.split(" ")[:2] in (["R", "1"], ["R", "2"], ["R", "3"])


def differing(texts):
    """The texts on which oracle and second program differ, with both answers."""
    pairs = zip(texts, oracle(texts), second(texts))
    return [(text, one, two) for text, one, two in pairs if one != two and not unanswered(two)]
