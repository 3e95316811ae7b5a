#!/usr/bin/env python3
"""Brings the names of definitions and lemmas to today's spelling: words in snake case, no middle dot in a name.

usage: tools/spelling.py            at the top of a tree that port.py has just turned

It turns the .antt and .rt files of all crates in place, and the crate `log`, whose name the library has, to `clause_log`.
Functions, types, strings and exported names of src/ keep theirs: no name there has the spelling that is turned. It says which new
names were there before, and stops at one that would fall together with another in a file.
"""

import os
import re
import sys

# Lemmas that would come to be called as the definition that they speak of.
LEMMAS = {
    "theory": ["good_length", "is_digit", "two_ways"],
    "rows": ["good_length", "number_word"],
    "encoding": ["number_word"],
    "listing": ["number_word"],
    "cnf_reader": ["number_word"],
    "log": ["other_sign", "too_many", "no_room"],
    "lines": ["two_ways"],
    "answering": ["no_text"],
    "solver": ["no_text"],
}
# Definitions whose words a dash joins.
DASHED = {"one-if": "one_if", "open-word": "open_word", "counted-set": "counted_set"}
CAMEL = re.compile(r"[a-z][a-z0-9]*(?:[A-Z][A-Za-z0-9]*)+")
NAME = re.compile(r"[A-Za-z_][\w'?₀₁₂·-]*")


def files():
    for folder, below, names in os.walk("crates"):
        below[:] = sorted(x for x in below if x not in ("out", "must-fail"))
        for name in sorted(names):
            if name.endswith((".antt", ".rt")):
                yield os.path.join(folder, name)


def snake(word):
    return re.sub(r"(?<=[a-z0-9])(?=[A-Z])", "_", word).lower()


def part(word):
    core = re.match(r"\w*", word)[0].rstrip("₀₁₂")
    return snake(core) + word[len(core):] if CAMEL.fullmatch(core) else word


def spelled(name):
    """The name as it is spelled today: each part between dashes by itself."""
    if name in DASHED:
        return DASHED[name]
    if name.endswith("·all"):
        return "".join(snake(name[0].lower() + name[1:-4])) + "_all"
    return "-".join(part(it) for it in name.split("-"))


def lemmas(text, crate):
    """In .antt files: the name, but not behind a dot, where it is a folder or a field, and not in a path to a function's files."""
    for name in LEMMAS.get(crate, ()):
        turned = []
        for line in text.split("\n"):
            if f".{name}.Statement" not in line and f".{name}.Tie" not in line and not line.startswith("--"):
                line = re.sub(rf"(?<![\w'.·-]){name}(?![\w'-])", name + "_lem", line)
            turned.append(line)
        text = "\n".join(turned)
    return text


def turned(text, crate, is_antt):
    if is_antt:
        text = lemmas(text, crate)
        text = re.sub(r"\bRattle\.log\.", "Rattle.clause_log.", text)
        return NAME.sub(lambda m: spelled(m[0]), text)
    text = re.sub(r"\bRattle\.log\.", "Rattle.clause_log.", text)
    text = re.sub(r"(?<![\w:.])log::", "clause_log::", text)
    return NAME.sub(lambda m: spelled(m[0]), text)


def main():
    met = 0
    for path in files():
        crate = path.split(os.sep)[1]
        with open(path, encoding="utf-8", newline="") as f:
            text = f.read()
        is_antt = path.endswith(".antt")
        before = {m[0] for m in NAME.finditer(lemmas(text, crate) if is_antt else text)}
        for name in sorted(before):
            new = spelled(name)
            if is_antt and new != name and new in before:
                print(f"look: {path}: {name} and {new}")
                met += 1
        new = turned(text, crate, is_antt)
        if new != text:
            with open(path, "w", encoding="utf-8", newline="") as f:
                f.write(new)
    if os.path.isdir("crates/log"):
        os.rename("crates/log", "crates/clause_log")
        with open("crates.txt", encoding="utf-8") as f:
            lines = f.read()
        with open("crates.txt", "w", encoding="utf-8") as f:
            f.write(re.sub(r"\blog\b", "clause_log", lines))
    print(f"{met} to look at")


if __name__ == "__main__":
    sys.exit(main())
