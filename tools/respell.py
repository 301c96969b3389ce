#!/usr/bin/env python3
"""Respells the repository's own definitions and lemmas as today's Rattle spells words: in snake case.

usage: python3 tools/respell.py          once, at the top, after the kit's port.py

It turns each name that the antt files of crates/ declare or use and that begins with a small letter and has a
capital within, as `minAL` and `tagsOf`, and the record fields of specs/ that had a dash, in .antt and .rt files and
in the pages that name them. Names of the kit, and text in quotes, stay.
"""
import glob
import os
import re
import sys

# names of the kit that mix a word and a type, and endings that are types
KIT = {"shr_slice_Lawful", "shr_slice_Tells", "uint_Makes", "uint_Tells", "is_IsWord", "walk_Meets"}

# a word that is not spelled by its capitals: the kit's name of it, or one that would fall together with a lemma's
WORDS = {"getD": "get_or", "joinedAt": "order_joined_at"}

# a file of specs/ that would have the name of a module that Rattle makes
MOVED = {"crates/unit/specs/Contracts.antt": "crates/unit/specs/CallContracts.antt"}
PATHS = {"Rattle.unit.specs.Contracts.": "Rattle.unit.specs.CallContracts.", "(unit, Contracts)": "(unit, CallContracts)"}

NAME = re.compile(r"[A-Za-z_][A-Za-z0-9_'\-+]*")


def part(word):
    """One name between dashes, in snake case; a type keeps its capital."""
    if word in WORDS:
        return WORDS[word]
    if not re.match(r"[a-z]", word) or not re.search(r"[A-Z]", word):
        return word
    word = re.sub(r"([a-z0-9])([A-Z])", r"\1_\2", word)
    return word.lower()


def respelled(name):
    if name in KIT:
        return name
    return "-".join(part(p) for p in name.split("-"))


def declared_fields():
    """Record fields and constructors of specs/ that have a dash."""
    found = set()
    for f in glob.glob("crates/*/specs/**/*.antt", recursive=True):
        for line in open(f, encoding="utf8"):
            m = re.match(r"\s+(?:pub\s+)?([a-z][a-z0-9]*(?:-[a-z0-9]+)+)\s*:(?!=)", line)
            if m:
                found.add(m.group(1))
    return found


def own_names():
    """Each name of the antt files that is spelled in the older way."""
    found = set()
    for f in antt_files():
        for piece in code_of(open(f, encoding="utf8").read()):
            if not piece[1]:
                continue
            for m in NAME.finditer(piece[0]):
                if respelled(m.group(0)) != m.group(0):
                    found.add(m.group(0))
    return found


def antt_files():
    return sorted(glob.glob("crates/*/specs/**/*.antt", recursive=True) + glob.glob("crates/*/proofs/**/*.antt", recursive=True))


def code_of(text):
    """The text in pieces: (piece, whether it is outside quotes)."""
    at = 0
    for m in re.finditer(r'"(?:[^"\\\n]|\\.)*"', text):
        yield text[at:m.start()], True
        yield m.group(0), False
        at = m.end()
    yield text[at:], True


def main():
    for old, new in MOVED.items():
        os.rename(old, new)
    lib = "crates/unit/specs/Lib.antt"
    text = open(lib, encoding="utf8").read().replace("pub mod Contracts\n", "pub mod CallContracts\n")
    open(lib, "w", encoding="utf8").write(text)
    fields = declared_fields()
    names = {n: respelled(n) for n in own_names()}
    names.update({f: f.replace("-", "_") for f in fields})
    used = set()
    for f in antt_files():
        used |= set(NAME.findall(open(f, encoding="utf8").read()))
    for old, new in sorted(names.items()):
        if new in used:
            print(f"look: {old} becomes {new}, which stands already")
    back = {}
    for old, new in sorted(names.items()):
        if new in back:
            print(f"look: {old} and {back[new]} both become {new}")
        back[new] = old

    def turned(text):
        return "".join(NAME.sub(lambda m: names.get(m.group(0), m.group(0)), p) if code else p for p, code in code_of(text))

    pages = ["README.md"] + sorted(glob.glob("docs/*.md"))
    for f in antt_files() + sorted(glob.glob("crates/*/src/**/*.rt", recursive=True)) + pages:
        text = open(f, encoding="utf8").read()
        new = turned(text)
        for old_path, new_path in PATHS.items():
            new = new.replace(old_path, new_path)
        if new != text:
            open(f, "w", encoding="utf8").write(new)


if __name__ == "__main__":
    sys.exit(main())
