#!/usr/bin/env python3
"""Brings the repository's own definitions and lemmas to snake case, once, after the kit's port.py.

usage: python3 tools/spell.py        at the top of the repository

A definition, constructor, field or lemma whose name is in camel case gets words joined by underscores (sectorAt becomes
sector_at, byteStep-below byte_step-below), in specs/, proofs/, the clauses of src/, the must-fail edits and the pages.
Types and modules keep their camel case; functions of src/, exported names and strings have no camel case and stay.
Thirteen lemmas had the name that a definition gets: these are given the ending _law.
"""
import os
import re

# The lemmas and local names, all in proofs/, that had the name which a definition gets.
LAWS = [
    "held_after", "seen_as", "in_place", "spare_writes", "none_inside", "in_order", "all_done", "one_table", "free_in",
    "count_held", "some_in", "all_in", "run_fits",
]
# Two lemmas that port.py did not spell by today's name of the function that they are about.
ABOUT = {"get_d_part": "get_or-part", "get_d_words": "get_or-words"}
# Names of a type joined to a word: these stay.
KEPT = re.compile(r"^(keep_Opened|scaled_Fits|walk_Meets|shr_slice_\w+)$")
TOKEN = re.compile(r"(?<![\w'-])[a-z][\w'-]*")


def snake(name):
    name = name.replace("getD-", "get_or-")
    return re.sub(r"(?<=[a-z0-9])[A-Z]", lambda m: "_" + m.group().lower(), name)


def files(endings, *tops):
    for top in tops:
        if os.path.isfile(top):
            yield top
        for folder, dirs, names in os.walk(top):
            dirs[:] = sorted(d for d in dirs if d != "out")
            for n in sorted(names):
                if n.endswith(endings):
                    yield os.path.join(folder, n)


def read(p):
    with open(p, encoding="utf-8") as f:
        return f.read()


def write(p, t, was):
    if t != was:
        with open(p, "w", encoding="utf-8") as f:
            f.write(t)


def main():
    laws = re.compile(r"(?<![\w'.-])(" + "|".join(LAWS) + r")(?![\w'-])")
    names = set()
    for p in files((".antt",), "crates"):
        code = re.sub(r"--[^\n]*", "", read(p))
        names |= {m.group() for m in TOKEN.finditer(code) if re.search("[A-Z]", m.group()) and not KEPT.match(m.group())}
    for p in files((".antt",), "crates"):
        if "/proofs/" in p:
            was = read(p)
            write(p, laws.sub(lambda m: m.group() + "_law", was), was)

    def turn(m):
        return ABOUT.get(m.group()) or (snake(m.group()) if m.group() in names else m.group())

    for p in files((".antt", ".rt", ".edit", ".md"), "crates", "docs", "README.md"):
        was = read(p)
        write(p, TOKEN.sub(turn, was), was)
    print(len(names), "names")


if __name__ == "__main__":
    main()
