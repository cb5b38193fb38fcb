#!/usr/bin/env python3
"""floors.py [--check]: the drawing of README's crates, made from crates.txt.

A crate's name begins with its subject; crates of one subject are one floor. A floor stands on those that its crates
name in crates.txt, less those that one of these stands on already. Without --check README is written anew between its
two marks; with it the drawing there is compared, and the status is 1 where it differs.
"""
import sys

BEGIN, END = "<!-- floors: made by checks/floors.py -->", "<!-- end of floors -->"


def read(path):
    """The crates of the repository in the file's order, each with the crates of the repository that it names."""
    listed = {}
    for line in open(path, encoding="utf-8"):
        line = line.split("#")[0].strip()
        if line:
            name, _, deps = line.partition(":")
            listed[name.split()[0]] = deps.split()
    return {name: [d for d in deps if d in listed] for name, deps in listed.items()}


def subject(name):
    return name.split("_")[0]


def floors(crates):
    """Each subject with its crates and the subjects that they name."""
    found = {}
    for name, deps in crates.items():
        names, below = found.setdefault(subject(name), ([], set()))
        names.append(name)
        below.update(subject(d) for d in deps if subject(d) != subject(name))
    return found


def heights(found):
    height = {}

    def of(s):
        if height.get(s) == 0:
            sys.exit(f"the crates of {s} stand above and below those of another subject")
        if s not in height:
            height[s] = 0
            height[s] = 1 + max((of(b) for b in found[s][1]), default=0)
        return height[s]

    for s in found:
        of(s)
    return height


def reach(found, s):
    """Every subject that s stands on, through others too."""
    seen, left = set(), list(found[s][1])
    while left:
        b = left.pop()
        if b not in seen:
            seen.add(b)
            left.extend(found[b][1])
    return seen


def drawing(crates):
    found = floors(crates)
    height = heights(found)
    rows = []
    for level in range(max(height.values()), 0, -1):
        for s in (s for s in found if height[s] == level):
            below = found[s][1]
            direct = [b for b in found if b in below and not any(b in reach(found, o) for o in below if o != b)]
            rows.append((s, ", ".join(direct), " ".join(found[s][0])))
    wide = [max(len(r[i]) for r in rows) for i in range(2)]
    lines, last = [], None
    for s, on, names in rows:
        if last is not None and height[s] != last:
            lines.append("    " + "-" * (wide[0] + wide[1] + 8))
        last = height[s]
        lines.append(f"    {s:<{wide[0]}}  {'on ' + on if on else '':<{wide[1] + 3}}   {names}".rstrip())
    return "\n".join(lines)


def main():
    text = open("README.md", encoding="utf-8").read()
    head, found, rest = text.partition(BEGIN)
    old, ended, tail = rest.partition(END)
    if not found or not ended:
        sys.exit("README.md has no place for the drawing")
    new = "\n\n" + drawing(read("crates.txt")) + "\n\n"
    if "--check" in sys.argv[1:]:
        if old != new:
            sys.exit("README.md's drawing of the crates is not that of crates.txt: run checks/floors.py")
        return
    open("README.md", "w", encoding="utf-8").write(head + BEGIN + new + END + tail)


if __name__ == "__main__":
    main()
