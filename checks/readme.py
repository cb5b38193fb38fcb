"""Holds the code that README shows against the files that it is taken from.

    python3 checks/readme.py

Below each heading of SHOWN one block of code, lines indented by four spaces, has to be the file, line by line. It also tries itself: README
with any line of that block gone, changed or doubled has to be told from it.
"""
import sys
from pathlib import Path

ROOT = Path(__file__).resolve().parent.parent

# a heading of README, and the file that a block below it is
SHOWN = [("## From C", "examples/c/read.c")]


def below(readme, heading):
    """The text between a heading and the next one; empty where it is not there."""
    return ("\n" + readme).partition("\n%s\n" % heading)[2].partition("\n## ")[0]


def blocks(text):
    """The blocks of code without their indentation; empty lines inside a block belong to it."""
    found = [[]]
    for line in text.split("\n"):
        if line.startswith("    ") or line == "":
            found[-1].append(line[4:])
        else:
            found.append([])
    return ["\n".join(block).strip("\n") for block in found]


def indented(lines):
    return "".join("    %s\n" % line if line else "\n" for line in lines)


def differences(readme, files):
    """What README shows otherwise, in words; files is a dictionary of path to text."""
    return ["README.md: below '%s' no block of code is %s" % (heading, path)
            for heading, path in SHOWN if files[path].strip("\n") not in blocks(below(readme, heading))]


def wrong_copies(readme, text):
    """README with a line of the file's code gone, changed or doubled, each line in turn."""
    lines = text.rstrip("\n").split("\n")
    for i, line in enumerate(lines):
        for instead in ([], [line + "x"], [line, line]):
            yield readme.replace(indented(lines), indented(lines[:i] + instead + lines[i + 1:]))


def main():
    readme = (ROOT / "README.md").read_text(encoding="utf-8")
    files = {path: (ROOT / path).read_text(encoding="utf-8") for _, path in SHOWN}
    said = differences(readme, files)
    if not said:
        said = ["checks/readme.py: a wrong copy of %s in README.md was not told" % path
                for _, path in SHOWN for copy in wrong_copies(readme, files[path]) if not differences(copy, files)]
    print("\n".join(said) if said else "README shows %s as it is." % " and ".join(path for _, path in SHOWN))
    return 1 if said else 0


if __name__ == "__main__":
    sys.exit(main())
