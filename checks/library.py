"""Holds what include/tuormik.h says of the library against the library: no variables, nothing called but functions on memory, and at most
TUORMIK_STACK bytes of stack, besides what those functions take.

    python3 checks/library.py [LIBRARY]

The stack is counted from the instructions, as `objdump` prints them: of each function all that it pushes and takes, whichever way it
goes, and the most of what it calls. A function that takes no fixed number of bytes, or calls itself or what no symbol names, or hands on
the address of another, is an error, since nothing could be said of it. So the number told is at least what a call takes.

It also tries itself on small pieces of C, one that is as it should be and wrong ones that have to be found wrong.
"""
import re
import subprocess
import sys
import tempfile
from pathlib import Path

ROOT = Path(__file__).resolve().parent.parent
ON_MEMORY = {"memcpy", "memmove", "memset", "memcmp", "bcmp"}
RETURN_ADDRESS = 8
# bytes below the stack's end that a function may use without taking them
RED_ZONE = 128


def run(*words):
    return subprocess.run(words, check=True, capture_output=True, text=True).stdout


def variables(library):
    """Sections of bytes that can be written and are not empty."""
    found = []
    for line in run("objdump", "-h", library).splitlines():
        parts = line.split()
        if len(parts) == 7 and parts[0].isdigit():
            name, size = parts[1], int(parts[2], 16)
            if size and re.match(r"\.(data|bss|tdata|tbss)(\.(?!rel\.ro)|$)", name):
                found.append("%s, %d bytes" % (name, size))
    return found


def called_outside(library):
    """Names that the library uses and does not have."""
    used, had = set(), set()
    for line in run("nm", library).splitlines():
        parts = line.split()
        if len(parts) == 2 and parts[0] in "Uw":
            used.add(parts[1])
        elif len(parts) == 3:
            had.add(parts[2])
    return used - had


def functions(library):
    """Name to its instructions, each the mnemonic, its operands and the symbol of a relocation or ''."""
    listed, own = {}, None
    for line in run("objdump", "-dr", "--no-show-raw-insn", "-w", library).splitlines():
        start = re.match(r"[0-9a-f]+ <(.*)>:$", line)
        if start:
            own = listed.setdefault(start.group(1), [])
            continue
        code = re.match(r" *[0-9a-f]+:\t([^\t]*)(?:\t.*R_X86_64_\w+\t([^\t]*))?$", line)
        if code and own is not None:
            words = code.group(1).split(None, 1)
            own.append((words[0] if words else "", words[1].strip() if len(words) > 1 else "", code.group(2) or ""))
    return listed


def named(relocation):
    """The name in a relocation, that of a function where it is the section of one."""
    return re.sub(r"^\.text\.", "", re.sub(r"[-+]0x[0-9a-f]+$", "", relocation))


def jump_tables(library):
    """Function to the functions that its table of jumps leads to."""
    tables, own = {}, None
    for line in run("objdump", "-r", library).splitlines():
        start = re.match(r"RELOCATION RECORDS FOR \[(.*)\]:$", line)
        if start:
            own = start.group(1)
        elif own and own.startswith(".rodata.") and " R_X86_64_" in line:
            tables.setdefault(own[len(".rodata."):], set()).add(named(line.split()[2]))
    return tables


def target_of(operands, relocation, own, listed, tables):
    """The function that a call or a jump goes to, its own where it stays there."""
    if relocation:
        name = named(relocation)
    elif operands.startswith("*%") and tables.get(own) == {own}:
        name = own
    else:
        # a name may have angle brackets of its own
        found = re.search(r"<(.*?)(?:\+0x[0-9a-f]+)?>$", operands)
        name = found.group(1) if found else operands
    if name not in listed and name not in ON_MEMORY:
        raise ValueError("%s calls or jumps to %s, which is no function of the library" % (own, name))
    return name


def taken(own, code, listed, tables):
    """What a function takes by itself, and the functions that it calls."""
    depth, callees, before = RETURN_ADDRESS, set(), ""
    for mnemonic, operands, relocation in code:
        number = re.match(r"\$0x([0-9a-f]+),%\w+$", operands)
        number = int(number.group(1), 16) if number else None
        if mnemonic.startswith("push"):
            depth += 8
        elif mnemonic.startswith("call"):
            callees.add(target_of(operands, relocation, own, listed, {}))
        elif mnemonic.startswith("j"):
            callees |= {target_of(operands, relocation, own, listed, tables)} - {own}
        elif named(relocation) in listed:
            raise ValueError("%s takes the address of %s" % (own, named(relocation)))
        elif operands.endswith(",%r11") and mnemonic.startswith("sub") and before == "%rsp,%r11":
            # the end of a loop that takes a page at a time
            depth += number
        elif operands.endswith(",%rsp") and not mnemonic.startswith(("cmp", "test")):
            if mnemonic.startswith("sub") and number is not None:
                depth += number
            elif mnemonic.startswith("and") and number is not None:
                depth += (1 << 64) - number
            elif mnemonic.startswith("add") and number is not None:
                # a number with its top bit set is one below 0
                depth += (1 << 64) - number if number >> 63 else 0
            elif operands != "%rbp,%rsp" and not re.match(r"-?0x[0-9a-f]+\(%rbp\),%rsp$", operands):
                raise ValueError("%s moves its stack by %s %s" % (own, mnemonic, operands))
        before = operands
    return depth, callees


def deepest(listed, tables):
    """Of each function the most bytes of stack that a call of it takes, with all that it calls."""
    own = {name: taken(name, code, listed, tables) for name, code in listed.items()}
    known = {}

    def visit(name, above):
        if name in above:
            raise ValueError("%s calls itself" % name)
        if name not in known:
            depth, callees = own[name]
            known[name] = depth + max([visit(c, above | {name}) for c in callees - ON_MEMORY] or [RED_ZONE])
        return known[name]

    for name in own:
        visit(name, frozenset())
    return known


def examined(library, bound):
    """What is wrong with a library, and the stack of each call."""
    said = ["the library has variables: " + name for name in variables(library)]
    said += ["the library calls " + name for name in sorted(called_outside(library) - ON_MEMORY)]
    try:
        calls = {name: depth for name, depth in deepest(functions(library), jump_tables(library)).items() if name.startswith("tuormik_")}
    except ValueError as why:
        return said + [str(why)], {}
    if not calls:
        said.append("the library has no call")
    said += ["%s takes %d bytes of stack, and the header says at most %d" % (name, depth, bound)
             for name, depth in sorted(calls.items()) if depth > bound]
    return said, calls


GOOD = """#include <string.h>
static __attribute__((noinline)) int of(const char *s) { char a[3000]; memset(a, *s, sizeof a); return memcmp(a, s, 3000); }
int tuormik_try(const char *s, char *t) { char a[2048]; memcpy(a, s, sizeof a); memcpy(t, a, sizeof a); return of(s); }
"""
WRONG = {
    "a variable": "int tuormik_try(void) { static int n; return ++n; }",
    "a variable that is not 0": "int n = 7; int tuormik_try(void) { return ++n; }",
    "an allocation": "#include <stdlib.h>\nvoid *tuormik_try(void) { return malloc(9); }",
    "too much stack": "#include <string.h>\n"
                      "int tuormik_try(const char *s) { char a[9000]; memset(a, *s, sizeof a); return memcmp(a, s, 9000); }",
    "too much stack by two functions": GOOD.replace("[2048]", "[6000]"),
    "stack by a number": "#include <string.h>\n"
                         "int tuormik_try(const char *s, int n) { char a[n]; memset(a, *s, n); return memcmp(a, s, n); }",
    "a call of itself": "int tuormik_try(int n) { return n ? tuormik_try(n - 1) * tuormik_try(n / 2) + n : 1; }",
    "a jump by a pointer": "int tuormik_try(int (*f)(int), int n) { return f(n); }",
    "the address of a function": "int tuormik_try(int n) { return n; }\n"
                                 "void *tuormik_tried(void) { return (void *)tuormik_try; }",
    "a call by a pointer": "int tuormik_try(int (*f)(int), int n) { return f(n) + n; }",
    "no call": "int try(void) { return 1; }",
}


def tried(bound):
    """What this check finds wrong that is right, or right that is wrong."""
    said = []
    with tempfile.TemporaryDirectory() as room:
        for name, code in [("", GOOD)] + sorted(WRONG.items()):
            source, made = Path(room, "try.c"), Path(room, "try.o")
            source.write_text(code)
            run("cc", "-O2", "-fno-builtin", "-fno-stack-protector", "-fcf-protection=none", "-w", "-c", str(source), "-o", str(made))
            found = examined(str(made), bound)[0]
            if code is GOOD and found:
                said.append("checks/library.py: C code that is as it should be is found wrong: %s" % found)
            if code is not GOOD and not found:
                said.append("checks/library.py: C code with %s is not found wrong" % name)
    return said


def main():
    library = sys.argv[1] if len(sys.argv) > 1 else str(ROOT / "target/staticlib/libcapi.a")
    header = (ROOT / "include/tuormik.h").read_text(encoding="utf-8")
    bound = int(re.search(r"^#define TUORMIK_STACK (\d+)u", header, flags=re.M).group(1))
    said, calls = examined(library, bound)
    said += tried(bound)
    if said:
        print("\n".join(said))
        return 1
    most = max(calls, key=calls.get)
    print("%d calls with no variables, nothing called but functions on memory, and at most %d bytes of stack (%s)"
          % (len(calls), calls[most], most))
    return 0


if __name__ == "__main__":
    sys.exit(main())
