"""Holds include/tuormik.h and the list from which the Rust declarations are made against the source of the exported functions.

    python3 checks/interface.py

Compared with crates/capi/src/lib.rt, function by function: the name, each parameter's name, place and type, whether what a pointer
points to may be written, and what is returned. A lent slice of the source, or of the Rust list, is a pointer and a length in C; the list
has the names without their prefix. Compared with crates/refusal/src/lib.rt: the name and number of every refusal, and the order in which
they are tested; with the crates that have them: the numbers of answers, kinds, effects, calls and lengths, and the originals of a free and
of a defective spare, these in Rust too. And the header's version is the Rust package's, and an older name of a refusal stands there for its
name and nothing else.

It also tries itself: each of the wrong copies below, one slip away from the files as they are, has to be told from them, and a function
more is taken where all of them have it.
"""
import re
import sys
from pathlib import Path

ROOT = Path(__file__).resolve().parent.parent
SOURCE = "crates/capi/src/lib.rt"
REFUSALS = "crates/refusal/src/lib.rt"
SHARED = "crates/model/src/lib.rt"
ANSWERS = "crates/call_numbers/src/lib.rt"
LISTS = "crates/call_lists/src/lib.rt"
CALLS = "crates/list_step/src/lib.rt"
ITEMS = "crates/once_forecast/src/lib.rt"
ENTRIES = "crates/sparing_copy/src/lib.rt"
HEADER = "include/tuormik.h"
DECLARED = "rust/functions.rs"
RUST_REFUSALS = "rust/src/refusal.rs"
RUST_NUMBERS = "rust/src/lib.rs"
PACKAGE = "rust/Cargo.toml"
FILES = (SOURCE, REFUSALS, SHARED, ANSWERS, LISTS, CALLS, ITEMS, ENTRIES, HEADER, DECLARED, RUST_REFUSALS, RUST_NUMBERS, PACKAGE)

# constants of a source, and what they are called in the header
CONSTANTS = {
    SHARED: {
        "DONE": "DONE",
        "CUT": "CUT",
        "SECTOR": "SECTOR",
    },
    ANSWERS: {
        "WRITE_ONCE": "WRITE_ONCE",
        "REWRITABLE": "REWRITABLE",
        "OLD": "EFFECT_OLD",
        "UNREADABLE": "EFFECT_UNREADABLE",
        "RECORD": "RECORD_LENGTH",
        "KIND_AT": "RECORD_KIND",
        "COUNT_AT": "RECORD_COUNT",
        "NEXT_AT": "RECORD_NEXT",
        "LAST_AT": "RECORD_LAST",
        "PASSED_AT": "RECORD_PASSED",
        "FORECAST": "FORECAST_LENGTH",
    },
    ITEMS: {"COMMIT": "ITEM_COMMIT"},
    ENTRIES: {"FREE": "NONE", "DEFECTIVE": "DEFECTIVE"},
    LISTS: {"VOLUME": "MAPS_RESULT_LENGTH"},
}

# constants of the header that Rust has under the same name
IN_RUST = ("NONE", "DEFECTIVE")

# parameters that the source calls otherwise than the header does
RENAMED = {"kept": "record", "res": "result", "at": "cut_at", "effect": "cut_effect", "size": "table_bytes"}
RENAMED_IN = {"tuormik_read": {"v": "number"}}

# older names that the header keeps for refusals
OLDER_REFUSALS = {"NOT_RECORDED": "UNREADABLE_SECTOR"}

SLICES = {
    "&[u8]": ("const u8*", "usize"),
    "&mut [u8]": ("u8*", "usize"),
    "&[u32]": ("const u32*", "usize"),
    "&mut [u32]": ("u32*", "usize"),
    "&[u64]": ("const u64*", "usize"),
    "&mut [u64]": ("u64*", "usize"),
}
NUMBERS = {"u8", "u16", "u32"}
C_TYPES = {
    "uint8_t": "u8",
    "uint16_t": "u16",
    "uint32_t": "u32",
    "size_t": "usize",
    "const uint8_t *": "const u8*",
    "uint8_t *": "u8*",
    "const uint32_t *": "const u32*",
    "uint32_t *": "u32*",
    "const uint64_t *": "const u64*",
    "uint64_t *": "u64*",
}


class Wrong(Exception):
    """What cannot be read as it should."""


def split(parameters):
    """The parameters of a list, without the white space around each; one comma may end the list."""
    parts = [" ".join(part.split()) for part in parameters.split(",")]
    return parts[:-1] if parts and parts[-1] == "" else parts


def added(functions, name, signature, where):
    if name in functions:
        raise Wrong("%s: %s stands there twice" % (where, name))
    functions[name] = signature


def in_c(parameters, renamed, where):
    """Parameters of numbers and slices as C has them: (name, type) each."""
    signature = []
    for part in split(parameters):
        own, _, kind = part.partition(": ")
        own = renamed.get(own, own)
        if kind in SLICES:
            pointer, length = SLICES[kind]
            signature += [(own, pointer), (own + "_length", length)]
        elif kind in NUMBERS:
            signature.append((own, kind))
        else:
            raise Wrong("%s: a parameter %s" % (where, part))
    return tuple(signature)


def of_source(text):
    """The exported functions: name to (parameters as (name, type), returned type)."""
    text = re.sub(r"//[^\n]*", "", text)
    functions = {}
    for name, parameters, returned in re.findall(r'#\[unsafe\(no_mangle\)\]\s*pub extern "C" fn (\w+)\(([^)]*)\)\s*->\s*(\w+)', text):
        signature = in_c(parameters, {**RENAMED, **RENAMED_IN.get(name, {})}, "%s: %s" % (SOURCE, name))
        added(functions, name, (signature, returned), SOURCE)
    if len(functions) != text.count("#[unsafe(no_mangle)]") or len(functions) != text.count('extern "C"'):
        raise Wrong('%s: #[unsafe(no_mangle)] and extern "C" do not stand by turns' % SOURCE)
    return functions


def c_code(text):
    """The header's code: no comments, no lines of the preprocessor, no inline functions."""
    text = re.sub(r"/\*.*?\*/", " ", text, flags=re.S)
    text = re.sub(r"^#(?:[^\n]*\\\n)*[^\n]*$", "", text, flags=re.M)
    return re.sub(r"^static inline .*?^}$", "", text, flags=re.M | re.S)


def of_header(text):
    code = c_code(text)
    functions = {}
    for returned, name, parameters in re.findall(r"^(\w+) (\w+)\(([^)]*)\);$", code, flags=re.M):
        signature = []
        for part in split(parameters):
            found = re.fullmatch(r"(.*?)(\w+)", part)
            kind = C_TYPES.get(found.group(1).strip()) if found else None
            if kind is None:
                raise Wrong("%s: %s: cannot read the parameter %s" % (HEADER, name, part))
            signature.append((found.group(2), kind))
        added(functions, name, (tuple(signature), C_TYPES.get(returned, returned)), HEADER)
    if len(functions) != code.count("("):
        raise Wrong("%s: something with brackets is no prototype that can be read" % HEADER)
    return functions


def of_declared(text):
    """The functions of the list, by their names in C."""
    text = re.sub(r"//[^\n]*", "", text)
    functions = {}
    for name, parameters, returned in re.findall(r"\bfn (\w+)\(([^)]*)\) -> (\w+);", text):
        signature = in_c(parameters, {}, "%s: %s" % (DECLARED, name))
        added(functions, "tuormik_" + name, (signature, returned), DECLARED)
    if len(functions) != len(re.findall(r"\bfn\b", text)):
        raise Wrong("%s: a function is no entry that can be read" % DECLARED)
    return functions


def upper(name):
    return re.sub(r"(?<!^)(?=[A-Z])", "_", name).upper()


def variants(text, where, name="Refusal"):
    """The refusals, or the variants of another enum, in the order of the enum."""
    body = re.search(r"pub enum %s \{\n(.*?)^\}$" % name, text, flags=re.M | re.S)
    if not body:
        raise Wrong("%s: no enum %s" % (where, name))
    return re.findall(r"^    (\w+),$", body.group(1), flags=re.M)


def refusals_of_source(text):
    """Name to number, in the order of the enum, which is the order in which they are tested."""
    body = re.search(r"impl From<Refusal> for u32 \{.*?\n\}\n", text, flags=re.S)
    found = dict(re.findall(r"Refusal::(\w+) => (\d+),", body.group(0))) if body else {}
    names = variants(text, REFUSALS)
    if not names or set(names) != set(found):
        raise Wrong("%s: not every refusal has a number" % REFUSALS)
    return {upper(name): int(found[name]) for name in names}


def calls_of_source(text):
    """Name in the header to number. The last kind stands for every number that is no other's, of which the lowest is its own."""
    body = re.search(r"impl From<u32> for Calling \{.*?\n\}\n", text, flags=re.S)
    found = re.findall(r"^ +(\d+|_) => Calling::(\w+),$", body.group(0), flags=re.M) if body else []
    names = variants(text, CALLS, "Calling")
    if not names or [name for _, name in found] != names or [number for number, _ in found] != [*map(str, range(len(found) - 1)), "_"]:
        raise Wrong("%s: the calls do not have their numbers in the order of the enum" % CALLS)
    return {"CALL_" + upper(name): number for number, name in enumerate(names)}


def order_in_words(refusals):
    """The numbers in their order, three and more that follow on each other as one run: 1 to 3, 31, 4 to 12, 30, 32, 33, 13 and so on."""
    runs = []
    for number in refusals.values():
        if runs and number == runs[-1][1] + 1:
            runs[-1][1] = number
        else:
            runs.append([number, number])
    return ", ".join("%d to %d" % (a, b) if b - a > 1 else ", ".join(map(str, range(a, b + 1))) for a, b in runs)


def refusals_of_header(text):
    part = re.search(r"^#define TUORMIK_DONE 0u\n(.*?)^#define TUORMIK_CUT 255u\n", text, flags=re.M | re.S)
    if not part:
        raise Wrong("%s: no answers from TUORMIK_DONE 0u to TUORMIK_CUT 255u" % HEADER)
    return {name: int(number) for name, number in re.findall(r"^#define TUORMIK_(\w+) (\d+)u$", part.group(1), flags=re.M)}


def older_of_header(text):
    """The names of the header that stand for another name: this to that."""
    return dict(re.findall(r"^#define TUORMIK_(\w+) TUORMIK_(\w+)(?: |$)", text, flags=re.M))


def order_of_header(text):
    """The order in which refusals are tested, as the header says it."""
    found = re.search(r"Refusals are tested in this order: ([\d, to]+)\.", re.sub(r"\s*\n \* ", " ", text))
    return found.group(1) if found else None


def texts_of_header(text):
    """The refusals that have a text."""
    part = re.search(r"^static inline const char \*tuormik_refusal_text.*?^}$", text, flags=re.M | re.S)
    if not part:
        raise Wrong("%s: no tuormik_refusal_text" % HEADER)
    return set(re.findall(r"case TUORMIK_(\w+):\s*return \"", part.group(0))) - {"DONE", "CUT"}


def refusals_of_rust(text):
    """Name to number, in the order of the enum, which is that of LINES, where the numbers stand."""
    lines = re.search(r"^const LINES: .*? = \[\n(.*?)^\];$", text, flags=re.M | re.S)
    found = re.findall(r"^    \(\s*(\w+),\s*(\d+),\s*\"", lines.group(1), flags=re.M) if lines else []
    if [name for name, _ in found] != variants(text, RUST_REFUSALS):
        raise Wrong("%s: LINES does not have every refusal in the order of the enum" % RUST_REFUSALS)
    return {upper(name): int(number) for name, number in found}


def constants_of_source(files):
    """Name in the header to number."""
    numbers = {}
    for path, names in CONSTANTS.items():
        found = dict(re.findall(r"^(?:pub )?const (\w+): \w+ = (0x[0-9a-f]+|\d+);$", files[path], flags=re.M))
        for own, name in names.items():
            if own not in found:
                raise Wrong("%s: no constant %s" % (path, own))
            numbers[name] = int(found[own], 0)
    return numbers


def constants_of_header(text, names):
    found = dict(re.findall(r"^#define TUORMIK_(\w+) (0x[0-9a-f]+|\d+)u?(?: |$)", text, flags=re.M))
    return {name: int(number, 0) for name, number in found.items() if name in names}


def constants_of_rust(text):
    found = dict(re.findall(r"^pub const (\w+): u32 = (0x[0-9a-f_]+|u32::MAX);$", text, flags=re.M))
    return {name: 0xffffffff if found[name] == "u32::MAX" else int(found[name], 0) for name in IN_RUST if name in found}


def version_of_header(text):
    found = re.search(r'^#define TUORMIK_VERSION "(.*)"$', text, flags=re.M)
    return found.group(1) if found else None


def version_of_package(text):
    found = re.search(r'^version = "(.*)"$', text, flags=re.M)
    return found.group(1) if found else None


def differences(wanted, found, where):
    """What is otherwise in a dictionary of functions or numbers, in words."""
    said = ["%s: %s is not there" % (where, name) for name in sorted(set(wanted) - set(found))]
    said += ["%s: %s is not in the source" % (where, name) for name in sorted(set(found) - set(wanted))]
    for name in sorted(set(wanted) & set(found)):
        if wanted[name] != found[name]:
            said.append("%s: %s is\n    %s\n  and the source has\n    %s" % (where, name, shown(found[name]), shown(wanted[name])))
    return said


def shown(what):
    if isinstance(what, int):
        return str(what)
    return "(%s) -> %s" % (", ".join("%s: %s" % pair for pair in what[0]), what[1])


def compare(files):
    """All differences of the files, a dictionary of path to text."""
    try:
        functions = of_source(files[SOURCE])
        refusals = refusals_of_source(files[REFUSALS])
        said = differences(functions, of_header(files[HEADER]), HEADER)
        said += differences(functions, of_declared(files[DECLARED]), DECLARED)
        for wanted, found, where in ((refusals, refusals_of_header(files[HEADER]), HEADER),
                                     (refusals, refusals_of_rust(files[RUST_REFUSALS]), RUST_REFUSALS)):
            said += differences(wanted, found, where)
            if list(wanted) != list(found):
                said.append("%s: the refusals do not stand in the order of the source" % where)
        if older_of_header(files[HEADER]) != OLDER_REFUSALS:
            said.append("%s: the older names of refusals are %s, and should be %s"
                        % (HEADER, older_of_header(files[HEADER]), OLDER_REFUSALS))
        if order_of_header(files[HEADER]) != order_in_words(refusals):
            said.append("%s: the order of the refusals is %s, and the source has %s"
                        % (HEADER, order_of_header(files[HEADER]), order_in_words(refusals)))
        constants = {**constants_of_source(files), **calls_of_source(files[CALLS])}
        said += differences(constants, constants_of_header(files[HEADER], constants), HEADER)
        said += differences({name: constants[name] for name in IN_RUST}, constants_of_rust(files[RUST_NUMBERS]), RUST_NUMBERS)
        said += ["%s: %s has no text" % (HEADER, name) for name in sorted(set(refusals) - texts_of_header(files[HEADER]))]
        versions = version_of_header(files[HEADER]), version_of_package(files[PACKAGE])
        if versions[0] is None or versions[0] != versions[1]:
            said.append("the version is %s in %s and %s in %s" % (versions[0], HEADER, versions[1], PACKAGE))
        if not functions:
            said.append("%s: no function is exported" % SOURCE)
        return said
    except Wrong as why:
        return [str(why)]


# a file, a piece of it as it is, and what stands in the wrong copy instead, the first time it occurs
SLIPS = [
    (HEADER, "const uint8_t *disc, size_t disc_length", "uint8_t *disc, size_t disc_length"),
    (HEADER, "uint8_t *out, size_t out_length", "const uint8_t *out, size_t out_length"),
    (HEADER, "uint32_t s, uint32_t l,", "uint32_t l, uint32_t s,"),
    (HEADER, "uint32_t *table, size_t table_length", "uint32_t *table, uint32_t table_length"),
    (HEADER, "uint32_t *table, size_t table_length", "uint8_t *table, size_t table_length"),
    (HEADER, "uint32_t *table, size_t table_length", "uint32_t *table"),
    (HEADER, "uint16_t partition", "uint32_t partition"),
    (HEADER, "uint32_t tuormik_commit(", "int32_t tuormik_commit("),
    (HEADER, "uint32_t tuormik_commit(", "uint32_t tuormik_committed("),
    (HEADER, "uint32_t cut_at, uint32_t cut_effect);", "uint32_t cut_effect, uint32_t cut_at);"),
    (HEADER, "uint32_t cut_at, uint32_t cut_effect);", "uint32_t cut_at);"),
    (HEADER, "const uint32_t *items, size_t items_length", "uint32_t *items, size_t items_length"),
    (HEADER, "const uint32_t *items, size_t items_length", "const uint32_t *items, uint32_t items_length"),
    (HEADER, "uint32_t tuormik_look_up(", "uint32_t tuormik_more(uint32_t v);\nuint32_t tuormik_look_up("),
    (HEADER, "uint32_t tuormik_look_up(", "int tuormik_more(int (*f)(int));\nuint32_t tuormik_look_up("),
    (HEADER, "uint32_t tuormik_bitmap_give_back(", "uint32_t tuormik_bitmap_give("),
    (HEADER, "const uint8_t *bitmap, size_t bitmap_length", "uint8_t *bitmap, size_t bitmap_length"),
    (HEADER, "uint32_t wanted, uint32_t near", "uint32_t near, uint32_t wanted"),
    (HEADER, "uint32_t first, uint32_t count", "uint32_t count, uint32_t first"),
    (HEADER, "uint16_t tuormik_crc(", "uint32_t tuormik_crc("),
    (HEADER, "uint16_t tuormik_crc_word(", "int16_t tuormik_crc_word("),
    (HEADER, "size_t bytes_length, uint16_t start", "size_t bytes_length, uint32_t start"),
    (HEADER, "size_t bytes_length, uint16_t start", "uint16_t start, size_t bytes_length"),
    (HEADER, "uint8_t c, uint8_t d", "uint8_t d, uint8_t c"),
    (HEADER, "uint8_t c, uint8_t d", "uint8_t c, uint16_t d"),
    (HEADER, "uint8_t c, uint8_t d", "uint8_t c"),
    (HEADER, "#define TUORMIK_NO_SPARE 19u", "#define TUORMIK_NO_SPARE 18u"),
    (HEADER, "#define TUORMIK_NO_SPARE 19u\n", ""),
    (HEADER, "    case TUORMIK_NO_SPARE:\n", ""),
    (HEADER, "#define TUORMIK_BLANK_SECTOR 25u\n#define TUORMIK_UNREADABLE_SECTOR 14u\n",
     "#define TUORMIK_UNREADABLE_SECTOR 14u\n#define TUORMIK_BLANK_SECTOR 25u\n"),
    (HEADER, "#define TUORMIK_NOT_RECORDED TUORMIK_UNREADABLE_SECTOR", "#define TUORMIK_NOT_RECORDED TUORMIK_BLANK_SECTOR"),
    (HEADER, "#define TUORMIK_NOT_RECORDED TUORMIK_UNREADABLE_SECTOR", "#define TUORMIK_NOT_RECORDED 14u"),
    (HEADER, "#define TUORMIK_NOT_RECORDED TUORMIK_UNREADABLE_SECTOR", "#define TUORMIK_NEVER_RECORDED TUORMIK_UNREADABLE_SECTOR"),
    (HEADER, "#define TUORMIK_NOT_RECORDED TUORMIK_UNREADABLE_SECTOR", "/* no older name */"),
    (HEADER, "in this order: 1 to 3, 31, 4 to 12,", "in this order: 1 to 12, 31,"),
    (HEADER, "in this order: 1 to 3, 31, 4 to 12,", "in this order: 31, 1 to 12,"),
    (HEADER, "in this order: 1 to 3, 31, 4 to 12,", "in this order: 1 to 12,"),
    (HEADER, " 30, 32, 33, 13, 25, 14 to 17, 19 to 21.", " 30, 32, 33, 13, 14, 25, 15 to 17, 19 to 21."),
    (HEADER, " 30, 32, 33, 13, 25, 14 to 17, 19 to 21.", " 13, 30, 32, 33, 25, 14 to 17, 19 to 21."),
    (HEADER, " 30, 32, 33, 13, 25, 14 to 17, 19 to 21.", " 13, 25, 14 to 17, 19 to 21."),
    (HEADER, " 30, 32, 33, 13, 25, 14 to 17, 19 to 21.", " 30, 32, 33, 13, 25, 14 to 21."),
    (HEADER, " 30, 32, 33, 13, 25, 14 to 17, 19 to 21.", " 30, 33, 32, 13, 25, 14 to 17, 19 to 21."),
    (HEADER, " 30, 32, 33, 13, 25, 14 to 17, 19 to 21.", " 32, 33, 30, 13, 25, 14 to 17, 19 to 21."),
    (HEADER, "in this order: 1 to 3, 31, 4 to 12, 30, 32, 33, 13, 25, 14 to 17, 19 to 21.", "in the order of their numbers."),
    (HEADER, "#define TUORMIK_NO_RUN 33u\n#define TUORMIK_UNUSED_ENTRY 13u\n",
     "#define TUORMIK_UNUSED_ENTRY 13u\n#define TUORMIK_NO_RUN 33u\n"),
    (HEADER, "#define TUORMIK_BELONGS_TO_SPARE 30u", "#define TUORMIK_BELONGS_TO_SPARE 29u"),
    (HEADER, "    case TUORMIK_BELONGS_TO_SPARE:\n", ""),
    (HEADER, "#define TUORMIK_BITMAP_MALFORMED 31u\n#define TUORMIK_MAP_CUT 4u\n",
     "#define TUORMIK_MAP_CUT 4u\n#define TUORMIK_BITMAP_MALFORMED 31u\n"),
    (HEADER, "#define TUORMIK_BITMAP_MALFORMED 31u", "#define TUORMIK_BITMAP_MALFORMED 32u"),
    (HEADER, "#define TUORMIK_WRONG_RUN 32u", "#define TUORMIK_WRONG_RUN 33u"),
    (HEADER, "#define TUORMIK_NO_RUN 33u\n", ""),
    (HEADER, "    case TUORMIK_NO_RUN:\n", ""),
    (HEADER, "#define TUORMIK_NO_SPARE 19u\n", "#define TUORMIK_ALREADY_SPARED 18u\n#define TUORMIK_NO_SPARE 19u\n"),
    (HEADER, "#define TUORMIK_DEFECTIVE 0xfffffff0u", "#define TUORMIK_DEFECTIVE 0xfffffff1u"),
    (HEADER, "#define TUORMIK_DEFECTIVE 0xfffffff0u", "#define TUORMIK_BROKEN 0xfffffff0u"),
    (HEADER, "#define TUORMIK_NONE 0xffffffffu", "#define TUORMIK_NONE 0xfffffff0u"),
    (HEADER, "#define TUORMIK_EFFECT_UNREADABLE 1u", "#define TUORMIK_EFFECT_UNREADABLE 2u"),
    (HEADER, "#define TUORMIK_RECORD_LAST 3", "#define TUORMIK_RECORD_LAST 2"),
    (HEADER, "#define TUORMIK_CALL_COMMIT 2u\n", ""),
    (HEADER, '#define TUORMIK_VERSION "', '#define TUORMIK_VERSION "9'),
    (DECLARED, "disc: &[u8]", "disc: &mut [u8]"),
    (DECLARED, "disc: &[u8]", "disc: u8"),
    (DECLARED, "table: &mut [u32]", "table: &[u32]"),
    (DECLARED, "table: &mut [u32]", "table: &mut [u8]"),
    (DECLARED, "table: &mut [u32]", "table: &mut [u64]"),
    (DECLARED, "table: &mut [u32]", "places: &mut [u32]"),
    (DECLARED, "table: &mut [u32]", "table: &mut [i32]"),
    (DECLARED, "s: u32, l: u32", "l: u32, s: u32"),
    (DECLARED, "table: &mut [u32], ", ""),
    (DECLARED, "partition: u16", "partition: u32"),
    (DECLARED, "items: &[u32]", "items: &mut [u32]"),
    (DECLARED, "bitmap: &mut [u8]", "bitmap: &[u8]"),
    (DECLARED, "wanted: u32, near: u32", "near: u32, wanted: u32"),
    (DECLARED, "first: u32, count: u32", "count: u32, first: u32"),
    (DECLARED, "fn make(", "fn made("),
    (DECLARED, "fn make(", "fn open("),
    (DECLARED, "fn look_up(", "fn more(v: u32) -> u32;\nfn look_up("),
    (DECLARED, "fn look_up(", "fn more(v: u32);\nfn look_up("),
    (DECLARED, "fn look_up(file: &[u8], v: u32, result: &mut [u32]) -> u32;", ""),
    (DECLARED, ") -> u32;", ") -> u64;"),
    (DECLARED, ") -> u16;", ") -> u32;"),
    (DECLARED, "start: u16", "start: u32"),
    (DECLARED, "c: u8, d: u8", "d: u8, c: u8"),
    (DECLARED, "c: u8, d: u8", "c: u8, d: i8"),
    (SOURCE, "disc: &[u8],\n    marks: &[u8],", "marks: &[u8],\n    disc: &[u8],"),
    (SOURCE, "table: &mut [u32]", "table: &[u32]"),
    (SOURCE, "partition: u16,\n    size: u32,\n    tables", "partition: u32,\n    size: u32,\n    tables"),
    (SOURCE, "wanted: u32,\n    near: u32", "near: u32,\n    wanted: u32"),
    (SOURCE, "bitmap: &mut [u8]", "bitmap: &[u8]"),
    (SOURCE, "first: u32, count: u32", "count: u32, first: u32"),
    (SOURCE, "bytes: &[u8], start: u16) -> u16", "bytes: &[u8], start: u16) -> u32"),
    (SOURCE, "bytes: &[u8], start: u16", "start: u16, bytes: &[u8]"),
    (SOURCE, "crc: u16, a: u8, b: u8", "a: u8, crc: u16, b: u8"),
    (SOURCE, "c: u8, d: u8", "d: u8, c: u8"),
    (SOURCE, 'pub extern "C" fn tuormik_run(', 'pub extern "C" fn tuormik_run_on('),
    (SOURCE, '#[unsafe(no_mangle)]\npub extern "C" fn tuormik_run(', "pub fn tuormik_run("),
    (SOURCE, '#[unsafe(no_mangle)]\npub extern "C" fn tuormik_run(', 'pub extern "C" fn tuormik_run('),
    (REFUSALS, "Refusal::NoRoom => 16", "Refusal::NoRoom => 17"),
    (REFUSALS, "    NoRoom,\n", ""),
    (REFUSALS, "Refusal::WrongRun => 32", "Refusal::WrongRun => 33"),
    (REFUSALS, "    NoRun,\n", ""),
    (SHARED, "const CUT: u32 = 255;", "const CUT: u32 = 254;"),
    (ITEMS, "const COMMIT: u32 = 0x80000000;", "const COMMIT: u32 = 0x80000001;"),
    (ENTRIES, "const DEFECTIVE: u32 = 0xfffffff0;", "const DEFECTIVE: u32 = 0xfffffffe;"),
    (HEADER, "#define TUORMIK_FORECAST_LENGTH 3u", "#define TUORMIK_FORECAST_LENGTH 2u"),
    (CALLS, "    SavePacket,\n    SparePacket,\n    Open,\n}", "    SparePacket,\n    SavePacket,\n    Open,\n}"),
    (CALLS, "4 => Calling::SavePacket,", "5 => Calling::SavePacket,"),
    (CALLS, "4 => Calling::SavePacket,", "4 => Calling::SparePacket,"),
    (CALLS, "            5 => Calling::SparePacket,\n", ""),
    (CALLS, "_ => Calling::Open,", "7 => Calling::Open,"),
    (HEADER, "#define TUORMIK_CALL_OPEN 6u", "#define TUORMIK_CALL_OPEN 5u"),
    (RUST_REFUSALS, "    OneTable,\n", "    OneSparingTable,\n"),
    (RUST_REFUSALS, "    OneTable,\n", ""),
    (RUST_REFUSALS, "(OneTable, 17,", "(OneSparingTable, 17,"),
    (RUST_REFUSALS, "(OneTable, 17,", "(OneTable, 18,"),
    (RUST_REFUSALS, "(BelongsToSpare, 30,", "(BelongsToSpare, 29,"),
    (RUST_REFUSALS, "(WrongRun, 32,", "(WrongRun, 31,"),
    (RUST_REFUSALS, "    NoRun,\n", "    NoFreeRun,\n"),
    (RUST_NUMBERS, "pub const DEFECTIVE: u32 = 0xffff_fff0;", "pub const DEFECTIVE: u32 = 0xffff_ff0f;"),
    (RUST_NUMBERS, "pub const DEFECTIVE: u32", "pub const BROKEN: u32"),
]

# a function more, as each file has it: they agree with it in all of them, and not where it is missing in one
MORE = {
    SOURCE: '#[unsafe(no_mangle)]\npub extern "C" fn tuormik_more(season: u16, weights: &[u64], result: &mut [u64]) -> u32 { 0 }\n',
    HEADER: "uint32_t tuormik_more(uint16_t season, const uint64_t *weights, size_t weights_length,\n"
            "                      uint64_t *result, size_t result_length);\n",
    DECLARED: "fn more(season: u16, weights: &[u64], result: &mut [u64]) -> u32;\n",
}


def try_itself(files):
    """Where a wrong copy is not told from the files, or a right one is, in words."""
    said = []
    for path, piece, slip in SLIPS:
        if piece not in files[path]:
            said.append("checks/interface.py: %s does not have %r, which a wrong copy changes" % (path, piece))
        elif not compare({**files, path: files[path].replace(piece, slip, 1)}):
            said.append("checks/interface.py: a copy of %s with %r for %r was not told from it" % (path, slip, piece))
    grown = {**files, **{path: files[path] + more for path, more in MORE.items()}}
    said += compare(grown)
    said += ["checks/interface.py: a function that is missing in %s was not missed" % path
             for path in MORE if not compare({**grown, path: files[path]})]
    return said


def main():
    files = {path: (ROOT / path).read_text(encoding="utf-8") for path in FILES}
    said = compare(files) or try_itself(files)
    if said:
        print("\n".join(said))
        return 1
    functions, refusals = of_source(files[SOURCE]), refusals_of_source(files[REFUSALS])
    print("%d functions and %d refusals are declared in C and in Rust as their source has them; %d wrong copies were told from these"
          % (len(functions), len(refusals), len(SLIPS) + len(MORE)))
    return 0


if __name__ == "__main__":
    sys.exit(main())
