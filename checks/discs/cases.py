"""Writes the file stdin: the cases, as lines. It holds no expectation; it only spells the repetitions out."""
import sys
o = []
p = lambda s="": o.append(s)
EFFECTS = ("old", "unreadable", "whole")

# the VAT ICB of 004, table 14, as another tool writes it: its first 220 bytes, of which the rest are 0
ICB = (
    "0501020049000100185acc00020000000000000004000000010000000000000000003302ffffffff"
    "ffffffffff7f000001000000000000002c0000000000000000000000000000003c10cc07071f0c1e"
    "0f0000003c10cc07071f0c1e0f0000003c10cc07071f0c1e0f000000010000000000000000000000"
    "0000000000000000002a416e6f746865722057726974657200000000000000000000000000000000"
    "1000000000000000000000002c0000000000000001000000002a554446205669727475616c20416c"
    "6c6f632054626c005001040000000000ffffffff"
)


def tables():
    icb = bytes.fromhex(ICB)
    p("# Worked discs of document 01. A line prepares a disc or what is lent, or it is a call: make, open, read, save, free,")
    p("# commit, fullness, forecast, change (save a block), packet (save a packet), spare. The sources say what each name means.")
    p("# 004, table 14: the partition starts at sector 257; the VAT ICB is another writer's")
    p("clear")
    p("span 257 31")
    for q, b in ((256, 0x56), (257, 0x57), (258, 0x58)):
        p("bytes %d" % b)
        p("put %d 1" % q)
    p("bytes 0")
    for i in range(0, 220, 4):
        n = int.from_bytes(icb[i:i + 4], "little")
        if n:
            p("set32 %d %d" % (i, n))
    p("put 259 1")

    def look():
        p("fill 7 7 7 7")
        p("open")
        p("table")
        for v in range(4):
            p("read %d" % v)
        p("fullness")
    look()
    p("# table 15: link blocks, a file of four blocks and its ICB; then the directory saved, and the VAT committed")
    for q in range(260, 267):
        p("mark %d 2" % q)
    for q, b in ((267, 0x67), (268, 0x68), (269, 0x69), (270, 0x70), (271, 0x71)):
        p("bytes %d" % b)
        p("put %d 1" % q)
    look()
    p("bytes 114")
    p("save 2")
    p("bytes 115")
    p("save 1")
    p("commit")
    p("show 274")
    look()


def begin():
    p("clear")
    p("make")
    p("open")
    p("bytes 17")
    p("save 0")
    p("bytes 34")
    p("save 1")


def sizes():
    p("# N at each side of where d changes: committed, opened again, read; the entries are 0, 1, 2 and unused by turns")
    for n, d in ((0, 0), (1, 0), (2, 0), (458, 0), (459, 1), (503, 1), (504, 2), (512, 2), (513, 2), (1015, 2), (1016, 3), (4096, 9)):
        p("# N %d" % n)
        begin()
        p("fill 0 1 2 none")
        p("held %d 3 0" % n)
        p("commit")
        for q in range(5, 6 + d):
            p("show %d" % q)
        p("fill 7 7 7 7")
        p("open")
        p("table")
        p("read 1")
        p("read 3")
        p("read %d" % n)
        p("fullness")


def cuts():
    def base():
        begin()
        p("commit")
        p("bytes 51")
        p("save 1")

    def look():
        p("cut 0 old")
        p("open")
        p("read 0")
        p("read 1")
        p("commit")
        p("open")

    p("# power failures in a save")
    for c, e in ((1, "old"), (1, "unreadable"), (1, "whole"), (2, "unreadable")):
        base()
        p("cut %d %s" % (c, e))
        p("bytes 68")
        p("save 0")
        p("table")
        look()
    p("# power failures in a commit with d = 2")
    for c, e in [(c, e) for c in (1, 2, 3) for e in EFFECTS] + [(4, "unreadable")]:
        base()
        p("fill none none none none")
        p("entry 0 1")
        p("entry 1 4")
        p("held 504 5 3")
        p("cut %d %s" % (c, e))
        p("commit")
        look()


def entry(form, f, a):
    """A File Entry of this form, F and A."""
    p("bytes 0")
    p("set16 20 4")
    p("set8 34 %d" % form)
    p("set32 56 %d" % f)
    p("set32 172 %d" % a)


def forged():
    p("# blocks that might stand for a VAT ICB at logical block 4: line 15 in a save, then recorded there all the same")

    def data(mark=1):
        p("clear")
        p("make")
        p("bytes 0")
        p("put 3 %d" % mark)
        p("regid 0")
        p("set32 32 none")
        p("put 4 1")
        p("bytes 0")
        p("regid 4")
        p("set32 36 none")
        p("put 5 1")

    def go():
        p("held 0 4 0")
        p("save 0")
        p("put 6 1")
        p("open")

    def embedded():
        entry(3, 40, 40)
        p("set32 176 2")
        p("regid 180")
        p("set32 212 none")

    def body(name, at, x):
        p("# " + name)
        data()
        embedded()
        p("set8 %d %d" % (at, x))
        p("tagged 4 200")
        go()

    def head(name, at, x):
        p("# " + name)
        data()
        embedded()
        p("tagged 4 200")
        p("set8 %d %d" % (at, x))
        if at != 4:
            p("sum")
        go()

    def covered(n):
        p("# a CRC of %d bytes" % n)
        data()
        embedded()
        p("tagged 4 %d" % n)
        go()

    def extents(name, f, a, words, mark=1):
        p("# " + name)
        data(mark)
        entry(0, f, a)
        for i, x in enumerate(words):
            p("set32 %d %d" % (176 + 4 * i, x))
        p("tagged 4 300")
        go()

    head("a VAT ICB", 7, 0)
    head("identifier 260", 0, 4)
    head("version 3", 2, 3)
    head("another checksum", 4, 0)
    head("byte 5 not 0", 5, 1)
    head("a serial number", 6, 1)
    head("another CRC", 8, 0)
    head("block 5 in its tag", 12, 5)
    for n in (159, 160, 2032, 2033):
        covered(n)
    body("strategy 5", 20, 5)
    body("file type 248", 27, 248)
    body("form 35, of which the low three bits count", 34, 35)
    body("form 1", 34, 1)
    body("form 2", 34, 2)
    body("F not A", 56, 44)
    body("F over 32 bits", 60, 1)
    body("E 4", 168, 4)
    body("E 2,048", 169, 8)
    body("entry 3", 176, 3)
    body("entry 4", 176, 4)
    body("regid flags 1", 180, 1)
    body("another regid", 181, 0)
    body("a regid suffix", 204, 1)
    body("previous ICB 0xfffffffe", 212, 0xfe)
    extents("two extents", 2084, 16, [2048, 1, 36, 2])
    extents("extents that overlap", 4132, 24, [2048, 1, 2048, 1, 36, 2])
    extents("an extent of two blocks", 2084, 8, [2084, 1])
    extents("an extent that reaches block 4", 2084, 8, [2084, 3])
    extents("an extent at 0xffffffff", 36, 8, [36, 0xffffffff])
    extents("no extent", 0, 0, [])
    extents("a zero length in the middle", 2084, 24, [2048, 1, 0, 0, 36, 2])
    extents("a zero length, then others", 2084, 32, [2048, 1, 36, 2, 0, 0, 7, 9])
    extents("an upper bit of a length", 2084, 16, [2048, 1, 0x40000024, 2])
    extents("an upper bit of a zero length", 2084, 24, [2048, 1, 36, 2, 0x80000000, 0])
    extents("a part of a block in the middle", 2084, 16, [2044, 1, 40, 3])
    extents("F over the sum", 2088, 16, [2048, 1, 36, 2])
    extents("A 20", 2084, 20, [2048, 1, 36, 2])
    extents("an unreadable block in an extent", 2084, 16, [2048, 1, 36, 2], 2)
    extents("a blank block in an extent", 2084, 16, [2048, 1, 36, 2], 0)
    extents("N 4,096", 16420, 72, [2048, 1] * 8 + [36, 2])
    extents("N 4,097: line 9", 16424, 72, [2048, 1] * 8 + [40, 3])
    p("# line 15 is tested before line 16")
    extents("two extents, L 4", 2084, 16, [2048, 1, 36, 2])
    o.pop()
    o.pop()
    o.pop()
    p("span 2 4")
    p("save 0")


def rooms():
    p("# line 16: saved where NWA is L - 2, not where it is L - 1; committed there")
    p("clear")
    p("span 2 5")
    p("make")
    p("open")
    for v in (0, 1, 2, 3, 0):
        p("bytes %d" % (17 + v))
        p("save %d" % v)
    p("commit")
    p("save 0")
    p("commit")
    p("fullness")
    p("# 01, example j: L 9, N 2, replacing")
    p("clear")
    p("span 2 9")
    p("make")
    p("open")
    for i, v in enumerate((0, 1, 0, 0, 0, 0, 0, 0)):
        p("bytes %d" % (17 + i))
        p("save %d" % v)
    p("commit")

    def start(l, n):
        p("# L %d, N %d, NWA 2" % (l, n))
        p("clear")
        p("span 2 %d" % l)
        p("make")
        p("bytes 17")
        p("put 3 1")
        p("fill none none none none")
        p("held %d 2 0" % n)

    def save(l, n, v):
        start(l, n)
        p("save %s" % v)
        p("commit")

    def commit(l, n):
        start(l, n)
        p("commit")

    p("# line 16, d for the N after a save")
    for l, n, v in ((3, 458, 457), (4, 458, 457), (4, 458, 458), (5, 458, 458), (5, 503, 503), (6, 503, 503)):
        save(l, n, v)
    for l, n in ((3, 459), (4, 459), (11, 4096), (12, 4096)):
        commit(l, n)
    p("# line 12 of a save")
    for n, v in ((3, 2), (3, 3), (3, 4), (3, "none"), (4095, 4095), (4096, 4095), (4096, 4096)):
        save(20, n, v)
    p("# lines 12, 13, 25 and 14 of reading, 12 and 13 of freeing: entries 1, unused, 2 (unreadable), 3 (blank)")
    start(20, 4)
    p("mark 4 2")
    p("mark 6 1")
    p("entry 0 1")
    p("entry 2 2")
    p("entry 3 3")
    p("held 4 5 0")
    for v in ("0", "1", "2", "3", "4", "none"):
        p("read " + v)
    p("# 02, slip 5: so too through the VAT that opening finds; the blank one's block is saved, and the save not committed")
    p("commit")
    p("fill 7 7 7 7")
    p("open")
    reads(2, 3)
    p("save 3")
    reads(3)
    p("open")
    reads(2, 3)
    for v in (4, 1, 2, 2):
        p("free %d" % v)
    p("read 2")
    p("table")
    p("# line 11 before line 25")
    p("held 4 6 5")
    p("read 3")
    p("# 01, example l: NWA 3, L 64; 02, slip 4, has it 47")
    start(64, 0)
    p("mark 4 2")
    p("held 0 3 0")
    p("fullness")
    p("# 02, slip 4: of L 80, NWA 1 and 3 are exact halves; then NWA 1 to 15 of L 16, where every odd one is")
    for l, saves in ((80, 2), (16, 14)):
        p("clear")
        p("span 2 %d" % l)
        p("make")
        p("open")
        p("fullness")
        for i in range(saves):
            p("bytes %d" % (17 + i))
            p("save 0")
            p("fullness")
        p("commit")
        p("fullness")


def forecasts():
    def start(l, n):
        p("# L %d, N %d, NWA 2" % (l, n))
        p("clear")
        p("span 2 %d" % l)
        p("make")
        p("bytes 17")
        p("put 3 1")
        p("fill none none none none")
        p("held %d 2 0" % n)

    def ask(v, step, *counts, saves=9999):
        for c in counts:
            p("forecast %s %d %d %d" % (v, step, c, saves))

    p("# 02, slip 9: first number, 0 for the same again, how many items, how many saves before each commit; none, all commits")
    start(9, 2)
    p("forecast")
    ask(0, 0, 7, 8, saves=0)
    p("# replacing, and one more each time")
    ask(0, 0, 6, 7)
    ask(2, 1, 5, 6, 7)
    p("# line 12: above N, and on a full disc too; 2,147,483,647 is a number")
    ask(3, 1, 1)
    ask("2147483647", 0, 1)
    ask(2, 1, 8, saves=1)
    p("held 2 3 0")
    ask(2, 1, 1)
    p("# what is forecast, and then carried out")
    p("held 2 2 0")
    ask(2, 1, 5, 6, saves=2)
    for c in ("save 2", "save 3", "commit", "save 4", "save 5", "commit"):
        p(c)
    ask(0, 0, 1)
    ask(7, 0, 1)
    p("commit")
    ask(0, 0, 0)
    p("# d for the N after a save")
    for l, n, counts in ((20, 457, (1, 2, 16, 17)), (20, 458, (1, 15, 16)), (20, 502, (1, 2, 15, 16))):
        start(l, n)
        ask(n, 1, *counts)
        ask(n, 1, 4, 12, saves=1)
    start(60, 4093)
    ask(4093, 1, 3, 4)
    ask(4095, 0, 1)
    ask(0, 0, 48, 49, 50)
    ask(4092, 1, 5, 9, saves=1)
    start(2142, 0)
    ask(0, 1, 2134, 2135, 2140)
    ask(0, 1, 600, 4352, saves=99)
    ask(0, 1, 4352, saves=1)


def either():
    p("# 02, slip 11: two blocks saved in either order at NWA 4, committed and opened; accepted in both orders, all reads alike")

    def plain(v, byte):
        p("bytes %d" % byte)
        p("save %d" % v)

    def embedded(v, k):
        entry(3, 36, 36)
        p("regid 176")
        p("set32 208 none")
        p("tagged %d 196" % k)
        p("save %d" % v)

    def file(v):
        p("bytes 0")
        p("regid 0")
        p("set32 32 none")
        p("save %d" % v)

    def beside(v):
        entry(0, 36, 8)
        p("set32 176 36")
        p("set32 180 4")
        p("tagged 5 168")
        p("save %d" % v)

    def opened():
        begin()
        p("commit")

    def bare():
        p("clear")
        for q, mark in ((2, 1), (3, 2), (5, 1)):
            p("bytes %d" % q)
            p("put %d %d" % (q, mark))
        p("fill 0 1 2 none")
        p("held 4 4 1")

    def orders(name, *saves, start=opened):
        for order, turn in (("", saves), (", in the other order", saves[::-1])):
            p("# " + name + order)
            start()
            for save, *with_ in turn:
                save(*with_)
            p("commit")
            p("fill 7 7 7 7")
            p("open")
            reads(0, 1, 2, 3)

    orders("blocks 0 and 1", (plain, 0, 51), (plain, 1, 68))
    orders("block 1, and a new one", (plain, 1, 51), (plain, 2, 68))
    orders("two new ones", (plain, 2, 51), (plain, 3, 68))
    orders("block 1 would be a VAT ICB in block 4", (plain, 0, 51), (embedded, 1, 4))
    orders("block 1 would be a VAT ICB in block 5", (plain, 0, 51), (embedded, 1, 5))
    orders("each would be one where it comes second", (embedded, 0, 5), (embedded, 1, 5))
    orders("block 1 would be one in block 5, of the file that block 0 is", (file, 0), (beside, 1))
    orders("and block 0 is no such file", (plain, 0, 51), (beside, 1))
    orders("a record of no opening, on a disc with no VAT", (plain, 3, 51), (plain, 0, 68), start=bare)


def refused():
    def start():
        p("clear")
        p("make")
        p("bytes 17")
        p("put 3 1")
        p("entry 0 1")
        p("held 1 2 0")
        p("commit")

    def every(make=True):
        for c in ("read 0", "fullness", "forecast 0 0 1 1", "free 0", "save 0", "commit"):
            p(c)
        if make:
            p("open")
            p("make")

    def case(name, *lines):
        p("# " + name)
        start()
        for c in lines:
            p(c)
        every()

    ALL = (4390912, 2144, 4096, 70, 2048, 65536)

    def lend(disc=4390912, marks=2144, table=4096, list=70, block=2048, packet=65536):
        return "lend %d %d %d %d %d %d" % (disc, marks, table, list, block, packet)

    case("line 1: a byte short", lend(disc=4390911))
    case("line 1: a mark short", lend(marks=2143))
    case("line 1: no sectors", lend(disc=0, marks=0))
    case("line 1: a mark of 3", "mark 2143 3")
    case("line 1 before line 2", "mark 2143 3", "span 2 0")
    case("line 2: L 0", "span 2 0")
    case("line 2: S + L one too many", "span 2 2143")
    case("line 2: S at the end", "span 2144 1")
    case("line 2: S + L over 32 bits", "span 4294967295 4294967295")
    case("line 2 before line 3", "span 2 0", lend(table=4095))
    case("line 3: 4,095 entries", lend(table=4095))
    case("line 3: a block of 2,047 bytes", lend(block=2047))
    case("line 3: a block of 2,049 bytes", lend(block=2049))
    case("line 3 before line 4", lend(table=4095, list=69))
    case("line 4: a map cut short", lend(list=69))
    case("line 4: a map of length 0", "list 7 0")
    case("line 5: no map", lend(list=0))
    case("line 5: one map", lend(list=6))
    case("line 5: two partition numbers", "list 44 8")
    case("line 6: rewritable, S 2", "rewritable 1 2048 64", "span 2 32")
    case("line 6: rewritable, the table in the partition", "rewritable 1 2048 64", "span 64 32")
    case("line 7: rewritable", "rewritable 1 2048 64", "span 96 32")

    def record(name, *lines):
        p("# line 11: " + name)
        start()
        for c in lines:
            p(c)
        every(False)

    record("NWA 2", "held 1 2 0")
    record("NWA 4", "held 1 4 2")
    record("the last ICB at NWA", "held 1 3 3")
    record("no last ICB", "held 1 3 none")
    record("N 4,097", "held 4097 3 2")
    record("an entry at NWA", "entry 0 3")
    record("an entry 0xfffffffe", "entry 0 4294967294")
    record("a record of the other kind", "kept 1 0")
    p("# an entry one below NWA")
    start()
    p("entry 0 2")
    p("read 0")
    p("# line 8: a blank disc")
    p("clear")
    p("held 1 3 2")
    every()
    p("open")
    p("# line 8: an unreadable VAT ICB")
    p("clear")
    p("make")
    p("mark 2 2")
    p("open")
    p("# blank and unreadable sectors above the VAT ICB are all passed over")
    p("clear")
    p("make")
    p("mark 5 2")
    p("open")
    p("# line 21: sectors outside and inside the partition")
    for q, m in ((1, 1), (2, 1), (2, 2), (21, 1), (21, 2), (22, 2)):
        p("clear")
        p("mark %d %d" % (q, m))
        p("make")


def formatted(s, l, maps, spares):
    p("clear")
    p("span %d %d" % (s, l))
    p("rewritable " + maps)
    p(("make " + spares).strip())
    p("open")


def volume(T, spares="192 224 256", size=2048, l=64):
    formatted(64, l, "%d %d 0 32 128 160" % (T, size), spares)


def packet(b, byte):
    p("blocks %d" % byte)
    p("packet %d" % b)


def spare(b, byte):
    p("blocks %d" % byte)
    p("spare %d" % b)


def change(b, byte):
    p("bytes %d" % byte)
    p("change %d" % b)


def reads(*bs):
    for b in bs:
        p("read %s" % b)


def shows(*qs):
    for q in qs:
        p("show %d" % q)


def copies():
    shows(0, 32, 128, 160)


def put(*qs):
    for q in qs:
        p("put %d 1" % q)


def cut(c, e, b, byte):
    p("cut %d %s" % (c, e))
    spare(b, byte)
    p("cut 0 old")


def spared():
    p("# 01, example k: entries (64, 2,048), two free at 2,080 and 2,112; sparing 32")
    p("clear")
    p("span 512 96")
    p("rewritable 2 2048 0 32")
    p("make 2048 2080 2112")
    p("fill 7 7 7 7")
    p("open")
    p("numbers 7")
    spare(64, 16)
    p("numbers 7")
    spare(32, 48)
    p("numbers 7")
    reads(32, 63, 64, 95, 31)
    for q in (2048, 2079, 2080, 2111, 2112):
        p("show %d" % q)
    p("# 01, example i: S 512, L 64, 32 mapped to 1,024")
    p("clear")
    p("span 512 64")
    p("rewritable 2 2048 0 32")
    p("make 1024")
    p("open")
    packet(0, 0)
    spare(32, 32)
    reads(31, 63, 64)
    for q in (543, 1055):
        p("show %d" % q)
    for T in (2, 4):
        p("# %d tables: made, saved, spared twice" % T)
        volume(T)
        p("numbers 6")
        copies()
        reads(0)
        change(5, 85)
        reads(4, 5)
        change(63, 102)
        reads(63)
        packet(32, 128)
        reads(31, 32, 63)
        spare(32, 64)
        p("numbers 6")
        copies()
        reads(32)
        change(33, 119)
        reads(33, 63)
        p("show 97")
        p("show 193")
        p("open")
        spare(0, 32)
        p("numbers 6")
        p("fill 7 7 7 7")
        p("open")
        p("numbers 7")
        reads(0, 31, 32, 33)
    for T in (2, 3, 4):
        p("# %d tables: power failures in a sparing; then opened, the other packet spared" % T)
        for c, e in [(c, e) for c in [1, 32] + list(range(33, 33 + T)) for e in EFFECTS] + [(33 + T, "unreadable")]:
            volume(T)
            packet(32, 128)
            p("cut %d %s" % (c, e))
            spare(32, 64)
            p("cut 0 old")
            p("open")
            reads(32, 63)
            spare(0, 32)
            p("open")
            reads(0, 32)
    p("# two sparings in a row: the first leaves a new copy, an unreadable one and an old one; the second writes the new one last")
    for c, e in [(c, e) for c in (33, 34, 35) for e in EFFECTS]:
        volume(3)
        p("cut 34 unreadable")
        spare(32, 64)
        p("open")
        p("cut %d %s" % (c, e))
        spare(0, 32)
        copies()
        p("cut 0 old")
        p("open")
        p("numbers 6")
        reads(0, 32)

    def heal():
        p("cut 0 old")
        p("open")
        reads(5, 7)
        change(5, 102)
        packet(0, 32)
        reads(5, 7)

    p("# power failures in the save of a block, and the packet healed")
    CS = [(c, e) for c in (6, 8) for e in EFFECTS] + [(1, "unreadable"), (32, "unreadable"), (33, "unreadable")]
    for c, e in CS:
        volume(2)
        packet(0, 128)
        p("cut %d %s" % (c, e))
        change(5, 85)
        heal()
    p("# power failures in the save of a packet")
    for c, e in CS:
        volume(2)
        packet(0, 128)
        p("cut %d %s" % (c, e))
        packet(0, 64)
        heal()
    p("# and of a packet that is spared")
    volume(2)
    spare(0, 128)
    p("cut 8 unreadable")
    change(5, 85)
    heal()


def turned():
    def every(make="make 192 224 256"):
        for c in ("read 0", "change 0", "packet 0", "spare 0", "open", make):
            p(c)

    def case(name, *lines):
        p("# " + name)
        volume(2)
        for c in lines:
            p(c)
        every()

    def lend(disc=4390912, marks=2144, table=4096, list=64, block=2048, packet=65536):
        return "lend %d %d %d %d %d %d" % (disc, marks, table, list, block, packet)

    case("rewritable, line 1: a byte short", lend(disc=4390911))
    case("line 1: a mark of 3", "mark 2143 3")
    case("line 2: L 0", "span 64 0")
    case("line 2: S + L one too many", "span 64 2081")
    case("line 3: 4,095 entries", lend(table=4095))
    case("line 3: a block of 2,047 bytes, a packet of 65,535", lend(block=2047, packet=65535))
    case("line 3: a block of 2,049 bytes, a packet of 65,537", lend(block=2049, packet=65537))
    case("line 4: the map cut short", lend(list=63))
    case("line 5: no map", lend(list=0))
    case("line 5: packet length 16", "list 40 16")
    case("line 5: no tables", "list 42 0")
    case("line 5: 5 tables", "list 42 5")
    case("line 5: tables of 55 bytes", "list 44 55", "list 45 0")
    case("line 5: tables of 2,049 bytes", "list 44 1")
    case("line 6: S 65", "span 65 64")
    case("line 6: L 63", "span 64 63")
    case("line 6: a table at 33", "list 52 33")
    case("line 6: a table twice", "list 52 0")
    case("line 6: a table in the partition's first packet", "list 52 64")
    case("line 6: a table in the partition's last packet", "list 52 96")
    case("a table behind the partition", "list 52 128")
    case("line 6: a table off the disc", "list 52 96", "list 53 8")
    case("a table in the disc's last packet", "list 52 64", "list 53 8")
    case("line 7: write-once", "once")
    case("line 8: no copy recorded", "mark 0 0", "mark 32 2")
    case("line 10: copies that differ", "poke 32 60 224", "poke 32 68 192")
    case("line 10: a copy with one entry fewer", "poke 32 48 2")
    case("copies that differ in their sequence too", "poke 32 60 224", "poke 32 68 192", "poke 32 52 1", "open")
    case("line 11: R 2", "kept 2 0")
    case("line 11: R 4", "kept 4 0")
    case("line 11: sequence 1", "kept 3 1")
    case("line 11: an original", "entry 4 0")
    case("line 11: a mapped", "entry 5 224")
    case("a number behind the entries", "entry 6 0")
    case("line 11: a record of the other kind", "held 3 0 0")
    p("# line 12")
    volume(2)
    for c in ("read 63", "read 64", "read none", "change 63", "change 64", "packet 31", "packet 32", "packet 64",
              "packet 4294967264", "spare 1", "spare 64", "spare 32"):
        p(c)
    p("# lines 25 and 14: block 5 is blank, then unreadable; saved itself, it is recorded")
    for m in (0, 2):
        volume(2)
        packet(0, 128)
        p("mark 69 %d" % m)
        for c in ("read 4", "read 5", "change 4", "read 4", "change 5", "read 5", "change 4"):
            p(c)
    p("# line 17: one table only")
    volume(1)
    spare(32, 64)
    change(32, 85)
    reads(32)
    p("# line 19: no spare is left, for the spared packet nor for the other one")
    volume(2, "192")
    spare(32, 64)
    spare(32, 96)
    spare(0, 96)
    reads(32, 0)
    p("# line 19: no spares at all")
    volume(2, "")
    spare(0, 96)
    change(0, 85)
    reads(0)
    p("# line 20: sequences at the end, compared without wrap")
    volume(2)
    p("poke 0 52 4294967294")
    p("open")
    spare(32, 64)
    p("open")
    spare(0, 96)
    change(0, 85)
    p("open")
    reads(0, 32)
    copies()
    p("# spares that break the copy rule (line 6), and others that don't")
    for s in ("64", "96", "0", "32", "128", "200", "192 192", "192 224 256 288", "2112", "2144", "4294967264", "2048 2080 2112 128"):
        volume(2, s)
    p("# room for so many spares in a table")
    for size, s in ((56, ""), (56, "192"), (63, "192"), (64, "192"), (71, "192 224"), (72, "192 224")):
        volume(2, s, size)


def unrecorded():
    def hurt(places, marks):
        for i, m in zip(places, marks):
            p("mark %d %d" % (64 + i, m))

    p("# 02, slip 5: of the 31 others one is blank and one unreadable, both below the saved block, both above it, one on each side")
    volume(2)
    packet(0, 128)
    for b, places in ((16, (0, 15)), (16, (17, 31)), (16, (15, 17)), (0, (1, 31)), (31, (0, 30))):
        for marks in ((0, 2), (2, 0)):
            hurt(places, marks)
            p("change %d" % b)
        hurt(places, (1, 1))
    p("# the block's own sector is not asked, blank or unreadable; it is written where the others are recorded")
    for marks in ((0, 2), (2, 0)):
        hurt((16, 20), marks)
        reads(16, 20)
        p("change 16")
        p("mark 84 1")
        change(16, 85)
        reads(16)
    p("# lines 11 and 12 before line 25; the sectors beside the packet are not asked")
    hurt((5, 32, -1), (0, 0, 2))
    p("kept 3 1")
    p("read 5")
    p("change 4")
    p("kept 3 0")
    p("change 64")
    p("mark 69 1")
    p("change 4")
    p("# power failures at the write of a blank block, in its save and in that of its packet; then it is saved")
    p("blocks 64")
    for c in ("change 5", "packet 0"):
        for e in EFFECTS:
            p("mark 69 0")
            p("cut 6 " + e)
            p(c)
            p("cut 0 old")
            p("open")
            reads(5)
            p("change 4")
            change(5, 102)
    p("# at the write of block 2: it is unreadable, and block 5 blank still")
    p("mark 69 0")
    p("cut 3 unreadable")
    p("change 5")
    p("cut 0 old")
    p("open")
    reads(2, 5)
    for b in (2, 5, 9):
        p("change %d" % b)
    p("# a packet is asked at its present place, spared at 192 and not at 64")
    spare(0, 128)
    p("change 4")
    for m in (0, 2):
        p("mark 197 %d" % m)
        p("change 4")
        reads(5)


def counting():
    p("# what makes a copy count: the one at sector 0 has sequence 5, the other one sequence 0")
    for name, lines in (
            ("as it is", []),
            ("byte 0", ["poke 0 0 1"]),
            ("byte 1", ["poke 0 0 256"]),
            ("byte 2 is not looked at", ["poke 0 0 65536"]),
            ("byte 15 is not looked at", ["poke 0 12 16777216"]),
            ("regid flags", ["poke 0 16 %d" % int.from_bytes(b"\x01*UD", "little")]),
            ("regid identifier", ["poke 0 16 %d" % int.from_bytes(b"\x00*UE", "little")]),
            ("regid suffix is not looked at", ["poke 0 40 1"]),
            ("R 0", ["poke 0 48 0"]),
            ("R 2", ["poke 0 48 2"]),
            ("R 3 and byte 50", ["poke 0 48 65539"]),
            ("R 4, the last used", ["poke 0 48 4"]),
            ("R 4, the last free", ["poke 0 48 4", "poke 0 80 none", "poke 0 84 128"]),
            ("R 250", ["poke 0 48 250"]),
            ("original 0", ["poke 0 56 0"]),
            ("original 16", ["poke 0 56 16"]),
            ("original 32", ["poke 0 56 32"]),
            ("original 64", ["poke 0 56 64"]),
            ("originals 0 and 32", ["poke 0 56 0", "poke 0 64 32"]),
            ("originals 32 and 0", ["poke 0 56 32", "poke 0 64 0"]),
            ("originals 32 and 32", ["poke 0 56 32", "poke 0 64 32"]),
            ("a used entry behind a free one", ["poke 0 64 0"]),
            ("mapped 200", ["poke 0 60 200"]),
            ("mapped 224 twice", ["poke 0 60 224"]),
            ("mapped 64, in the partition", ["poke 0 60 64"]),
            ("mapped 96, in the partition", ["poke 0 60 96"]),
            ("mapped 128, behind the partition", ["poke 0 60 128"]),
            ("mapped 32, a table's packet", ["poke 0 60 32"]),
            ("mapped 2,112, the last packet", ["poke 0 60 2112"]),
            ("mapped 2,144, off the disc", ["poke 0 60 2144"]),
            ("mapped 4,294,967,264", ["poke 0 60 4294967264"]),
            ("unreadable", ["mark 0 2"]),
            ("blank", ["mark 0 0"])):
        p("# " + name)
        volume(2)
        p("poke 0 52 5")
        for c in lines:
            p(c)
        p("open")


def sized():
    p("# the map's size bounds R: three entries take 80 bytes")
    volume(2, "192 224 256", 80)
    p("list 44 79")
    p("open")
    p("list 44 80")
    p("open")


NEWER = b"*UDF Sparing Table"
OLDER = b"*OSTA UDF Sparing Table"
DEFECTIVE = 0xfffffff0


def identify(name):
    """The identifier of a table, in the lent block."""
    b = bytes(1) + name + bytes(23 - len(name))
    for i in range(0, 24, 4):
        p("set32 %d %d" % (16 + i, int.from_bytes(b[i:i + 4], "little")))


def again():
    def originals(q, *os, sequence=None):
        for i, x in enumerate(os):
            p("poke %d %d %s" % (q, 56 + 8 * i, x))
        if sequence is not None:
            p("poke %d 52 %s" % (q, sequence))

    def remade():
        p("make 192 224 256")

    p("# 02, slip 1: the table that making writes, and the same one spelt out in sector 300; then that one under the older identifier")
    volume(2)
    p("bytes 0")
    identify(NEWER)
    p("set32 48 3")
    for i, m in enumerate((192, 224, 256)):
        p("set32 %d none" % (56 + 8 * i))
        p("set32 %d %d" % (60 + 8 * i, m))
    put(300)
    shows(300, 0, 32)
    identify(OLDER)
    put(300)
    shows(300)
    p("# that one at sector 0, equal to the newer one, at one sequence; then both are older ones")
    put(0)
    p("open")
    put(32)
    p("open")
    p("# beside a newer one it differs in an original: line 10; its sequence is higher, then lower")
    remade()
    put(0)
    originals(0, 0)
    p("open")
    p("poke 0 52 5")
    p("open")
    p("poke 32 52 6")
    p("open")
    p("# a defective spare under the older identifier: the sequence is higher, equal, and the copy is alone; then the mark is behind R")
    remade()
    put(0)
    originals(0, DEFECTIVE, sequence=5)
    p("open")
    p("poke 0 52 0")
    p("open")
    p("mark 32 2")
    p("open")
    originals(0, 32, DEFECTIVE)
    p("open")
    originals(0, 32, "none", DEFECTIVE)
    p("poke 0 48 2")
    p("open")
    p("# and under the newer one, alone too; every one may be defective")
    remade()
    p("mark 32 2")
    originals(0, DEFECTIVE)
    p("open")
    originals(0, 32, DEFECTIVE)
    p("open")
    originals(0, DEFECTIVE, DEFECTIVE, DEFECTIVE)
    p("open")
    for os in ((DEFECTIVE, 32, "none"), ("none", DEFECTIVE, "none"), (32, "none", DEFECTIVE), (0, DEFECTIVE, 32), (32, 32, DEFECTIVE)):
        p("# line 8: originals " + ", ".join({"none": "free", DEFECTIVE: "defective"}.get(x, str(x)) for x in os))
        originals(0, *os)
        p("open")
    for x in (0xffffffef, 0xfffffff1, 0xfffffffe):
        p("# line 8: original 0x%08x, under each identifier" % x)
        for older in (False, True):
            if older:
                put(0)
            else:
                remade()
                p("mark 32 2")
            originals(0, x)
            p("open")
    p("# the rule of mapped starts is that of all entries: of a defective one, behind a used one")
    remade()
    p("mark 32 2")
    originals(0, 32, DEFECTIVE)
    for m in (64, 96, 32, 192, 256, 208, 2144, 2112, 224):
        p("poke 0 68 %d" % m)
        p("open")
    p("# the suffix is not looked at; bytes 35 and 39, behind the identifier, and the flags are")
    p("poke 0 40 none")
    p("poke 0 44 none")
    p("open")
    for at, n in ((35, 1), (35, 0), (39, 0xffffff01), (39, 0xffffff00)):
        p("poke 0 %d %d" % (at, n))
        p("open")
    p("poke 0 16 %d" % int.from_bytes(b"\x01*UD", "little"))
    p("open")
    put(0)
    p("poke 0 40 none")
    p("open")
    p("poke 0 16 %d" % int.from_bytes(b"\x01*OS", "little"))
    p("open")

    p("# an older copy beside a newer one, packet 32 spared in both and now again: each is written as a newer one; power failures in it")
    for c, e in ((33, "unreadable"), (33, "whole"), (34, "unreadable"), (35, "old")):
        remade()
        put(0)
        originals(0, 32)
        originals(32, 32)
        p("open")
        cut(c, e, 32, 64)
        shows(0, 32)
        p("open")
        p("numbers 6")
    p("# the older one has a defective spare and a higher sequence: it is written first, and the sequence is 1")
    for c, e in ((33, "unreadable"), (34, "unreadable"), (35, "old")):
        remade()
        put(32)
        originals(32, DEFECTIVE, sequence=5)
        p("open")
        cut(c, e, 32, 64)
        shows(0, 32)
        p("open")
    p("# four copies, the second and the third older ones; a packet spared three times, the other one and the last free spare untouched")
    p("rewritable 4 2048 0 32 128 160")
    p("make 192 224 256 288")
    p("fill 7 7 7 7")
    p("open")
    packet(32, 128)
    put(32, 128)
    p("poke 32 48 4")
    p("poke 128 48 4")
    for q in (32, 128):
        p("poke %d 80 none" % q)
        p("poke %d 84 288" % q)
    p("open")
    p("numbers 9")
    for byte in (16, 48, 80):
        spare(0, byte)
        p("numbers 9")
        copies()
        reads(0, 31, 32)
    p("fill 7 7 7 7")
    p("open")
    p("numbers 9")
    shows(192, 223, 224, 255, 256, 287, 288)
    p("# the other packet takes the last one; line 19 for both then, and saves at their places")
    spare(32, 112)
    p("numbers 9")
    spare(32, 1)
    spare(0, 1)
    change(33, 85)
    packet(0, 144)
    reads(0, 31, 32, 33, 63)
    shows(192, 224, 256, 287, 288, 289)
    p("# two packets, spared by turns: the used ones stand by their originals, the defective ones by their age")
    p("rewritable 2 2048 0 32")
    p("make 288 256 224 192")
    p("open")
    for b, byte in ((32, 16), (0, 48), (32, 80), (0, 112)):
        spare(b, byte)
        p("numbers 8")
    reads(0, 31, 32, 63)
    p("open")
    reads(0, 31, 32, 63)
    p("# line 11: a defective one is in the lent table too")
    p("entry 4 none")
    reads(0)
    p("# a spared packet is saved, and a block of it, before it is spared again and after")
    remade()
    p("open")
    spare(32, 16)
    packet(32, 48)
    change(33, 85)
    reads(32, 33)
    spare(32, 80)
    reads(32, 33)
    shows(192, 193, 224, 225)
    change(33, 102)
    reads(32, 33, 63)
    packet(32, 112)
    reads(32, 33, 63)
    p("open")
    reads(32, 33, 63, 0)
    shows(192, 193)
    p("# a sector of its spare is unreadable: no other block of it is saved there, and sparing it heals it")
    p("mark 230 2")
    reads(38)
    p("change 33")
    spare(32, 144)
    reads(38)
    p("change 33")
    p("# line 12 of sparing again, and line 19 with two defective ones")
    for b in (33, 64, 32, 0, DEFECTIVE, "none"):
        p("spare %s" % b)
    p("# power failures in a second sparing; then opened, read, and the packet spared once more")
    for c, e in [(c, e) for c in (1, 32, 33, 34) for e in EFFECTS] + [(35, "unreadable")]:
        remade()
        p("open")
        spare(32, 64)
        cut(c, e, 32, 96)
        p("open")
        p("numbers 6")
        reads(0, 32, 63)
        spare(32, 16)
        reads(32)
    p("# three copies, of which the first sparing leaves a new one, an unreadable one and an old one; the second writes the new one last")
    p("rewritable 3 2048 0 32 128")
    for c in (33, 34, 35):
        remade()
        p("open")
        cut(34, "unreadable", 32, 64)
        p("open")
        cut(c, "unreadable", 32, 96)
        shows(0, 32, 128)
        p("open")
        p("numbers 6")
        reads(32)
    p("# lines 17, 19 and 20 in their order: one table; with a second one; with a free spare; with a sequence less")
    remade()
    p("rewritable 1 2048 0")
    originals(0, 32)
    p("open")
    spare(32, 64)
    originals(0, 32, DEFECTIVE, DEFECTIVE, sequence="none")
    p("open")
    p("spare 32")
    p("spare 0")
    p("rewritable 2 2048 0 32")
    p("spare 32")
    p("spare 0")
    originals(0, 32, DEFECTIVE, "none")
    p("open")
    p("spare 32")
    p("spare 0")
    p("poke 0 52 4294967294")
    p("open")
    p("spare 32")
    p("numbers 6")
    p("spare 32")
    p("open")
    reads(32, 63)
    shows(0, 32)


def sparings(*bs):
    for b in bs:
        p("spare %d" % b)


def calls(*bs):
    for b in bs:
        for c in ("read", "change", "packet", "spare"):
            p("%s %s" % (c, b))


def listed(q, sequence, *es):
    """The entries of the table at sector q, and its sequence."""
    p("poke %d 48 %d" % (q, len(es)))
    p("poke %d 52 %s" % (q, sequence))
    for i, (x, m) in enumerate(es):
        p("poke %d %d %s" % (q, 56 + 8 * i, x))
        p("poke %d %d %d" % (q, 60 + 8 * i, m))


def free_at(*ms):
    return [("none", m) for m in ms]


def inside():
    p("# 02, slip 8: S 64, L 160; packets 96 and 32 are spares, as is one behind the partition, which alone making leaves as it is")
    p("clear")
    p("span 64 160")
    p("rewritable 2 2048 0 32")
    p("bytes 85")
    put(64, 96, 160, 191, 224)
    p("mark 127 2")
    p("make 160 96 224")
    shows(64, 96, 127, 160, 191, 223, 224, 0, 32)
    p("fill 7 7 7 7")
    p("open")
    p("numbers 7")
    p("# blocks and packets at their ends: those of spares, those from L on, packets that begin elsewhere, and the others")
    ENDS = (0, 31, 32, 63, 64, 95, 96, 127, 128, 159, 160)
    for b in ENDS:
        change(b, 16 + b)
    reads(*ENDS, "none")
    for b in (0, 32, 33, 63, 64, 96, 97, 128, 160):
        packet(b, b)
    reads(*ENDS)
    sparings(32, 33, 63, 96, 97, 160, 4294967264)
    shows(96, 127, 160, 191)
    p("open")
    p("numbers 7")
    p("# line 30 before lines 25 and 14: sectors 101 and 102, in a spare, are blank and unreadable")
    p("mark 101 0")
    p("mark 102 2")
    reads(36, 37, 38)
    for b in (36, 37, 38):
        p("change %d" % b)
    p("packet 32")
    sparings(32)
    shows(101, 102)
    p("# lines 3, 8, 10, 11 and 12 before line 30")
    for lines, back in ((["lend 4390912 2144 4096 64 2047 65535"], ["lend 4390912 2144 4096 64 2048 65536"]),
                        (["mark 0 2", "mark 32 0"], ["mark 0 1", "mark 32 1"]),
                        (["poke 32 60 192"], ["poke 32 60 160"]),
                        (["kept 3 1"], ["kept 3 0"]),
                        (["entry 1 192"], ["entry 1 160"])):
        for c in lines:
            p(c)
        calls(32)
        for c in back:
            p(c)
    p("packet 48")
    sparings(48)
    p("# line 30 before lines 17, 19 and 20: one table; no spare is free, and the sequence is the last one; then one is free")
    p("rewritable 1 2048 0")
    p("open")
    sparings(0, 32, 96)
    p("rewritable 2 2048 0 32")
    for first, last in (((DEFECTIVE, 160), (DEFECTIVE, 224)), ((0, 160), (DEFECTIVE, 224)), ((0, 160), ("none", 224))):
        listed(0, "none", first, (DEFECTIVE, 96), last)
        p("open")
        sparings(0, 32, 33, 64, 96)
    p("rewritable 1 2048 0")
    p("open")
    sparings(0, 32)
    p("# a packet goes to a spare inside, to one outside and to one inside, then none is left; blocks of spares give 30 throughout")
    volume(2, "96 224 160", l=160)
    packet(0, 128)
    for byte in (16, 48, 80, 112):
        spare(0, byte)
        p("numbers 6")
        reads(0, 31, 32, 63, 64, 96, 127)
        shows(64, 96, 160, 224, 0, 32)
        for c in ("change 33", "packet 96", "spare 32", "change 127"):
            p(c)
    p("fill 7 7 7 7")
    p("open")
    p("numbers 7")
    p("# saves go to its last spare; sectors of its other places are not asked")
    for q, m in ((69, 2), (101, 0), (229, 2)):
        p("mark %d %d" % (q, m))
    change(5, 85)
    change(6, 102)
    reads(5, 6, 37, 101)
    shows(69, 70, 101, 102, 165, 166)
    packet(0, 144)
    reads(0, 31)
    shows(64, 96, 160)
    p("open")
    reads(0, 5, 32, 37, 63, 96, 101, 127, 160)
    p("# four spares inside, the partition's first and last packet among them; packets 64 and 32 are spared by turns")
    volume(2, "224 64 160 192", l=192)
    for b, byte in ((64, 16), (32, 48), (64, 80), (32, 112)):
        spare(b, byte)
        p("numbers 8")
        reads(0, 32, 63, 64, 95, 96, 128, 160, 191, 192)
    sparings(32, 64, 0)
    p("open")
    reads(0, 31, 32, 63, 64, 95, 96, 127, 128, 159, 160, 191)
    shows(64, 96, 128, 160, 192, 224)
    p("# all of the partition is spares")
    volume(2, "96 64")
    p("numbers 4")
    calls(0, 32, 64)
    reads(31, 63)
    p("open")
    volume(2, "64 96 128 160", l=128)
    reads(0, 31, 32, 64, 96, 127, 128)
    p("# S 0, its first and last packet")
    formatted(0, 96, "2 2048 96 128", "0 64")
    reads(0, 31, 32, 63, 64, 95, 96)
    for byte in (16, 48):
        spare(32, byte)
        p("numbers 4")
        reads(0, 32, 63, 64, 95)
    p("# the disc's last packet, which is the partition's")
    formatted(2080, 64, "2 2048 0 32", "2112")
    spare(0, 16)
    reads(0, 31, 32, 63, 64)
    p("# packets beside the partition, on both sides, and one inside")
    formatted(96, 64, "2 2048 0 32", "64 160 128")
    reads(0, 31, 32, 63, 64)
    for byte in (16, 48, 80):
        spare(0, byte)
        reads(0, 31, 32, 63)
    p("# a disc whose spares are below S, given S 64 and L 128: they are inside then, and original 0, once used, is its own spare's packet")
    formatted(128, 64, "2 2048 0 32", "64 96")
    packet(0, 16)
    p("span 64 128")
    p("open")
    reads(0, 32, 63, 64, 95, 96, 127, 128)
    p("span 128 64")
    spare(0, 48)
    reads(0)
    p("span 64 128")
    p("open")
    calls(64)
    p("# spares that break the copy rule (line 6), and others that don't")
    volume(2, "96", l=160)
    packet(0, 16)
    for ms in ("96 96", "96 256 96", "104", "96 112", "96 0", "32 96", "96 2144", "96 2128", "4294967264 96", "96 224 192 2112",
               "64 96 128 160"):
        p("make " + ms)
        p("open")
        reads(0, 32)
    p("# room for no spare, and for one")
    for size in (63, 64):
        volume(2, "96", size)
        reads(0, 32)


def inside_cut():
    def anew(spares):
        p("make " + spares)
        p("open")

    p("# power failures in a sparing to a spare inside; then opened, and the packet spared again")
    volume(2, "96 192")
    for c, e in [(c, e) for c in (1, 32, 33, 34) for e in EFFECTS] + [(35, "unreadable")]:
        anew("96 192")
        packet(0, 128)
        cut(c, e, 0, 64)
        p("open")
        p("numbers 4")
        reads(0, 31, 32, 63)
        sparings(32)
        spare(0, 16)
        p("numbers 4")
        reads(0, 32)
    for name, ms in (("inside to one outside", "96 192"), ("outside to one inside", "192 96")):
        p("# power failures in a sparing from a spare " + name)
        for c, e in [(c, e) for c in (1, 33, 34) for e in EFFECTS]:
            anew(ms)
            spare(0, 64)
            cut(c, e, 0, 96)
            p("open")
            p("numbers 4")
            reads(0, 31, 32, 63)
    p("# four copies: power failures in the second sparing of a list that was cut in the first")
    volume(4, "192 96")
    for c in (33, 34, 35, 36):
        anew("192 96")
        cut(34, "unreadable", 0, 64)
        p("open")
        reads(0, 32)
        cut(c, "unreadable", 0, 96)
        copies()
        p("open")
        p("numbers 4")
        reads(0, 32)
    p("# power failures in the saves of a packet that is in a spare inside")
    for c in ("change 5", "packet 0"):
        for e in EFFECTS:
            anew("96 192")
            spare(0, 128)
            p("bytes 85")
            p("blocks 64")
            p("cut 6 " + e)
            p(c)
            p("cut 0 old")
            p("open")
            reads(4, 5, 6, 37)
            shows(69, 101)
    p("# a call that gives 30 is not cut, and nothing is written")
    p("cut 1 unreadable")
    for c in ("change 32", "packet 32", "spare 32"):
        p(c)
    p("cut 0 old")
    shows(96, 192, 0)
    p("open")


def inside_copies():
    p("# what makes a copy count: the one at sector 0 has sequence 5; the other one has sequence 0 and one spare, and then is unreadable")
    volume(2, "256", l=160)
    for name, es in (
            ("spares inside of each kind", [(0, 96), (64, 256), (DEFECTIVE, 160)] + free_at(192)),
            ("every other packet a used one's", [(0, 96), (64, 160)]),
            ("every packet a defective or a free one's", [(DEFECTIVE, 192), (DEFECTIVE, 64)] + free_at(96, 128, 160)),
            ("original 32 is its own spare's packet", [(32, 96)]),
            ("original 0 is its own spare's packet", [(0, 64)]),
            ("original 128 is its own spare's packet", [(128, 192)]),
            ("original 32 is that of a used one before it", [(0, 96), (32, 256)]),
            ("original 0 is that of a used one behind it", [(0, 256), (64, 64)]),
            ("originals 0 and 32 are each other's", [(0, 96), (32, 64)]),
            ("original 32 is that of a defective one", [(32, 256), (DEFECTIVE, 96)]),
            ("original 32 is that of a free one", [(32, 256)] + free_at(96)),
            ("original 0 is that of the last one", [(0, 256), (64, 288), (DEFECTIVE, 320)] + free_at(352, 64)),
            ("original 64 is that of the last one", [(0, 256), (64, 288), (DEFECTIVE, 320)] + free_at(352, 128)),
            ("original 64 is that of the first one", [(0, 128), (32, 288), (64, 256)]),
            ("original 64, mapped to sector 64", [(64, 64)]),
            ("original 96, beside a spare at sector 96", [(96, 256)] + free_at(96)),
            ("mapped 104, used", [(0, 104)]),
            ("mapped 104, free", free_at(104)),
            ("mapped 96 twice, used and free", [(0, 96)] + free_at(96)),
            ("mapped 96 twice, defective and free", [(DEFECTIVE, 96)] + free_at(160, 96)),
            ("mapped 96, and 32, a table's packet", [(0, 96)] + free_at(32)),
            ("mapped 96, and 2,144, off the disc", free_at(96, 2144)),
            ("original 160, behind the partition", [(160, 96)])):
        p("# " + name)
        p("make 256")
        listed(0, 5, *es)
        p("open")
        p("numbers 4")
        reads(0, 32, 96)
        p("mark 32 2")
        p("open")
    p("# the entry that maps an original's packet is within R, then behind it")
    p("make 256")
    listed(0, 5, (32, 256), *free_at(96))
    p("open")
    p("poke 0 48 1")
    p("open")
    reads(32)
    for name, es in (
            ("spares inside", [(0, 96)] + free_at(160)),
            ("an original that is its own spare's packet", [(32, 96)]),
            ("an original that is a free one's", [(32, 256)] + free_at(96)),
            ("a defective spare inside", [(0, 256), (DEFECTIVE, 96)])):
        p("# the older identifier: " + name)
        p("make 256")
        p("bytes 0")
        identify(OLDER)
        put(0)
        listed(0, 5, *es)
        p("open")
        p("numbers 4")
        reads(0, 32)
    p("# the copy at sector 32 maps other packets of the partition: it is not current, then written first, in a sparing that is cut")
    for c, e in ((33, "old"), (33, "unreadable"), (33, "whole"), (34, "unreadable")):
        p("make 256")
        listed(0, 5, *free_at(96, 256))
        listed(32, 4, *free_at(160, 288))
        p("open")
        reads(32, 96)
        cut(c, e, 96, 16)
        shows(0, 32)
        p("open")
        p("numbers 4")
        reads(32, 96, 127)
    p("# it is current once the other one is unreadable; at one sequence they differ")
    p("make 256")
    listed(0, 5, *free_at(96, 256))
    listed(32, 4, *free_at(160, 288))
    p("mark 0 2")
    p("open")
    reads(32, 96)
    p("mark 0 1")
    p("poke 32 52 5")
    p("open")
    reads(32, 96)


GROUPS = ["tables", "sizes", "cuts", "forged", "rooms", "forecasts", "either", "refused", "spared", "turned", "unrecorded", "counting", "sized",
          "again", "inside", "inside_cut", "inside_copies"]

if __name__ == "__main__":
    for name in sys.argv[1:] or GROUPS:
        globals()[name]()
    sys.stdout.write("\n".join(o) + "\n")
