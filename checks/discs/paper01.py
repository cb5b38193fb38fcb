"""Document 01 in Python, with slips 1, 4, 5, 8 and 9 of document 02, written from their text alone: what each call answers and leaves."""
from fractions import Fraction

NONE = 0xffffffff


def le(b, at, n):
    return int.from_bytes(b[at:at + n], "little")


def crc16(data, crc=0):
    # polynomial 0x1021, start 0, high bit first; bit by bit
    for x in data:
        crc ^= x << 8
        for _ in range(8):
            crc = ((crc << 1) ^ 0x1021) & 0xffff if crc & 0x8000 else (crc << 1) & 0xffff
    return crc


def regid(name):
    return bytes([0]) + name + bytes(23 - len(name)) + bytes(8)


def regid_ok(b, name):
    return len(b) >= 32 and b[0] == 0 and bytes(b[1:24]) == name + bytes(23 - len(name))


class Refuse(Exception):
    def __init__(self, n):
        self.n = n


class Item(Exception):
    """an item of a forecast that would be refused: its index, and the line"""

    def __init__(self, i, n):
        self.i, self.n = i, n


class CutOff(Exception):
    pass


class Disc:
    def __init__(self, sectors=288):
        self.b = bytearray(2048 * sectors)
        self.m = bytearray(sectors)

    def copy(self):
        d = Disc(0)
        d.b = bytearray(self.b)
        d.m = bytearray(self.m)
        return d

    def sector(self, p):
        return bytes(self.b[2048 * p:2048 * p + 2048])

    def put(self, p, block, mark=1):
        self.b[2048 * p:2048 * p + 2048] = block
        self.m[p] = mark


def once_maps(part=7):
    one = bytes([1, 6, 1, 0]) + part.to_bytes(2, "little")
    two = bytes([2, 64, 0, 0]) + regid(b"*UDF Virtual Partition") + (1).to_bytes(2, "little") + part.to_bytes(2, "little")
    return one + two + bytes(64 - len(two))


def rw_maps(tables, size=2048, part=7, packet=32):
    two = bytes([2, 64, 0, 0]) + regid(b"*UDF Sparable Partition") + (1).to_bytes(2, "little") + part.to_bytes(2, "little")
    two += packet.to_bytes(2, "little") + bytes([len(tables), 0]) + size.to_bytes(4, "little")
    for t in tables:
        two += t.to_bytes(4, "little")
    return two + bytes(64 - len(two))


def read_maps(ms):
    """('once',) or ('rw', size, [sectors]); raises 4, 5"""
    at, found = 0, []
    while at < len(ms):
        if len(ms) - at < 2 or ms[at + 1] == 0 or ms[at + 1] > len(ms) - at:
            raise Refuse(4)
        found.append(bytes(ms[at:at + ms[at + 1]]))
        at += ms[at + 1]
    ok1 = lambda m: m[0] == 1 and len(m) == 6
    ok2 = lambda m, name: m[0] == 2 and len(m) == 64 and regid_ok(m[4:36], name)
    if len(found) == 2 and ok1(found[0]) and ok2(found[1], b"*UDF Virtual Partition") and le(found[0], 4, 2) == le(found[1], 38, 2):
        return ("once",)
    if len(found) == 1 and ok2(found[0], b"*UDF Sparable Partition"):
        m = found[0]
        if le(m, 40, 2) == 32 and 1 <= m[42] <= 4 and 56 <= le(m, 44, 4) <= 2048:
            return ("rw", le(m, 44, 4), [le(m, 48 + 4 * i, 4) for i in range(m[42])])
    raise Refuse(5)


def examine(d, maps, s, l, lent=True):
    if len(d.b) != 2048 * len(d.m) or len(d.m) > 1048576 or len(d.m) == 0 or any(x > 2 for x in d.m):
        raise Refuse(1)
    if l == 0 or s + l > len(d.m):
        raise Refuse(2)
    if not lent:
        raise Refuse(3)
    kind = read_maps(maps)
    if kind[0] == "rw":
        ts = kind[2]
        if s % 32 or l % 32 or any(t % 32 for t in ts) or len(set(ts)) < len(ts):
            raise Refuse(6)
        for t in ts:
            if t + 32 > len(d.m) or not (t + 32 <= s or s + l <= t):
                raise Refuse(6)
    return kind


def nwa(d, s, l):
    for b in range(l - 1, -1, -1):
        if d.m[s + b] != 0:
            return b + 1
    return 0


def vat_file(d, s, k, icb):
    """the VAT file's bytes if the block icb would be a VAT ICB at logical k, else None"""
    t = icb[:16]
    if le(t, 0, 2) != 261 or le(t, 2, 2) != 2 or t[5] != 0 or not 160 <= le(t, 10, 2) <= 2032 or le(t, 12, 4) != k:
        return None
    if t[4] != (sum(t[0:4]) + sum(t[5:16])) % 256 or le(t, 8, 2) != crc16(icb[16:16 + le(t, 10, 2)]):
        return None
    if le(icb, 20, 2) != 4 or icb[27] != 0:
        return None
    f, e, a = le(icb, 56, 8), le(icb, 168, 4), le(icb, 172, 4)
    if 176 + e + a > 2048:
        return None
    form = icb[34] % 8
    if form == 3:
        if a != f:
            return None
        data = icb[176 + e:176 + e + a]
    elif form == 0:
        if a % 8:
            return None
        exts = []
        for i in range(a // 8):
            n, b = le(icb, 176 + e + 8 * i, 4), le(icb, 180 + e + 8 * i, 4)
            if n == 0:
                break
            if n >= 1 << 30:
                return None
            exts.append((n, b))
        if sum(n for n, _ in exts) != f or any(n % 2048 for n, _ in exts[:-1]):
            return None
        data = b""
        for n, b in exts:
            for j in range((n + 2047) // 2048):
                if b + j >= k or d.m[s + b + j] != 1:
                    return None
                data += d.sector(s + b + j)
            if n % 2048:
                data = data[:len(data) - 2048 + n % 2048]
    else:
        return None
    if f < 36 or (f - 36) % 4 or not regid_ok(data[f - 36:f - 4], b"*UDF Virtual Alloc Tbl"):
        return None
    words = [le(data, 4 * i, 4) for i in range((f - 36) // 4)] + [le(data, f - 4, 4)]
    if any(w >= k and w != NONE for w in words):
        return None
    return data


def dsec(n):
    f = 4 * n + 36
    return 0 if 176 + f < 2048 else -(-f // 2048)


def icb_sectors(k_first, entries, prev):
    """the sectors a commit writes from logical k_first on; the ICB is the last"""
    data = b"".join(e.to_bytes(4, "little") for e in entries) + regid(b"*UDF Virtual Alloc Tbl") + prev.to_bytes(4, "little")
    f, d = len(data), dsec(len(entries))
    k = k_first + d
    alloc = data if d == 0 else f.to_bytes(4, "little") + k_first.to_bytes(4, "little")
    icb = bytearray(2048)
    icb[20:22] = (4).to_bytes(2, "little")
    icb[24] = 1
    icb[34] = 3 if d == 0 else 0
    icb[56:64] = f.to_bytes(8, "little")
    icb[64:72] = d.to_bytes(8, "little")
    icb[172:176] = len(alloc).to_bytes(4, "little")
    icb[176:176 + len(alloc)] = alloc
    settag(icb, k, 160 + len(alloc))
    padded = data + bytes(-len(data) % 2048)
    return [padded[2048 * i:2048 * i + 2048] for i in range(d)] + [bytes(icb)]


def settag(icb, k, length):
    icb[0:16] = bytes(16)
    icb[0:2] = (261).to_bytes(2, "little")
    icb[2:4] = (2).to_bytes(2, "little")
    icb[8:10] = crc16(icb[16:16 + length]).to_bytes(2, "little")
    icb[10:12] = length.to_bytes(2, "little")
    icb[12:16] = k.to_bytes(4, "little")
    icb[4] = (sum(icb[0:4]) + sum(icb[5:16])) % 256


def write(d, writes, cut):
    """writes: (sector, bytes) in turn; cut: (c, effect)"""
    c, effect = cut
    for n, (p, b) in enumerate(writes, 1):
        if n == c:
            if effect == "whole":
                d.put(p, b, 1)
            elif effect == "unreadable":
                d.m[p] = 2
            raise CutOff()
        d.put(p, b, 1)


UNCUT = (0, "old")


def to_read(d, sectors):
    """raises 25 or 14, by the mark of the first of the sectors, the lowest first, that is not recorded (02, slip 5)"""
    for p in sorted(sectors):
        if d.m[p] == 0:
            raise Refuse(25)
        if d.m[p] == 2:
            raise Refuse(14)


class Once:
    """the calls on a write-once disc; a record is ('once', N, NWA, last)"""

    @staticmethod
    def open(d, maps, s, l, table):
        kind = examine(d, maps, s, l, len(table) >= 4096)
        if kind[0] != "once":
            raise Refuse(7)
        next = nwa(d, s, l)
        for k in range(next - 1, -1, -1):
            if d.m[s + k] != 1:
                continue
            data = vat_file(d, s, k, d.sector(s + k))
            if data is not None:
                n = (len(data) - 36) // 4
                if n > 4096:
                    raise Refuse(9)
                for i in range(n):
                    table[i] = le(data, 4 * i, 4)
                return ("once", n, next, k), next - 1 - k
        raise Refuse(8)

    @staticmethod
    def judge(d, maps, s, l, table, rec, lent=True):
        kind = examine(d, maps, s, l, len(table) >= 4096 and lent)
        if kind[0] != "once":
            raise Refuse(7)
        if rec[0] != "once":
            raise Refuse(11)
        _, n, next, last = rec
        if next != nwa(d, s, l) or n > 4096 or last >= next or any(e != NONE and e >= next for e in table[:n]):
            raise Refuse(11)
        return n, next, last

    @staticmethod
    def entry(table, n, v):
        if v >= n:
            raise Refuse(12)
        if table[v] == NONE:
            raise Refuse(13)

    @staticmethod
    def read(d, maps, s, l, table, rec, v, out=2048):
        n, _, _ = Once.judge(d, maps, s, l, table, rec, out == 2048)
        Once.entry(table, n, v)
        to_read(d, [s + table[v]])
        return d.sector(s + table[v])

    @staticmethod
    def save(d, maps, s, l, table, rec, v, block, cut=UNCUT):
        n, next, last = Once.judge(d, maps, s, l, table, rec, len(block) == 2048)
        if v > n or v >= 4096:
            raise Refuse(12)
        if vat_file(d, s, next, block) is not None:
            raise Refuse(15)
        after = n + 1 if v == n else n
        if next + 1 + dsec(after) + 1 > l:
            raise Refuse(16)
        write(d, [(s + next, block)], cut)
        table[v] = next
        return ("once", after, next + 1, last)

    @staticmethod
    def free(d, maps, s, l, table, rec, v):
        n, _, _ = Once.judge(d, maps, s, l, table, rec)
        Once.entry(table, n, v)
        table[v] = NONE
        return rec

    @staticmethod
    def commit(d, maps, s, l, table, rec, cut=UNCUT):
        n, next, last = Once.judge(d, maps, s, l, table, rec)
        if next + dsec(n) + 1 > l:
            raise Refuse(16)
        secs = icb_sectors(next, table[:n], last)
        write(d, [(s + next + i, b) for i, b in enumerate(secs)], cut)
        k = next + dsec(n)
        return ("once", n, k + 1, k)

    @staticmethod
    def fullness(d, maps, s, l, table, rec):
        _, next, _ = Once.judge(d, maps, s, l, table, rec)
        # to the nearest, and of two to the even one, as Python rounds an exact fraction (02, slip 4)
        return round(Fraction(1000 * next, l))

    @staticmethod
    def forecast(d, maps, s, l, table, rec, items):
        """NWA and N after the items, or raises Item (02, slip 9)"""
        n, next, _ = Once.judge(d, maps, s, l, table, rec)
        for i, x in enumerate(items):
            if x >= 1 << 31:
                next += dsec(n) + 1
                if next > l:
                    raise Item(i, 16)
                continue
            if x > min(n, 4095):
                raise Item(i, 12)
            n, next = max(n, x + 1), next + 1
            if l - next <= dsec(n):
                raise Item(i, 16)
        return next, n

    @staticmethod
    def make(d, maps, s, l):
        kind = examine(d, maps, s, l)
        if kind[0] != "once":
            raise Refuse(7)
        if any(d.m[s:s + l]):
            raise Refuse(21)
        d.put(s, icb_sectors(0, [], NONE)[0], 1)


# ---- rewritable

# the table's identifiers: the newer one is written, both are read; and the original of a defective spare (02, slip 1)
NEWER = b"*UDF Sparing Table"
OLDER = b"*OSTA UDF Sparing Table"
DEFECTIVE = 0xfffffff0


def geometry(d, kind, s, l):
    return s, l, len(d.m), kind[2], kind[1]


def copy_entries(sec):
    return [(le(sec, 56 + 8 * i, 4), le(sec, 60 + 8 * i, 4)) for i in range(le(sec, 48, 2))]


def mapped_of(es):
    return [m for _, m in es]


def entries_fit(es, s, l, sectors, tables):
    # used ones, each lower than the next, then defective ones, then free ones; no other original is allowed
    os = [o for o, _ in es]
    used = sorted({o for o in os if o % 32 == 0 and o < l})
    if os != used + [DEFECTIVE] * os.count(DEFECTIVE) + [NONE] * os.count(NONE):
        return False
    ms = mapped_of(es)
    if len(set(ms)) != len(ms):
        return False
    for m in ms:
        if m % 32 or m + 32 > sectors or any(m <= t < m + 32 for t in tables):
            return False
    # a mapped packet may lie in the partition, but none is an original (02, slip 8)
    return not any(s + o in ms for o in used)


def counts(d, t, s, l, tables, size):
    if d.m[t] != 1:
        return False
    sec = d.sector(t)
    if sec[0] or sec[1] or 56 + 8 * le(sec, 48, 2) > size:
        return False
    es = copy_entries(sec)
    if not regid_ok(sec[16:48], NEWER):
        # the older identifier knows no defective spare
        if not regid_ok(sec[16:48], OLDER) or DEFECTIVE in [o for o, _ in es]:
            return False
    return entries_fit(es, s, l, len(d.m), tables)


def table_sector(es, seq):
    b = bytes(16) + regid(NEWER) + len(es).to_bytes(2, "little") + bytes(2) + seq.to_bytes(4, "little")
    for o, m in es:
        b += o.to_bytes(4, "little") + m.to_bytes(4, "little")
    return b + bytes(2048 - len(b))


class Rw:
    """the calls on a rewritable disc; a record is ('rw', R, sequence)"""

    @staticmethod
    def look(d, maps, s, l, lent=True):
        """current entries, sequence, the tables, the current tables"""
        kind = examine(d, maps, s, l, lent)
        if kind[0] != "rw":
            raise Refuse(7)
        size, tables = kind[1], kind[2]
        good = [t for t in tables if counts(d, t, s, l, tables, size)]
        if not good:
            raise Refuse(8)
        top = max(le(d.sector(t), 52, 4) for t in good)
        cur = [t for t in good if le(d.sector(t), 52, 4) == top]
        es = copy_entries(d.sector(cur[0]))
        if any(copy_entries(d.sector(t)) != es for t in cur):
            raise Refuse(10)
        return es, top, tables, cur

    @staticmethod
    def flat(es):
        return [x for e in es for x in e]

    @staticmethod
    def open(d, maps, s, l, table):
        es, top, _, _ = Rw.look(d, maps, s, l, len(table) >= 4096)
        table[:2 * len(es)] = Rw.flat(es)
        return ("rw", len(es), top), 0

    @staticmethod
    def judge(d, maps, s, l, table, rec, lent=True):
        es, top, tables, cur = Rw.look(d, maps, s, l, lent and len(table) >= 4096)
        if rec != ("rw", len(es), top) or table[:2 * len(es)] != Rw.flat(es):
            raise Refuse(11)
        return es, top, tables, cur

    @staticmethod
    def place(es, s, b):
        for o, m in es:
            if o == b - b % 32:
                return m + b % 32
        return s + b

    @staticmethod
    def number(es, s, l, b, step=1):
        """raises 12 of a block, or of a packet's start if step is 32, and then 30 where it belongs to a spare (02, slip 8)"""
        if b % step or b >= l:
            raise Refuse(12)
        if s + b - b % 32 in mapped_of(es):
            raise Refuse(30)

    @staticmethod
    def read(d, maps, s, l, table, rec, b, out=2048):
        es, _, _, _ = Rw.judge(d, maps, s, l, table, rec, out == 2048)
        Rw.number(es, s, l, b)
        p = Rw.place(es, s, b)
        to_read(d, [p])
        return d.sector(p)

    @staticmethod
    def save(d, maps, s, l, table, rec, b, block, cut=UNCUT):
        es, _, _, _ = Rw.judge(d, maps, s, l, table, rec, len(block) == 2048)
        Rw.number(es, s, l, b)
        p = Rw.place(es, s, b - b % 32)
        to_read(d, [p + i for i in range(32) if i != b % 32])
        write(d, [(p + i, block if i == b % 32 else d.sector(p + i)) for i in range(32)], cut)
        return rec

    @staticmethod
    def save_packet(d, maps, s, l, table, rec, b, packet, cut=UNCUT):
        es, _, _, _ = Rw.judge(d, maps, s, l, table, rec, len(packet) == 65536)
        Rw.number(es, s, l, b, 32)
        p = Rw.place(es, s, b)
        write(d, [(p + i, packet[2048 * i:2048 * i + 2048]) for i in range(32)], cut)
        return rec

    @staticmethod
    def spare(d, maps, s, l, table, rec, b, packet, cut=UNCUT):
        es, top, tables, cur = Rw.judge(d, maps, s, l, table, rec, len(packet) == 65536)
        Rw.number(es, s, l, b, 32)
        if len(tables) == 1:
            raise Refuse(17)
        free = [m for o, m in es if o == NONE]
        if not free:
            raise Refuse(19)
        if top == NONE:
            raise Refuse(20)
        m = free.pop(0)
        bad = [x for o, x in es if o == DEFECTIVE]
        used = {o: x for o, x in es if o < l}
        if b in used:
            # spared already: that spare is defective now, the last of them (02, slip 1)
            bad.append(used[b])
        used[b] = m
        new = sorted(used.items()) + [(DEFECTIVE, x) for x in bad] + [(NONE, x) for x in free]
        sec = table_sector(new, top + 1)
        ws = [(m + i, packet[2048 * i:2048 * i + 2048]) for i in range(32)]
        ws += [(t, sec) for t in tables if t not in cur] + [(t, sec) for t in tables if t in cur]
        write(d, ws, cut)
        table[:2 * len(new)] = Rw.flat(new)
        return ("rw", len(new), top + 1)

    @staticmethod
    def make(d, maps, s, l, spares):
        kind = examine(d, maps, s, l)
        if kind[0] != "rw":
            raise Refuse(7)
        es = [(NONE, m) for m in spares]
        if 56 + 8 * len(es) > kind[1] or not entries_fit(es, s, l, len(d.m), kind[2]):
            raise Refuse(6)
        for b in range(l):
            d.put(s + b, bytes(2048))
        for t in kind[2]:
            d.put(t, table_sector(es, 0))
