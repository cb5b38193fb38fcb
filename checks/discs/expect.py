"""Reads the lines of the file stdin and prints what document 01 gives for each (paper01.py)."""
import sys
from paper01 import *

EFFECT = {"o": "old", "u": "unreadable", "w": "whole"}


class Part:
    def __init__(self, d, nb, nm):
        self.b, self.m, self.whole = d.b[:nb], d.m[:nm], d

    sector = Disc.sector

    def put(self, q, block, mark=1):
        Disc.put(self, q, block, mark)

    def back(self):
        self.whole.b[:len(self.b)] = self.b
        self.whole.m[:len(self.m)] = self.m


def rec_text(r):
    return ": N %d, NWA %d, last ICB %d" % r[1:] if r[0] == "once" else ": R %d, sequence %d" % r[1:]


class Machine:
    def __init__(self):
        self.d = Disc(2144)
        self.t = [0] * 4096
        self.list = bytearray(70)
        self.block = bytearray(2049)
        self.packet = bytearray(65537)
        self.fresh()

    def fresh(self):
        self.on = (2, 20)
        self.rec = ("once", 0, 0, 0)
        self.cut = UNCUT
        self.lent = [4390912, 2144, 4096, 70, 2048, 65536]

    def line(self, text):
        if text.startswith("#") or not text:
            return text
        w = text.split(" ")
        n = [NONE if x == "none" else int(x) if x.isdigit() else 0 for x in w[1:]]
        return text + (getattr(self, "do_" + w[0])(n, w) or "")

    # ---- preparing
    def do_clear(self, n, w):
        self.d = Disc(2144)
        self.fresh()
        self.list[:] = once_maps()

    def do_span(self, n, w):
        self.on = (n[0], n[1])

    def do_held(self, n, w):
        self.rec = ("once", n[0], n[1], n[2])

    def do_kept(self, n, w):
        self.rec = ("rw", n[0], n[1])

    def do_cut(self, n, w):
        self.cut = (n[0], EFFECT[w[2][0]])

    def do_lend(self, n, w):
        self.lent = n

    def do_mark(self, n, w):
        self.d.m[n[0]] = n[1]

    def do_put(self, n, w):
        self.d.put(n[0], self.block[:2048], n[1])

    def do_poke(self, n, w):
        at = 2048 * n[0] + n[1]
        self.d.b[at:at + 4] = n[2].to_bytes(4, "little")

    def do_show(self, n, w):
        return ": mark %02x, crc %04x" % (self.d.m[n[0]], crc16(self.d.sector(n[0])))

    def do_entry(self, n, w):
        self.t[n[0]] = n[1]

    def do_fill(self, n, w):
        self.t = [n[i % 4] for i in range(4096)]

    def do_table(self, n, w):
        return ": crc %04x" % crc16(b"".join(x.to_bytes(4, "little") for x in self.t))

    def do_numbers(self, n, w):
        return ":" + "".join(" %d" % x for x in self.t[:n[0]])

    def do_once(self, n, w):
        self.list[:] = once_maps()
        self.lent[3] = 70

    def do_rewritable(self, n, w):
        # a list that may not be written (lines 5 and 6) stays as it was
        ts = n[2:2 + n[0]]
        if 1 <= n[0] <= 4 and 56 <= n[1] <= 2048 and not any(t % 32 for t in ts) and len(set(ts)) == n[0]:
            self.list[:64] = rw_maps(ts, n[1])
        self.lent[3] = 64

    def do_list(self, n, w):
        self.list[n[0]] = n[1]

    def do_blocks(self, n, w):
        self.packet = bytearray((n[0] + i // 2048) % 256 for i in range(65537))

    def do_bytes(self, n, w):
        self.block = bytearray([n[0]]) * 2049

    def do_set8(self, n, w):
        self.block[n[0]] = n[1]

    def do_set16(self, n, w):
        self.block[n[0]:n[0] + 2] = n[1].to_bytes(2, "little")

    def do_set32(self, n, w):
        self.block[n[0]:n[0] + 4] = n[1].to_bytes(4, "little")

    def do_regid(self, n, w):
        self.block[n[0]:n[0] + 32] = regid(b"*UDF Virtual Alloc Tbl")

    def do_tagged(self, n, w):
        b = self.block[:2048]
        settag(b, n[0], n[1])
        self.block[:2048] = b

    def do_sum(self, n, w):
        self.block[4] = (sum(self.block[0:4]) + sum(self.block[5:16])) % 256

    # ---- calls
    def call(self, f):
        """f is lent the parts, in the order disc, map list, S, L, table"""
        d = Part(self.d, self.lent[0], self.lent[1])
        t = self.t[:self.lent[2]]
        try:
            r = f(d, bytes(self.list[:self.lent[3]]), self.on[0], self.on[1], t)
        except Refuse as e:
            return ": refused %d" % e.n
        except CutOff:
            d.back()
            return ": cut"
        d.back()
        self.t[:len(t)] = t
        return r

    def kind(self):
        try:
            return read_maps(bytes(self.list[:self.lent[3]]))[0]
        except Refuse:
            return "once"

    def writing(self, f):
        def g(d, m, s, l, t):
            self.rec = f(d, m, s, l, t)
            return rec_text(self.rec)
        return self.call(g)

    def do_make(self, n, w):
        def g(d, m, s, l, t):
            if self.kind() == "once":
                Once.make(d, m, s, l)
            else:
                Rw.make(d, m, s, l, n)
            return ": made"
        return self.call(g)


    def do_open(self, n, w):
        def g(d, m, s, l, t):
            r, passed = (Rw if self.kind() == "rw" else Once).open(d, m, s, l, t)
            self.rec = r
            return rec_text(r) + ", passed over %d" % passed
        return self.call(g)

    def do_read(self, n, w):
        def g(d, m, s, l, t):
            b = (Rw if self.kind() == "rw" else Once).read(d, m, s, l, t, self.rec, n[0], self.lent[4])
            self.block[:2048] = b
            return ": bytes %02x .., crc %04x" % (b[0], crc16(b))
        return self.call(g)

    def lent_block(self):
        return bytes(self.block[:self.lent[4]])

    def lent_packet(self):
        return bytes(self.packet[:self.lent[5]])

    def do_save(self, n, w):
        return self.writing(lambda d, m, s, l, t: Once.save(d, m, s, l, t, self.rec, n[0], self.lent_block(), self.cut))

    def do_free(self, n, w):
        return self.writing(lambda d, m, s, l, t: Once.free(d, m, s, l, t, self.rec, n[0]))

    def do_commit(self, n, w):
        return self.writing(lambda d, m, s, l, t: Once.commit(d, m, s, l, t, self.rec, self.cut))

    def do_fullness(self, n, w):
        return self.call(lambda d, m, s, l, t: ": per mille %d" % Once.fullness(d, m, s, l, t, self.rec))

    def do_forecast(self, n, w):
        v, step, count, saves = (n + [0] * 4)[:4]
        items, at = [], v
        while len(items) < count:
            if (len(items) + 1) % (saves + 1) == 0:
                items.append(0x80000000 + len(items))
            else:
                items.append(at)
                at = (at + (step != 0)) % (1 << 32)

        def g(d, m, s, l, t):
            try:
                return ": ends at NWA %d, N %d" % Once.forecast(d, m, s, l, t, self.rec, items)
            except Item as e:
                return ": item %d refused %d" % (e.i, e.n)
        return self.call(g)

    def do_change(self, n, w):
        return self.writing(lambda d, m, s, l, t: Rw.save(d, m, s, l, t, self.rec, n[0], self.lent_block(), self.cut))

    def do_packet(self, n, w):
        return self.writing(lambda d, m, s, l, t: Rw.save_packet(d, m, s, l, t, self.rec, n[0], self.lent_packet(), self.cut))

    def do_spare(self, n, w):
        return self.writing(lambda d, m, s, l, t: Rw.spare(d, m, s, l, t, self.rec, n[0], self.lent_packet(), self.cut))


if __name__ == "__main__":
    m = Machine()
    for text in sys.stdin.read().split("\n")[:-1]:
        print(m.line(text))
