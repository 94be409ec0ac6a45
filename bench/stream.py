#!/usr/bin/env python3
"""stream.py [BYTES]: writes a stream of TLCP lines of about so many bytes (50 MB) to standard output.

The stream is the same for the same size. It is traffic as a stock list makes it: eight subscriptions, then
mostly updates of few fields, some other notifications, and a small share of lines that are refused or passed.
To be quick, a stock of chunks is made once, and the stream repeats chunks of that stock.
"""
import random
import sys

CHUNK_SIZE = 64 * 1024
CHUNK_COUNT = 48
LINE_LIMIT = 1172

# The field counts of the eight subscriptions. Each chunk begins and ends with these, so chunks can follow in any order.
COUNTS = {1: 10, 2: 12, 3: 3, 4: 8, 5: 12, 6: 1, 7: 6, 8: 10}

NAMES = [b"Anduct", b"Ations Europe", b"Bagies Consulting", b"BAY Corporation", b"CON Consulting", b"Corcor PLC",
         b"CVS Asia", b"Datio PLC", b"Dentems", b"ELE Manufacturing", b"Soci%C3%A9t%C3%A9 du Lac", b"Z%C3%BCrcher Werk",
         b"Lind %26 Gr%C3%A5", b"A%7CB Holding", b"Moor%2C Hall", b"100%25 Wool", b"%23 Nine", b"%24 Fund"]


class Market:
    """Makes lines, and keeps the field counts that the updates have to cover."""

    def __init__(self, seed):
        self.random = random.Random(seed)
        self.counts = dict(COUNTS)
        self.second = self.random.randrange(86400)

    def value(self, field):
        """A new content of a field: first the time, then prices and amounts, the name last."""
        r = self.random
        if field == 0:
            self.second = (self.second + r.randrange(2)) % 86400
            return b"%02d:%02d:%02d" % (self.second // 3600, self.second // 60 % 60, self.second % 60)
        if field in (1, 4, 5, 7, 8, 9):
            return b"%d.%02d" % (r.randrange(1, 200), r.randrange(100))
        if field == 2:
            return b"%.2f" % r.uniform(-5, 5)
        if field == 11:
            return r.choice(NAMES)
        return b"%d" % (500 * r.randrange(1, 200))

    def content(self, field):
        """A value that changes its field, now and then to null or to an empty text."""
        k = self.random.random()
        if k < 0.015:
            return b"#"
        if k < 0.03:
            return b"$"
        if k < 0.06:
            return self.random.choice(NAMES)
        return self.value(field)

    def snapshot(self, id):
        values = [self.value(field) for field in range(self.counts[id])]
        return b"U,%d,1,%s" % (id, b"|".join(values))

    def values(self, id):
        """A few changed fields; runs of others are empty values or, if longer, mostly a caret."""
        r = self.random
        n = self.counts[id]
        changed = sorted(r.sample(range(n), min(n, r.choice([1, 1, 2, 2, 3, 3, 4, 5]))))
        out = []
        at = 0
        for field in changed + [n]:
            run = field - at
            if run > 3 or (run > 0 and r.random() < 0.1):
                out.append(b"^%d" % run)
            else:
                out += [b""] * run
            if field < n:
                out.append(self.content(field))
            at = field + 1
        return out

    def update(self, id):
        return b"U,%d,1,%s" % (id, b"|".join(self.values(id)))

    def subscription(self, id, count):
        self.counts[id] = count
        return b"SUBOK,%d,1,%d" % (id, count)

    def other(self):
        """A notification that is not of a row."""
        r = self.random
        id = r.randint(1, 8)
        kind = r.choices(range(12), [30, 30, 10, 10, 6, 4, 2, 2, 2, 2, 1, 1])[0]
        if kind == 0:
            return b"PROBE"
        if kind == 1:
            return b"SYNC,%d" % r.randrange(100000)
        if kind == 2:
            return b"CONF,%d,%s,filtered" % (id, r.choice([b"unlimited", b"1.5", b"10.0"]))
        if kind == 3:
            return b"EOS,%d,1" % id
        if kind == 4:
            return b"OV,%d,1,%d" % (id, r.randrange(1, 50))
        if kind == 5:
            return b"REQOK,%d" % r.randrange(1, 1000)
        if kind == 6:
            return b"REQERR,%d,%d,Subscription not found" % (r.randrange(1, 1000), r.choice([19, 21, -5]))
        if kind == 7:
            return b"CONS,%s" % r.choice([b"unlimited", b"unmanaged", b"40.0"])
        if kind == 8:
            return b"LOOP,%d" % r.choice([0, 500, 2000])
        if kind == 9:
            return r.choice([b"CLIENTIP,0:0:0:0:0:0:0:1", b"SERVNAME,Market%20Server, second"])
        if kind == 10:
            return b"CONOK,S%x,50000,5000,*" % r.randrange(1 << 60)
        return r.choice([b"CONERR,2,Requested Adapter Set not available", b"ERROR,68,Internal error", b"END,-3,closed%2C by the kernel"])

    def passed(self):
        """A line for a subscription that is not followed."""
        r = self.random
        id = r.randrange(9, 10000)
        return r.choice([b"U,%d,1,12:00:00|3.5|^7|x" % id, b"UNSUB,%d" % id, b"SUBOK,%d,1,4" % id])

    def refused(self):
        r = self.random
        id = r.randint(1, 8)
        kind = r.randrange(10)
        if kind == 0:
            return r.choice([b"U,0%d,1,a|b" % id, b"U,%d,2,a" % id, b"SYNC,-1", b"SYNC,1e3", b"EOS,10000,1", b"ERROR,-0,none", b"OV,%d,1," % id])
        if kind == 1:
            return b"U,%d,1,^%s" % (id, r.choice([b"", b"0", b"07", b"13", b"x"]))
        if kind == 2:
            return r.choice([b"CONS,4%0", b"ERROR,5,100%", b"CONF,1,%zz,filtered", b"SERVNAME,%4"])
        if kind == 3:
            values = self.values(id)
            values[0] = b"12:0%x:00"
            return b"U,%d,1,%s" % (id, b"|".join(values))
        if kind == 4:
            return r.choice([b"UPDATE,%d,1,a" % id, b"probe", b"", b"MPNREG,a,b", b"PROG,55", b"u,%d,1,a" % id])
        if kind == 5:
            return r.choice([b"U,%d,1" % id, b"SUBOK,%d,1" % id, b"SYNC", b"CONOK,S1,50000", b"PROBE,1", b"UNSUB"])
        if kind == 6:
            return b"U,%d,1,%s" % (id, b"|".join([b"1.5"] * (self.counts[id] + r.choice([-1, 1]))))
        if kind == 7:
            return b"U,%d,1,12:00:00|^%d" % (id, r.choice([self.counts[id], 12]))
        if kind == 8:
            values = self.values(id)
            values[0] = b"x" * r.randrange(33, 60)
            return b"U,%d,1,%s" % (id, b"|".join(values))
        return b"SUBOK,%d,1,%d" % (id, r.choice([0, 13, 100]))

    def long(self):
        """A line over the limit, or just within it."""
        r = self.random
        front = r.choice([b"CONS,", b"U,2,1,", b"ERROR,1,"])
        size = r.choice([LINE_LIMIT, LINE_LIMIT + 1, r.randrange(LINE_LIMIT, 3 * LINE_LIMIT)])
        return front + b"z" * (size - len(front))

    def lines(self):
        """The next line, or the few that belong together."""
        k = self.random.random()
        id = self.random.randint(1, 8)
        if k < 0.035:
            return [self.other()]
        if k < 0.040:
            return [self.passed()]
        if k < 0.042:
            count = self.random.choice([COUNTS[id], self.random.randint(1, 12)])
            return [self.subscription(id, count), self.snapshot(id)]
        if k < 0.0425:
            return [self.long()]
        if k < 0.050:
            return [self.refused()]
        return [self.update(id)]

    def ended(self, lines):
        # The protocol ends lines with CR LF; a reader has to take LF alone as well.
        return b"".join(line + (b"\n" if self.random.random() < 0.02 else b"\r\n") for line in lines)

    def opening(self):
        lines = [b"CONOK,S7c1f6d3aa24,50000,5000,*", b"SERVNAME,Market Server", b"CLIENTIP,127.0.0.1", b"CONS,unlimited"]
        for id, count in COUNTS.items():
            lines += [self.subscription(id, count), b"CONF,%d,unlimited,filtered" % id, self.snapshot(id)]
        return self.ended(lines)

    def chunk(self):
        out = []
        size = 0
        while size < CHUNK_SIZE:
            some = self.ended(self.lines())
            out.append(some)
            size += len(some)
        for id, count in COUNTS.items():
            if self.counts[id] != count:
                out.append(self.ended([self.subscription(id, count), self.snapshot(id)]))
        return b"".join(out)


def main():
    wanted = int(sys.argv[1]) if len(sys.argv) > 1 else 50_000_000
    out = sys.stdout.buffer
    market = Market("market")
    opening = market.opening()
    # The last subscription ends, and the last line has no end.
    closing = b"UNSUB,8\r\nU,8,1,^10\r\nLOOP,0"
    left = wanted - len(opening) - len(closing)
    chunks = [market.chunk() for _ in range(max(1, min(CHUNK_COUNT, left // CHUNK_SIZE + 1)))]
    out.write(opening)
    while left > 0:
        chunk = market.random.choice(chunks)
        if len(chunk) > left:
            # The last chunk is cut behind a line.
            chunk = chunk[:chunk.rfind(b"\n", 0, left) + 1]
            left = 0
        out.write(chunk)
        left -= len(chunk)
    out.write(closing)


if __name__ == "__main__":
    main()
