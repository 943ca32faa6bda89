#!/usr/bin/env python3
"""tables.py FOLDER: makes the table cases, stdin and stdout of crates/case_tables, worked out from the rules alone.

It makes the same files every time."""
import math
import random
import struct
import sys

from frames import store

LIMIT = 1_000_000


def record(c, d, t, m, k, mark=b"\x54\x4b"):
    return mark + struct.pack("<IIIBB", c, d, t, m, k)


def times_hold(c, d, t):
    return 1 <= c <= d <= t <= LIMIT


def misses_hold(m, k):
    return 1 <= k <= 64 and m < k and (m != 0 or k == 1)


def thresholds(m, k):
    if m == 0:
        return 0, 1, 0
    return max(1, math.floor(m / (k - m))), math.ceil((k - m) / m), k - m


def told(data):
    """The line that the rules ask for."""
    if len(data) % 16 or not 1 <= len(data) // 16 <= 16:
        return "refused 1 at 0"
    rows = []
    for p in range(len(data) // 16):
        row = data[16 * p : 16 * p + 16]
        c, d, t, m, k = struct.unpack("<IIIBB", row[2:])
        if row[:2] != b"\x54\x4b":
            return f"refused 2 at {p}"
        if not times_hold(c, d, t):
            return f"refused 3 at {p}"
        if not misses_hold(m, k):
            return f"refused 4 at {p}"
        rows.append("/".join(str(x) for x in thresholds(m, k)))
    written = ["accepted", "accepted", "refused 14 at 0", "refused 1 at 0", "refused 1 at 0"]
    return "accepted " + " ".join(rows) + "".join(f", {w} as told" for w in written)


def good(r):
    c = r.choice([1, 2, 7, r.randint(1, 1000), LIMIT])
    d = r.choice([c, r.randint(c, LIMIT)])
    t = r.choice([d, LIMIT, r.randint(d, LIMIT)])
    k = r.choice([1, 2, 3, 5, 63, 64, r.randint(1, 64)])
    m = 0 if k == 1 else r.choice([1, k - 1, r.randint(1, k - 1)])
    return c, d, t, m, k


def edges():
    """Values at both sides of every rule."""
    for k in range(1, 65):
        for m in ([0] if k == 1 else [1, k - 1, k // 2 or 1]):
            yield 1, 1, 1, m, k
    for row in [
        (0, 1, 1, 0, 1), (1, 0, 1, 0, 1), (1, 1, 0, 0, 1), (2, 1, 2, 0, 1), (1, 2, 1, 0, 1),
        (LIMIT, LIMIT, LIMIT, 0, 1), (1, LIMIT, LIMIT + 1, 0, 1), (1, 1, 2**32 - 1, 0, 1),
        (2**32 - 1, 2**32 - 1, 2**32 - 1, 255, 255), (1, 1, 1, 0, 0), (1, 1, 1, 0, 2), (1, 1, 1, 1, 1),
        (1, 1, 1, 2, 1), (1, 1, 1, 64, 65), (1, 1, 1, 1, 65), (1, 1, 1, 63, 64), (1, 1, 1, 1, 64),
        (1, 1, 1, 255, 255), (1, 1, 1, 254, 255), (0, 0, 0, 0, 0), (0, 1, 1, 5, 5), (1, 1, 256, 1, 2), (256, 65536, 65537, 1, 2),
    ]:
        yield row


def cases():
    r = random.Random(1)
    yield b""
    for n in (1, 15, 16, 17, 31, 33, 255, 257, 272, 300):
        yield bytes(r.randrange(256) for _ in range(n))
    for row in edges():
        yield record(*row)
    for mark in (b"\x4b\x54", b"\x54\x00", b"\x00\x4b", b"\x45\x56"):
        yield record(1, 1, 1, 0, 1, mark)
    for _ in range(60):
        yield b"".join(record(*good(r)) for _ in range(r.choice([1, 2, 3, 16])))
    spoilt = [(0, 1, 1, 0, 1), (1, 1, 1, 3, 3), (5, 4, 9, 9, 9), (1, 1, 2**31, 1, 2)]
    for _ in range(120):
        rows = [record(*good(r)) for _ in range(r.choice([2, 5, 16]))]
        for _ in range(r.choice([1, 1, 2])):
            p = r.randrange(len(rows))
            rows[p] = r.choice([record(*r.choice(spoilt)), record(*good(r), mark=b"TJ"), record(*r.choice(spoilt), mark=b"KT")])
        yield b"".join(rows)[: r.choice([None, None, None, -1])]


def main():
    parts, lines = [], []
    for case in cases():
        parts.append(case)
        lines.append(told(case))
    store(sys.argv[1], parts, lines)


main()
