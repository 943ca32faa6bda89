#!/usr/bin/env python3
"""bounds.py FOLDER: makes the bound cases, stdin and stdout of crates/case_bounds, worked out from the rules alone.

Every R from 1 to D is tried in turn. It makes the same files every time."""
import random
import struct
import sys

from frames import store

LIMIT = 1_000_000


def record(c, d, t, m, k):
    return b"\x54\x4b" + struct.pack("<IIIBB", c, d, t, m, k)


def bound(rows, k):
    """The smallest R from 1 to D with R >= C plus ceil(R / T) times C of each task above, or None."""
    c, d = rows[k][0], rows[k][1]
    above = [row for i, row in enumerate(rows) if row[1] < d or (row[1] == d and i < k)]
    for r in range(1, d + 1):
        if r >= c + sum(-(-r // row[2]) * row[0] for row in above):
            return r
    return None


def row_of(cells, room):
    """A row of 20 lent cells, so many of which the callee may write; a point is a cell as it was lent."""
    assert len(cells) <= room
    return "".join(f"{x} " for x in cells) + "." * (20 - len(cells))


def all_into(bounds, room):
    if room < len(bounds):
        return f", refused 14 at 0 {row_of([], room)}"
    if None in bounds:
        return f", refused 13 at {bounds.index(None)} {row_of([], room)}"
    return f", accepted {row_of(bounds, room)}"


def refused(number, position, room):
    """One bound asked, then all: the table's own refusal comes first in both."""
    return f" refused {number} at {position}, refused {number} at {position} {row_of([], room)}"


def told(rows):
    """The line that the rules ask for."""
    n = len(rows)
    bounds = [bound(rows, k) for k in range(n)]
    line = "accepted"
    for b in bounds:
        line += " -" if b is None else f" {b}"
    for k in (n, 2**64 - 1):
        line += f" refused 10 at {k}"
    for room in (20, n, n - 1):
        line += all_into(bounds, room)
    return line + refused(1, 0, 0) + refused(1, 0, 20) + refused(3, n - 1, 0) + refused(4, n - 1, 20)


def task(r, most):
    t = r.randint(1, most)
    d = r.choice([t, t, r.randint(1, t)])
    c = r.choice([1, r.randint(1, d), r.randint(1, max(1, d // 4)), r.randint(1, max(1, d // 8))])
    k = r.choice([1, 2, 3, 64])
    return c, d, t, (0 if k == 1 else r.randint(1, k - 1)), k


def light(r, n):
    """Tasks that nearly fill the time between them, so that many searches end near the deadline."""
    t = r.choice([12, 24, 60, 120, 240])
    rows = []
    for i in range(n):
        spacing = r.choice([t, t, 2 * t, 3 * t, t + 1])
        rows.append((r.randint(1, max(1, 2 * spacing // n)), r.choice([spacing, spacing - 1, spacing // 2 + 1]), spacing))
    return [(min(c, d), d, s, 1, 2) for c, d, s in rows]


def edges():
    yield [(2, 4, 4, 1, 2), (3, 7, 8, 1, 3)]
    yield [(2, 4, 4, 1, 2), (3, 6, 8, 1, 3)]
    yield [(1, 1, 5, 3, 4), (1, 1, 6, 1, 2), (1, 3, 3, 3, 4)]
    yield [(1, 1, 1, 0, 1)]
    yield [(LIMIT, LIMIT, LIMIT, 0, 1)]
    yield [(LIMIT // 2, LIMIT, LIMIT, 0, 1)] * 2
    yield [(LIMIT // 2, LIMIT, LIMIT, 0, 1), (LIMIT // 2 + 1, LIMIT, LIMIT, 0, 1)]
    yield [(1, 20000, LIMIT, 0, 1), (1, 1, 1, 0, 1)]
    yield [(1, 16, 16, 1, 2)] * 16
    yield [(1, 15, 16, 1, 2)] * 16
    yield [(1, 15, 15, 1, 2)] * 15 + [(1, 1, 15, 1, 2)]
    # equal D in both orders, and D against position
    for c in (1, 2, 3):
        yield [(c, 6, 9, 1, 2), (4 - c, 6, 7, 1, 2)]
        yield [(c, 7, 9, 1, 2), (4 - c, 6, 7, 1, 2)]
        yield [(c, 6, 9, 1, 2), (4 - c, 7, 7, 1, 2)]
    # a bound at D itself, one tick short of it and one tick past it
    for d in (6, 7, 8):
        yield [(2, 4, 4, 1, 2), (3, d, 8, 1, 2)]
    for d in (9, 10, 11):
        yield [(1, 2, 2, 1, 2), (1, 5, 5, 1, 2), (3, d, 11, 1, 2)]


def cases():
    r = random.Random(2)
    yield from edges()
    for _ in range(170):
        yield [task(r, r.choice([8, 30, 300])) for _ in range(r.choice([1, 2, 3, 4, 6, 16]))]
    for _ in range(170):
        yield light(r, r.choice([2, 3, 4, 5, 8, 16]))


def main():
    parts, lines = [], []
    for rows in cases():
        case = b"".join(record(*row) for row in rows)
        parts.append(case)
        lines.append(told(rows))
    # a table that does not read
    parts.append(record(0, 1, 1, 0, 1))
    lines.append("refused 3 at 0")
    store(sys.argv[1], parts, lines)


main()
