#!/usr/bin/env python3
"""logs.py FOLDER: makes the log cases, stdin and stdout of crates/case_logs, from the rules alone.

The records are drawn from a generator with a fixed seed; what is expected of them is worked out here, from the bytes:
a record of 20 bytes, refusals 5, 6, 7, 8 in this order, an empty rest is the end."""
import sys

from frames import store

WRAP = 1 << 64
LIMIT = 10 ** 12


class Draw:
    """A linear congruential generator: the same numbers on every machine."""

    def __init__(self, seed):
        self.state = seed

    def below(self, n):
        self.state = (self.state * 6364136223846793005 + 1442695040888963407) % WRAP
        return (self.state >> 33) % n


def record(kind, task, job, time, mark=b"\x45\x56"):
    return mark + bytes([kind, task]) + job.to_bytes(8, "little") + time.to_bytes(8, "little")


def fault(kind, task, job):
    """0, or the refusal of an event value."""
    if kind > 2:
        return 7
    if kind == 0 and (task != 0 or job != 0):
        return 8
    if kind == 1 and job != 0:
        return 8
    return 0


def read(data):
    """What reading the front of `data` says: ('event', fields), ('end',) or ('refused', number)."""
    if len(data) == 0:
        return ("end",)
    if len(data) < 20:
        return ("refused", 5)
    if data[:2] != b"\x45\x56":
        return ("refused", 6)
    fields = (data[2], data[3], int.from_bytes(data[4:12], "little"), int.from_bytes(data[12:20], "little"))
    number = fault(*fields[:3])
    return ("refused", number) if number else ("event", fields)


def place(log, i):
    said = read(log[20 * i:])
    if said[0] == "event":
        return "event %d %d %d %d %d" % ((i,) + said[1])
    return "end" if said[0] == "end" else "refused %d %d 0 0 0" % (i, said[1])


def expected(k, log):
    found, at = [], 0
    while read(log[at:])[0] == "event":
        found.append(read(log[at:])[1])
        at += 20
    said = read(log[at:])
    stop = " end" if said[0] == "end" else " stop %d at %d" % (said[1], at)
    lines = ["log %d records %d%s" % (k, len(found), stop)]
    lines += [place(log, i) for i in range(len(found)) if i < 6 or i % 100 == 99]
    lines += [place(log, len(found)), place(log, WRAP - 1)]
    sums = [sum(e[f] for e in found) % WRAP for f in range(4)]
    lines.append("sums %d %d %d %d %d" % (*sums, len(found)))
    return lines


def good(draw):
    """A record that reads, with fields at the ends of their ranges now and then."""
    kind = draw.below(3)
    task = 0 if kind == 0 else (draw.below(16), draw.below(256), 255)[draw.below(3)]
    job = 0 if kind < 2 else (draw.below(50), draw.below(WRAP >> 31) * draw.below(1 << 31), WRAP - 1)[draw.below(3)]
    time = (draw.below(1000), draw.below(LIMIT + 1), LIMIT, WRAP - 1)[draw.below(4)]
    return record(kind, task, job, time)


def bad(draw, which):
    """A record that does not read, of each kind of fault."""
    time = draw.below(LIMIT)
    return (
        record(3, 0, 0, time),
        record(255, 1, 1, time),
        record(0, 1, 0, time),
        record(0, 0, 1, time),
        record(0, 0, 1 << 63, time),
        record(1, 3, 1, time),
        record(1, 0, 256, time),
        record(2, 1, 1, time, b"\x56\x45"),
        record(2, 1, 1, time, b"\x45\x00"),
        record(2, 1, 1, time, b"\x00\x56"),
        record(9, 9, 9, time, b"\x54\x4b"),
        b"\x45",
        b"\x45\x56\x03",
        b"\x00\x00\x00",
        record(2, 1, 1, time)[:19],
        record(3, 0, 0, time)[:10],
        b"",
    )[which]


def logs():
    draw = Draw(3)
    for which in range(17):
        for before in (0, 1, 1 + draw.below(4)):
            head = b"".join(good(draw) for _ in range(before))
            tail = good(draw) if which < 11 and draw.below(2) else b""
            yield head + bad(draw, which) + tail
    yield b"".join(good(draw) for _ in range(2960)) + bad(draw, 4) + good(draw)


def main():
    parts, lines = [], []
    for k, log in enumerate(logs(), 1):
        parts.append(log)
        lines += expected(k, log)
    store(sys.argv[1], parts, lines)


if __name__ == "__main__":
    main()
