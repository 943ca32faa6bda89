#!/usr/bin/env python3
"""runs.py FOLDER: makes the run cases, stdin and stdout of crates/case_runs, from the rules alone.

It makes the same files every time."""
import math
import random
import struct
import sys

from frames import store

LIMIT = 10**12


class Task:
    def __init__(self, c, d, t, m, k):
        self.c, self.d, self.t, self.m, self.k = c, d, t, m, k
        self.w = 0 if m == 0 else max(1, math.floor(m / (k - m)))
        self.h = 1 if m == 0 else math.ceil((k - m) / m)
        self.top = 0 if m == 0 else k - m
        self.level, self.run = 1 - self.h, 0
        self.last = None
        self.number = 0
        self.open = None  # class of the open job
        self.outcomes = []  # True for met, oldest first
        self.broken = 0

    def copy(self):
        other = Task(self.c, self.d, self.t, self.m, self.k)
        other.__dict__.update(self.__dict__)
        other.outcomes = list(self.outcomes)
        return other

    def window(self):
        return self.outcomes[-self.k :].count(False)

    def close(self, met):
        job_class = max(0, self.level)
        if met:
            self.level, self.run = min(self.level + 1, self.top), 0
        elif job_class == 0 or self.run + 1 >= self.w:
            self.level, self.run = 1 - self.h, 0
        else:
            self.run += 1
        self.outcomes.append(met)
        if self.broken == 0 and self.window() > self.m:
            self.broken = self.number
        self.open = None


def event(tasks, clock, kind, k, job, time):
    """The answer, the tasks and the clock afterwards."""
    if time > LIMIT or time < clock:
        return " refused 9", tasks, clock
    after = [x.copy() for x in tasks]
    for x in after:
        if x.open is not None and x.last + x.d < time:
            x.close(False)
    if kind:
        if k >= len(after):
            return " refused 10", tasks, clock
        x = after[k]
        if kind == 1:
            if x.last is not None and time < x.last + x.t:
                return " refused 11", tasks, clock
            if x.open is not None:
                x.close(False)
            x.number += 1
            x.last, x.open = time, max(0, x.level)
        else:
            if x.open is None or x.number != job:
                return " refused 12", tasks, clock
            x.close(True)
    return choice(after), after, time


def choice(tasks):
    ranked = [(x.open, x.d, p) for p, x in enumerate(tasks) if x.open is not None]
    if not ranked:
        return " idle"
    c, _, p = min(ranked)
    return f" run {p} class {c}"


def read(log):
    """The events of a log, and what ended the reading: nothing, or the refusal and the offset of the record that does not read."""
    events, at = [], 0
    while at < len(log):
        part = log[at : at + 20]
        if len(part) < 20:
            return events, f" stop 5 at {at}"
        if part[:2] != b"\x45\x56":
            return events, f" stop 6 at {at}"
        kind, k, job, time = struct.unpack("<BBQQ", part[2:])
        if kind > 2:
            return events, f" stop 7 at {at}"
        if (kind < 2 and job != 0) or (kind == 0 and k != 0):
            return events, f" stop 8 at {at}"
        events.append((kind, k, job, time))
        at += 20
    return events, ""


def ruled(c, d, t, m, k):
    return 1 <= c <= d <= t <= 10**6 and 1 <= k <= 64 and m < k and (m > 0 or k == 1)


def told(rows, log):
    events, stop = read(log)
    if not all(ruled(*r) for r in rows):
        # a refused table starts a state of no tasks, which is not sound: 15 before all, and nothing of the log is read
        return [" refused 15"] * len(events) + ["last refused 15 clock 0 stop 15 at 0"]
    tasks, clock, lines, last = [Task(*r) for r in rows], 0, [], " idle"
    for kind, k, job, time in events:
        last, tasks, clock = event(tasks, clock, kind, k, job, time)
        lines.append(last)
    for x in tasks:
        lines.append(
            f" met {x.outcomes.count(True)} missed {x.outcomes.count(False)} open {int(x.open is not None)}"
            f" class {max(0, x.level)} run {x.run} window {x.window()} broken {x.broken}"
        )
    return lines + [f"last{last} clock {clock}{stop}"]


def record(kind, k, job, time, mark=b"\x45\x56"):
    return mark + struct.pack("<BBQQ", kind, k, job, time)


def written(events):
    return b"".join(record(*e) for e in events)


def sequence(m, k, outcomes):
    """One task whose jobs are met or missed as told: T = D = 10, released each 10 ticks."""
    events = []
    for n, met in enumerate(outcomes):
        events.append((1, 0, 0, 10 * n))
        if met:
            events.append((2, 0, n + 1, 10 * n + 10 if n % 2 else 10 * n + 3))
    return [(1, 10, 10, m, k)], events + [(0, 0, 0, 10 * len(outcomes) + 11)]


def guided(r):
    """Several tasks; events that are mostly accepted, with jobs that are late, early, of a wrong number or too soon."""
    rows = []
    for _ in range(r.choice([1, 2, 3, 5, 16])):
        c = r.randint(1, 4)
        d = c + r.randint(0, 8)
        k = r.choice([1, 2, 3, 5, 64, r.randint(2, 9)])
        rows.append((c, d, d + r.choice([0, 0, 1, 5]), 0 if k == 1 else r.randint(1, k - 1), k))
    events, time, jobs = [], 0, [0] * len(rows)
    for _ in range(r.choice([10, 30, 60])):
        time = max(0, time + r.choice([0, 0, 1, 1, 2, 3, 7, -1]))
        k = r.randrange(len(rows) + (r.random() < 0.05))
        kind = r.choice([0, 1, 1, 1, 2, 2])
        if kind == 0:
            events.append((0, 0, 0, time))
        elif kind == 1:
            events.append((1, k, 0, time))
        else:
            # the number of the job that the model has open, now and then another
            tasks, clock = [Task(*row) for row in rows], 0
            for e in events:
                _, tasks, clock = event(tasks, clock, *e)
            job = tasks[k].number if k < len(rows) else 1
            events.append((2, k, max(0, job + r.choice([0, 0, 0, 0, 1, -1])), time))
    return rows, events


def cases():
    r = random.Random(7)
    yield [(2, 4, 4, 1, 2), (3, 7, 8, 1, 3)], [
        (1, 0, 0, 0), (1, 1, 0, 0), (2, 0, 1, 2), (1, 0, 0, 3), (1, 0, 0, 4), (2, 1, 1, 5), (2, 0, 1, 6), (0, 0, 0, 9)
    ]
    yield [(1, 1, 1, 0, 1)], []
    yield [(1, 4, 4, 1, 2)], [(1, 0, 0, 0), (2, 0, 1, 5), (2, 0, 1, 4)]
    yield [(1, 4, 4, 1, 2)], [(1, 0, 0, 0), (1, 0, 0, 4), (2, 0, 1, 4), (2, 0, 2, 8)]
    yield [(1, 5, 5, 1, 2), (1, 5, 5, 1, 2)], [(1, 1, 0, 0), (1, 0, 0, 0), (2, 0, 1, 1)]
    yield [(1, 1, 5, 0, 1)], [(1, 0, 0, LIMIT), (0, 0, 0, LIMIT), (0, 0, 0, LIMIT + 1), (2, 0, 1, LIMIT), (1, 0, 0, LIMIT)]
    for m, k in ((1, 3), (2, 3), (2, 5), (3, 5), (0, 1)):
        for bits in range(32):
            yield sequence(m, k, [bits >> i & 1 == 1 for i in range(5)])
    yield sequence(63, 64, [i % 64 == 0 for i in range(100)])
    yield sequence(63, 64, [False] * 70)
    yield sequence(1, 64, [i != 70 for i in range(140)])
    for _ in range(12):
        yield guided(r)


def damaged():
    """Logs with a record that does not read, of every number, at the front, between events that read and behind them."""
    rows = [(2, 4, 4, 1, 2), (3, 7, 8, 1, 3)]
    good = [(1, 0, 0, 0), (1, 1, 0, 0), (2, 0, 1, 2)]
    bad = [
        record(1, 0, 0, 4, b"\x44\x56"), record(1, 0, 0, 4, b"\x45\x57"), record(3, 0, 0, 4), record(0, 1, 0, 4), record(0, 0, 1, 4),
        record(1, 0, 1, 4), record(3, 0, 1, 4, b"\x45\x45"), record(255, 1, 1, 4), record(1, 0, 0, 4)[:1], record(1, 0, 0, 4)[:19], b"\x00" * 19
    ]
    for wrong in bad:
        for n in range(len(good) + 1):
            yield rows, written(good[:n]) + wrong + (written(good[n:]) if len(wrong) == 20 else b"")
    for log in b"", written(good), bad[0], written(good) + bad[0]:
        yield [(2, 1, 4, 1, 2)], log


def main():
    parts, lines = [], []
    for rows, log in [(rows, written(events)) for rows, events in cases()] + list(damaged()):
        table = b"".join(b"\x54\x4b" + struct.pack("<IIIBB", *row) for row in rows)
        parts += [table, log]
        lines += told(rows, log)
    store(sys.argv[1], parts, lines)


main()
