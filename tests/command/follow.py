"""A line that is followed by the rules alone (docs/RULES.md): which event is accepted, which job is chosen, and what becomes of each job."""
import struct

LIMIT = 10**12
TICK, RELEASE, COMPLETION = range(3)


class Job:
    def __init__(self, place, number, release, deadline, cls, since):
        self.place, self.number, self.release, self.deadline, self.cls, self.since = place, number, release, deadline, cls, since
        self.state, self.closed, self.event = "open", None, None


class Task:
    """One task: numbers of the table, level, run, and all of its jobs."""

    def __init__(self, place, C, D, T, m, K):
        self.place, self.C, self.D, self.T, self.m, self.K = place, C, D, T, m, K
        self.w, self.h = (max(m // (K - m), 1), -((m - K) // m)) if m else (0, 1)
        self.level, self.run, self.jobs, self.broken = 1 - self.h, 0, [], 0

    def open(self):
        return self.jobs[-1] if self.jobs and self.jobs[-1].state == "open" else None

    def missed(self, last):
        return sum(job.state == "missed" for job in [job for job in self.jobs if job.state != "open"][-last:])

    def close(self, state, time, event):
        """Rules, C5, C6 and W3."""
        job = self.open()
        job.state, job.closed, job.event = state, time, event
        if state == "met":
            self.level, self.run = min(self.level + 1, self.K - self.m if self.m else 0), 0
        elif max(self.level, 0) == 0 or self.run + 1 == self.w:
            self.level, self.run = 1 - self.h, 0
        else:
            self.run += 1
        self.broken = self.broken or (job.number if self.missed(self.K) > self.m else 0)

    def last_line(self):
        met, missed = (sum(job.state == state for job in self.jobs) for state in ("met", "missed"))
        return f"task {self.place} met {met} missed {missed} open {int(bool(self.open()))} window {self.missed(self.K)} broken {self.broken}"


class Line:
    """All tasks, the clock, and each answer as the listing writes it."""

    def __init__(self, tasks):
        self.tasks = [Task(place, *numbers) for place, numbers in enumerate(tasks)]
        self.clock, self.events, self.answers, self.clocks = 0, [], [], []
        self.choices = [(0, None)]  # from when on which job is the choice
        self.spans = None  # by job, worked out once the log has ended

    def refused(self, kind, place, number, time):
        """The number of the refusal, or 0 (Rules, O3); 11 and 12 look at what step 1 leaves."""
        if time > LIMIT or time < self.clock:
            return 9
        if place >= len(self.tasks):
            return 10
        task = self.tasks[place]
        if kind == RELEASE and task.jobs and time < task.jobs[-1].release + task.T:
            return 11
        job = task.open()
        if kind == COMPLETION and (job is None or job.deadline < time or job.number != number):
            return 12
        return 0

    def apply(self, kind, place, number, time):
        self.events.append((kind, place, number, time))
        self.clocks.append(self.clock)
        count, refused = len(self.events), self.refused(kind, place, number, time)
        if refused:
            self.answers.append(f"event {count} refused {refused}")
            return refused
        self.clock = time
        for task in self.tasks:
            if task.open() and task.open().deadline < time:
                task.close("missed", time, count)
        task = self.tasks[place]
        if kind == RELEASE:
            if task.open():
                task.close("missed", time, count)
            task.jobs.append(Job(place, len(task.jobs) + 1, time, time + task.D, max(task.level, 0), count))
        elif kind == COMPLETION:
            task.close("met", time, count)
        job = self.choice()
        self.choices.append((time, job))
        self.answers.append(f"event {count} run {job.place} class {job.cls}" if job else f"event {count} idle")
        return 0

    def choice(self):
        """Rules, H1."""
        return min(filter(None, (task.open() for task in self.tasks)), key=lambda job: (job.cls, self.tasks[job.place].D, job.place), default=None)

    def now(self):
        """The last time of the log: the clock, or that of an event that was refused for another reason than its time."""
        refused = zip(self.events, self.answers)
        return max([self.clock, *(event[3] for event, answer in refused if "refused" in answer and not answer.endswith(" 9"))])

    def chosen(self, job):
        """From when to when a job was the choice before its deadline, up to the last time (Rules, P1)."""
        if self.spans is None:
            self.spans, ends = {}, [time for time, _ in self.choices[1:]] + [self.now()]
            for (start, chosen), end in zip(self.choices, ends):
                self.spans.setdefault(chosen, []).append((start, end))
        return [(start, min(end, job.deadline)) for start, end in self.spans.get(job, []) if start < min(end, job.deadline)]

    def jobs(self):
        return [job for task in self.tasks for job in task.jobs]

    def lines(self):
        """The listing without its first lines, of a log that reads to its end."""
        return self.answers + [task.last_line() for task in self.tasks]


def followed(raw):
    """The line of an input whose table is lawful, up to the end of the log or the first record that does not read."""
    line = Line(struct.unpack_from("<IIIBB", raw, 3 + 16 * place) for place in range(raw[0]))
    for at in range(1 + 16 * raw[0], len(raw) - 19, 20):
        mark, kind, place, number, time = struct.unpack_from("<2sBBQQ", raw, at)
        if mark != b"EV" or kind > 2 or kind != COMPLETION and number or kind == TICK and place:
            break
        line.apply(kind, place, number, time)
    return line


def packed(tasks, events):
    """The bytes of a table and a log."""
    table = b"".join(struct.pack("<2sIIIBB", b"TK", *task) for task in tasks)
    return bytes([len(tasks)]) + table + b"".join(struct.pack("<2sBBQQ", b"EV", *event) for event in events)
