"""What is drawn, and where along the axis: jobs, the stretches of the choice, refused events, and the part of the log that was asked for."""
from collections import namedtuple
from itertools import groupby

from .axis import Axis
from .records import TICK
from .refusals import of_event
from .wrong import Wrong

# a part of a stretch: `late` where the job is past its deadline, at which its chosen time ends
Part = namedtuple("Part", "start end job late")
Refused = namedtuple("Refused", "number event refusal at why")


def refused_of(given):
    """The refused events, each at its own time, or at the clock where the time itself is refused (9)."""
    for number, (event, answer, clock) in enumerate(zip(given.events, given.listing.answers, given.clocks), 1):
        if answer.refused:
            yield Refused(number, event, answer.refused, clock if answer.refused == 9 else event.time, of_event(answer.refused, event, clock))


def together(stretches):
    """Neighbouring stretches of one job as one: an event between them left the choice as it was."""
    for job, row in groupby(stretches, key=lambda stretch: stretch[2]):
        row = list(row)
        yield row[0][0], row[-1][1], job


class Scene:
    """A history as it is drawn from tick `start` to tick `end`; None for the log's own."""

    def __init__(self, history, start=None, end=None):
        self.history, self.given = history, history.given
        self.refused = list(refused_of(self.given))
        self.ticks = [e.time for e, a in zip(self.given.events, self.given.listing.answers) if e.kind == TICK and not a.refused]
        self.now = history.now
        self.parts = list(self.parts_of())
        self.window(start, end)

    def parts_of(self):
        """The stretches cut at deadlines. The last choice stands up to the end of the log."""
        for start, end, job in together(self.history.until_now()):
            if job and start < min(end, job.deadline):
                yield Part(start, min(end, job.deadline), job, False)
            if job and max(start, job.deadline) < end:
                yield Part(max(start, job.deadline), end, job, True)

    def window(self, start, end):
        """The axis over all that happens from start to end."""
        jobs = self.history.jobs()
        marks = {0, self.now, *(event.time for event in self.given.events if event.time <= self.now)}
        marks |= {refused.at for refused in self.refused} | {job.deadline for job in jobs}
        self.start = 0 if start is None else start
        self.end = max(marks) if end is None else end
        if start is not None and start >= max(marks):
            raise Wrong(f"brumerola timeline: nothing is drawn from {start} on, since the log ends at {max(marks)}; give --from a smaller time")
        if end is not None and end <= self.start:
            raise Wrong(f"brumerola timeline: --to {end} has to be after the first tick that is drawn, {self.start}")
        self.end, self.part = min(self.end, max(marks)), (start, end) != (None, None)
        self.whole = max(marks)
        marks = {mark for mark in marks if self.start <= mark <= self.end} | {self.start, self.end}
        self.axis = Axis(marks | {self.start + 1})
        self.jobs = [job for job in jobs if job.release <= self.end and self.over(job) >= self.start]

    def inside(self, time):
        """The tick of the part that is drawn which is nearest to a time."""
        return min(max(time, self.start), self.end)

    def over(self, job):
        """The last tick at which something of the job is drawn."""
        return max(job.deadline, self.now if job.met is None else job.closed)

    def place(self):
        """Works out once, when the axis is as wide as it will be, from where to where each job and each part reaches."""
        self.job_spans = [(self.axis.at(job.release), self.axis.at(self.over(job)), job) for job in self.jobs]
        self.part_spans = [(self.axis.at(part.start), self.axis.at(part.end), part) for part in self.parts]


def within(spans, first, last):
    """Of what reaches from place to place, that which has something from `first` to `last`."""
    return [one for begin, end, one in spans if begin <= last and end >= first]
