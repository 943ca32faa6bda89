"""What became of each job.

The listing prints what is accepted, refused and chosen; which job closed as missed follows from the accepted releases and completions.
Every count that is worked out here is held to the listing's own, at each run: a difference is an error."""
from collections import namedtuple

from .records import COMPLETION, RELEASE
from .wrong import Wrong

# a stretch of time for which one job was the choice, up to the next accepted event; `job` is None while nothing was open
Stretch = namedtuple("Stretch", "start end job")


class Job:
    """A job of a task. `since` is the number of its release event, `by` that of the event that closed it; `met` is None while it is open."""

    def __init__(self, task, number, release, deadline, cls, since):
        self.task, self.number, self.release, self.deadline, self.cls, self.since = task, number, release, deadline, cls, since
        self.met = self.closed = self.by = None


class Course:
    """One task: its jobs, its level and run, and what they leave in its window (Rules, "Thresholds and classes" and "Window")."""

    def __init__(self, task, first):
        self.task, self.first = task, first
        self.level, self.run = 1 - first.h, 0
        self.jobs, self.outcomes, self.broken = [], [], 0

    @property
    def open(self):
        """The open job, or None."""
        return self.jobs[-1] if self.jobs and self.jobs[-1].met is None else None

    def release(self, place, time, by):
        if self.open:
            self.close(False, time, by)
        self.jobs.append(Job(place, len(self.jobs) + 1, time, time + self.task.D, max(self.level, 0), by))

    def close(self, met, time, by):
        job = self.open
        job.met, job.closed, job.by = met, time, by
        top = self.task.K - self.task.m if self.task.m else 0
        if met:
            self.level, self.run = min(self.level + 1, top), 0
        elif self.level <= 0 or self.run + 1 >= self.first.w:
            self.level, self.run = 1 - self.first.h, 0
        else:
            self.run += 1
        self.outcomes.append(met)
        if self.window() > self.task.m and not self.broken:
            self.broken = job.number

    def window(self):
        return self.outcomes[-self.task.K :].count(False)

    def last(self):
        """The numbers of the task's last line."""
        return self.outcomes.count(True), self.outcomes.count(False), int(self.open is not None), self.window(), self.broken


class History:
    """The jobs of all tasks, and the stretches of the choice up to the last accepted event."""

    def __init__(self, given):
        self.given = given
        self.courses = [Course(task, first) for task, first in zip(given.tasks, given.listing.first)]
        self.stretches, self.accepted = [], 0  # `accepted` counts accepted events
        self.clock, self.choice = 0, None
        for number, (event, answer) in enumerate(zip(given.events, given.listing.answers), 1):
            if not answer.refused:
                self.take(number, event, answer)
        # the last time of the log: of an accepted event, or of one that was refused for another reason than its time
        late = (event.time for event, answer in zip(given.events, given.listing.answers) if answer.refused not in (0, 9))
        self.now = max([self.clock, *late])
        self.hold_last()

    def until_now(self):
        """The stretches up to the end of the log: the last choice stands."""
        return [*self.stretches, Stretch(self.clock, self.now, self.choice)]

    def take(self, number, event, answer):
        """One accepted event: late jobs close, then it releases or completes; the choice is the one that was printed."""
        self.accepted += 1
        if event.time > self.clock:
            self.stretches.append(Stretch(self.clock, event.time, self.choice))
        self.clock = event.time
        for course in self.courses:
            if course.open and course.open.deadline < event.time:
                course.close(False, event.time, number)
        if event.kind == RELEASE:
            self.courses[event.task].release(event.task, event.time, number)
        elif event.kind == COMPLETION:
            job = self.courses[event.task].open
            if job is None or job.number != event.job:
                raise differs(f"event {number} was accepted, and no job {event.job} is open")
            self.courses[event.task].close(True, event.time, number)
        self.choice = self.chosen(number, answer)

    def chosen(self, number, answer):
        """The job that the answer names: the first of the open ones by class, D and position, with the class that was printed (Rules, "Choice")."""
        open_jobs = [course.open for course in self.courses if course.open]
        job = min(open_jobs, key=lambda job: (job.cls, self.given.tasks[job.task].D, job.task), default=None)
        if (answer.run, answer.cls) != (job.task if job else None, job.cls if job else None):
            said = "idle" if answer.run is None else f"run {answer.run} class {answer.cls}"
            first = f"job {job.number} of task {job.task} in class {job.cls} is first" if job else "no job is open"
            raise differs(f"event {number} is answered {said}, and {first}")
        return job

    def hold_last(self):
        """The counts of the jobs are those of the listing's last lines."""
        for place, (course, last) in enumerate(zip(self.courses, self.given.listing.last)):
            if course.last() != tuple(last):
                raise differs(f"task {place} ends with {' '.join(map(str, last))}, and its jobs add up to {' '.join(map(str, course.last()))}")

    def jobs(self):
        return [job for course in self.courses for job in course.jobs]

    def missed(self):
        """The missed jobs by deadline."""
        return sorted((job for job in self.jobs() if job.met is False), key=lambda job: (job.deadline, job.task))


def differs(words):
    return Wrong(f"brumerola: the listing and the history of its jobs differ: {words}; nothing is drawn")
