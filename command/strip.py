"""One strip of the picture: a row for each task over a part of the time, with the axis below, and then the sentences for what went wrong in it."""
from itertools import groupby

from . import look, svg
from .form import event_text
from .records import TICK
from .scene import within

WIDTH, RIGHT = 1120, 20  # of the page, and its right margin
TOP, FOOT, LINE = 20, 34, 15  # heights: the row of refused events, the axis, a sentence
MOST_NOTES = 12  # sentences of each kind under a strip
ROOM = WIDTH - 40  # of a sentence's line


class Strip:
    """The strip from place `first` to place `last` of the axis, with its left edge at `left`."""

    def __init__(self, scene, reasons, left, first, last, final):
        self.scene, self.reasons, self.left = scene, reasons, left
        self.first, self.last, self.final = first, last, final
        self.right = left + last - first
        self.free = {}  # by row: from where on a number can be written
        self.names, self.count = scene.given.names, len(scene.given.tasks)
        self.body = TOP + self.count * look.ROW
        self.jobs, self.parts = within(scene.job_spans, first, last), within(scene.part_spans, first, last)
        self.notes = [line for note in self.sentences() for line in look.wrapped(note, ROOM)]
        self.height = self.body + FOOT + LINE * len(self.notes) + 10

    def x(self, time):
        """The place of a tick, or None where it lies in another strip."""
        place = self.scene.axis.at(time)
        inside = self.scene.start <= time <= self.scene.end and (self.first <= place < self.last or self.final and place == self.last)
        return self.left + place - self.first if inside else None

    def span(self, start, end):
        """Where a stretch of time lies in this strip: a place and a width, or None."""
        begin = max(self.scene.axis.at(start), self.first)
        stop = min(self.scene.axis.at(end), self.last)
        return (self.left + begin - self.first, stop - begin) if begin < stop else None

    def y(self, task):
        return TOP + task * look.ROW

    def spans(self, start, end, draw):
        found = self.span(start, end)
        return draw(*found) if found else ""

    def signs(self, time, draw):
        found = self.x(time)
        return draw(found) if found is not None else ""

    def drawn(self):
        """All elements, from the back to the front."""
        yield from self.rows()
        yield from self.grid()
        yield from self.cuts()
        yield from map(self.job, self.jobs)
        yield from map(self.part, self.parts)
        yield from map(self.ends, self.jobs)
        yield from self.refused()
        yield from self.times()
        for place, note in enumerate(self.notes):
            yield svg.text(20, self.body + FOOT + 12 + LINE * place, note)

    def rows(self):
        for place, task in enumerate(self.scene.given.tasks):
            y = self.y(place)
            if place % 2 == 0:
                yield svg.rect(self.left, y, self.right - self.left, look.ROW, "band")
            misses = f"({task.m},{task.K})" if task.m else "hard"
            yield svg.text(10, y + 13, f"{place} {task.name}", "name")
            yield svg.text(10, y + 25, f"C {task.C}  D {task.D}  {misses}", "small")
            yield svg.line(self.left, y + look.BASE, self.right, y + look.BASE, "rule")

    def grid(self):
        """A thin line through the rows at each written time."""
        for time in self.scene.axis.written():
            yield self.signs(time, lambda x: svg.line(x, TOP, x, self.body, "grid"))

    def cuts(self):
        for start, end in self.scene.axis.cuts:
            yield self.spans(start, end, lambda x, width: svg.rect(x, 4, width, self.body - 4, "cut"))

    def job(self, job):
        """A job while it is open: it waits, or is past its deadline; its release and deadline are arrows."""
        y = self.y(job.task)
        end = self.scene.now if job.met is None else job.closed
        parts = [
            self.spans(job.release, min(end, job.deadline), lambda x, width: look.waits(x, y, width)),
            self.spans(job.deadline, end, lambda x, width: look.waits(x, y, width, "over")),
            self.signs(job.deadline, lambda x: look.down(x, y)),
            self.signs(job.release, lambda x: look.up(x, y)),
        ]
        return svg.group([svg.title(self.told(job)), *parts]) if any(parts) else ""

    def told(self, job):
        ended = {True: f"met at {job.closed}", False: "missed", None: "open"}[job.met]
        return f"{self.names[job.task]} {job.number}: class {job.cls}, released at {job.release}, due at {job.deadline}, {ended}"

    def part(self, part):
        """The job that is the choice, with the digit of its class where there is room."""
        y, cls = self.y(part.job.task), look.class_name(part.job.cls)
        found = self.span(part.start, part.end)
        if not found:
            return ""
        x, width = found
        drawn = [svg.title(f"{self.told(part.job)}; the choice from {part.start} to {part.end}"), look.runs(x, y, width, "late" if part.late else cls)]
        if width >= 9 and not part.late:
            drawn.append(svg.text(x + width / 2, y + 19.5, str(part.job.cls), "digit" if part.job.cls else "light", "middle"))
        return svg.group(drawn)

    def ends(self, job):
        """Met, missed and its window broken, and where the job had used up its C, in front of all else."""
        y = self.y(job.task)
        used = self.reasons.used_up(job)
        notch = "" if used is None else self.signs(used, lambda x: look.used(x, y))
        if job.met is None:
            return notch
        if job.met:
            return notch + self.signs(job.closed, lambda x: look.tick_off(x, y))
        broke = job.number == self.scene.given.listing.last[job.task].broken
        return notch + self.signs(job.deadline, lambda x: look.cross(x, y) + (look.ring(x, y) if broke else "") + self.numbered(job, x, y, broke))

    def numbered(self, job, x, y, broke):
        """The number of a missed job behind its sign, unless it would cover that of the one before; where the window broke it is always there."""
        if x < self.free.get(job.task, 0) and not broke:
            return ""
        self.free[job.task] = x + 12 + 8 * len(str(job.number))
        return self.beside(x + (4 if broke else 0), y + 20, str(job.number))

    def beside(self, x, y, words):
        """Words on a plate behind a sign, or before it near the right edge."""
        room = look.wide(words, look.TEXT, True)
        start = x + 7 if x + 10 + room < WIDTH else x - 9 - room
        return svg.rect(start - 1, y - 10, room + 2, 13, "plate") + svg.text(start, y, words, "bad")

    def refused(self):
        """A flag and the numbers above the rows for each time, and a diamond in the row of an event's task."""
        free = 0.0
        for time, refused in groupby(sorted(self.scene.refused, key=lambda one: one.at), key=lambda one: one.at):
            x, refused = self.x(time), list(refused)
            if x is None:
                continue
            yield look.flag(x, 0)
            words = ", ".join(dict.fromkeys(str(one.refusal) for one in refused))
            if x >= free:
                yield self.beside(x - 2, 13, words)
                free = x + 14 + 8 * len(words)
            rows = {one.event.task for one in refused if one.event.kind != TICK and one.event.task < self.count}
            yield from (look.diamond(x, self.y(task)) for task in rows)

    def times(self):
        """The axis, the times written at it, accepted ticks, what a cut leaves out, and the end of the log."""
        y, now = self.body, self.scene.now
        yield svg.line(self.left, y, self.right, y, "axis")
        for time in self.scene.axis.written():
            yield self.signs(time, lambda x: svg.line(x, y, x, y + 5, "axis"))
        yield from self.written([(time, f"{time:,}") for time in self.scene.axis.written()], y + 17, look.TEXT, 0.5)
        end = [(now, f"end of the log, {now:,}")]
        yield from self.written(end + [(start, f"{stop - start:,} cut") for start, stop in self.scene.axis.cuts], y + 29, 9, 0)
        for time in self.scene.ticks:
            yield self.signs(time, lambda x: look.ticked(x, y))
        yield self.signs(now, lambda x: svg.line(x, 2, x, y + 6, "end"))

    def written(self, labels, y, size, share):
        """Words at their times; those that would run into one before are left out, and those that would leave the page are moved."""
        taken = []
        for time, words in labels:
            x, room = self.x(time), look.wide(words, size)
            if x is None:
                continue
            start = max(min(x - share * room + (0 if share else 3), WIDTH - room - 2), 2)
            if all(start + room < other or start > end for other, end in taken):
                taken.append((start, start + room + 4))
                yield svg.text(start + room / 2, y, words, "small" if size < look.TEXT else None, "middle")

    def sentences(self):
        """Why each job of the strip that is past its deadline was missed, and what was refused in it."""
        late = [job for job in self.jobs if job.met is False or self.reasons.overdue(job)]
        late = sorted((job for job in late if self.x(self.scene.inside(job.deadline)) is not None), key=lambda job: (job.deadline, job.task))
        yield from (f"\u2717 {self.reasons.why(job)}" for job in late[:MOST_NOTES])
        if len(late) > MOST_NOTES:
            yield f"\u2717 and {len(late) - MOST_NOTES} more missed jobs; 'brumerola timeline --json' tells why"
        refused = [refused for refused in self.scene.refused if self.x(refused.at) is not None]
        for one in refused[:MOST_NOTES]:
            yield f"\u25bd event {one.number}, {event_text(one.event, self.names)}, refused {one.refusal}: {one.why}."
        if len(refused) > MOST_NOTES:
            yield f"\u25bd and {len(refused) - MOST_NOTES} more refused events; 'brumerola list' shows them"
