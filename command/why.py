"""Why a job was missed, in a sentence: it had its C and was not completed, or others were the choice while it waited; and what became of its completion."""
from bisect import bisect_right

from .records import COMPLETION
from .refusals import of_event
from .wrong import counted, listed

MOST_NAMED = 4  # of the jobs that went before


class Reasons:
    """Answers for the jobs of one history that are past their deadlines."""

    def __init__(self, history):
        self.history, self.names = history, history.given.names
        self.stretches = history.until_now()
        self.starts = [stretch.start for stretch in self.stretches]
        self.refused = {}  # by task: its refused completions
        for number, (event, answer, clock) in enumerate(zip(history.given.events, history.given.listing.answers, history.given.clocks), 1):
            if event.kind == COMPLETION and answer.refused:
                self.refused.setdefault(event.task, []).append((number, event, of_event(9, event, clock) if answer.refused == 9 else None))

    def overdue(self, job):
        """Whether a job is open past its deadline at the end of the log."""
        return job.met is None and job.deadline < self.history.now

    def spans(self, job):
        """Who was the choice from the job's release up to its deadline: a job, and from when to when."""
        for stretch in self.stretches[max(bisect_right(self.starts, job.release) - 1, 0) :]:
            if stretch.start >= job.deadline:
                return
            start, end = max(stretch.start, job.release), min(stretch.end, job.deadline)
            if start < end and stretch.job:
                yield stretch.job, start, end

    def chosen_for(self, job, ticks):
        """The tick at which the job has been the choice for so many ticks, or None (Rules, "Chosen time")."""
        for chosen, start, end in self.spans(job):
            if chosen is job:
                if end - start >= ticks:
                    return start + ticks
                ticks -= end - start
        return None

    def used_up(self, job):
        """The tick at which a job that stays the choice has been it for its C, or None."""
        return self.chosen_for(job, self.c_of(job)) if self.chosen_for(job, self.c_of(job) + 1) else None

    def called(self, job):
        return f"{self.names[job.task]} job {job.number}"

    def c_of(self, job):
        return self.history.given.tasks[job.task].C

    def why(self, job):
        """The sentence for a job that was missed, or is open past its deadline."""
        full = self.chosen_for(job, self.c_of(job))
        if full is not None:
            told = f"had been the choice for its C of {counted(self.c_of(job), 'tick')} at {full}, and was not completed by {job.deadline}"
        else:
            own = sum(end - start for chosen, start, end in self.spans(job) if chosen is job)
            told = f"was the choice for {counted(own, 'tick') if own else 'no tick'} of its C of {self.c_of(job)}: it waited {listed(self.before(job))}"
        still = "; it is still open, and the next accepted event closes it as missed" if job.met is None else ""
        return f"{self.called(job)}, in class {job.cls}, released at {job.release} and due at {job.deadline}, {told}{self.completion(job)}{still}."

    def before(self, job):
        """The jobs that were the choice in its place, and for how many ticks each."""
        ticks, until = {}, {}
        for chosen, start, end in self.spans(job):
            if chosen is not job:
                ticks[chosen], until[chosen] = ticks.get(chosen, 0) + end - start, end
        most = sorted(ticks, key=lambda other: -ticks[other])[: MOST_NAMED if len(ticks) > MOST_NAMED + 1 else None]
        for first, other in enumerate(other for other in ticks if other in most):
            span = f"{ticks[other]:,}" if first else counted(ticks[other], "tick")
            yield f"{span} for {self.called(other)} (class {other.cls}{self.past(other, until[other])})"
        if len(ticks) > len(most):
            rest = sum(ticks[other] for other in ticks if other not in most)
            yield f"{rest:,} for {counted(len(ticks) - len(most), 'other job')}"

    def past(self, job, until):
        """Whether a job that was the choice up to then went past its C or its deadline."""
        if until > job.deadline:
            return f", past its deadline at {job.deadline}"
        return f", past its C of {self.c_of(job)}" if self.chosen_for(job, self.c_of(job) + 1) else ""

    def completion(self, job):
        """What became of the completion of this job, where one came and was refused."""
        found = [one for one in self.refused.get(job.task, []) if one[0] > job.since]
        for number, event, untimely in (one for one in found if one[1].job == job.number):
            if untimely:
                return f"; its completion, event {number}, was refused: {untimely}"
            if event.time > job.deadline:
                return f"; its completion, event {number}, came {counted(event.time - job.deadline, 'tick')} late"
            return f"; its completion, event {number}, came behind the task's next release"
        for number, event, _ in (one for one in found if job.by is None or one[0] < job.by):
            return f"; event {number} named job {event.job}, which was not open"
        return ""
