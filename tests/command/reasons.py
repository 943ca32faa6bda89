"""Why a job was missed: the ticks in its sentence are counted again, tick by tick."""
import json
import re
from bisect import bisect_right
from collections import Counter

from follow import COMPLETION
from parsed import reason
from there import hold

PART = re.compile(r"([\d,]+)(?: ticks?)? for (\S+) job (\d+) \(class (\d+)(?:, past its ([^)]*))?\)")
REST = re.compile(r"([\d,]+)(?: ticks?)? for ([\d,]+) other jobs?")
MOST_TICKS = 2000  # a job with a longer D is left out
OPEN = "; it is still open, and the next accepted event closes it as missed"


def ticks_of(number):
    return f"{number:,} tick{'s' * (number != 1)}"


def number_of(words):
    return int(words.replace(",", ""))


def chosen_at(line):
    """Which job is the choice at a tick (Rules, P1), as a function."""
    times = [time for time, _ in line.choices]
    return lambda tick: line.choices[bisect_right(times, tick) - 1][1]


def is_late(line, job):
    """Whether a job is missed, or will be: it is open past its deadline."""
    return job.state == "missed" or job.state == "open" and job.deadline < line.now()


def held(what, page, line, names, why, part):
    told = json.loads(why)["jobs"]
    name, at = (lambda place: names[place] if names else f"task{place}"), chosen_at(line)
    below = []
    for job, data in zip(line.jobs(), told):
        wanted = {"position": job.place, "job": job.number, "class": job.cls, "release": job.release, "deadline": job.deadline, "state": job.state,
                  "closed": job.closed, "event": job.event, "task": name(job.place)}
        hold(f"{what}: job {job.number} of {job.place} as JSON", {key: data[key] for key in wanted}, wanted)
        hold(f"{what}: job {job.number} of {job.place} has a reason", data["why"] is not None, is_late(line, job))
        if data["why"] and job.deadline - job.release <= MOST_TICKS:
            counted(what, line, job, data["why"], at, name)
        last = max(job.deadline, line.now() if job.state == "open" else job.closed)
        below += [data["why"]] if data["why"] and job.release < part.stop and last >= part.start else []
    hold(f"{what}: jobs as JSON", len(told), len(line.jobs()))
    sentences(what, page, below)


def sentences(what, page, reasons):
    """Below the strips stand the sentences of the late jobs, up to twelve for a strip."""
    found = [[note[2:] for note in strip.notes() if note.startswith("\u2717")] for strip in page.strips]
    full = [note for notes in found for note in notes if not note.startswith("and ")]
    more = [(len(notes) - 1, int(notes[-1].split()[1])) for notes in found if notes and notes[-1].startswith("and ")]
    hold(f"{what}: sentences below the strips", len(full) + sum(count for _, count in more), len(reasons))
    hold(f"{what}: sentences before the rest is counted", {before for before, _ in more} <= {12}, True)
    hold(f"{what}: sentences that no job has", [note for note in full if note not in reasons][:1], [])


def counted(what, line, job, why, at, name):
    """One sentence against the ticks from the release to the deadline."""
    C, ticks = line.tasks[job.place].C, [at(tick) for tick in range(job.release, job.deadline)]
    own = [job.release + place + 1 for place, chosen in enumerate(ticks) if chosen is job]
    begins = f"{name(job.place)} job {job.number}, in class {job.cls}, released at {job.release} and due at {job.deadline}, "
    if len(own) >= C:
        begins += f"had been the choice for its C of {ticks_of(C)} at {own[C - 1]}, and was not completed by {job.deadline}"
    else:
        begins += f"was the choice for {ticks_of(len(own)) if own else 'no tick'} of its C of {C}: it waited "
        waits(what, line, job, why, ticks, name)
    hold(f"{what}: reason", why[: len(begins)], begins)
    ends = f"{completion(line, job)}{OPEN if job.state == 'open' else ''}."
    hold(f"{what}: reason's end", why[len(why) - len(ends) - 1 :][1:] if ";" in ends else f"{';' in why}", ends if ";" in ends else "False")


def completion(line, job):
    """What became of the job's completion."""
    later = [(number, event) for number, event in enumerate(line.events, 1) if event[:2] == (COMPLETION, job.place) and number > job.since]
    refused = [(number, event) for number, event in later if reason(line, number)]
    for number, (_, _, named, time) in refused:
        if named == job.number and line.answers[number - 1].endswith(" 9"):
            return f"; its completion, event {number}, was refused: {reason(line, number)}"
        if named == job.number:
            late = time - job.deadline
            return f"; its completion, event {number}, came {f'{ticks_of(late)} late' if late > 0 else 'behind the task' + chr(39) + 's next release'}"
    for number, event in refused:
        if job.event is None or number < job.event:
            return f"; event {number} named job {event[2]}, which was not open"
    return ""


def waits(what, line, job, why, ticks, name):
    """The jobs that went before, the longest of them by name."""
    others = Counter(other for other in ticks if other is not job)
    named = [(number_of(count), who, int(number), int(cls), past) for count, who, number, cls, past in PART.findall(why)]
    by_name = {(name(other.place), other.number): other for other in others}
    rest = REST.search(why)
    hold(f"{what}: who went before {job.number} of {job.place}", [(who, number) in by_name for _, who, number, _, _ in named], [True] * len(named))
    for count, who, number, cls, past in named:
        other = by_name.get((who, number), job)
        until = job.release + max(place for place, chosen in enumerate(ticks) if chosen is other) + 1
        wanted = f"deadline at {other.deadline}" if until > other.deadline else f"C of {line.tasks[other.place].C}" if ran_over(line, other) else ""
        hold(f"{what}: {who} {number} before {job.number} of {job.place}", (count, cls, past), (others[other], other.cls, wanted))
    left = sorted(others.values())[: len(others) - len(named)]
    hold(f"{what}: the others", (int(rest[2]), number_of(rest[1])) if rest else (0, 0), (len(left), sum(left)))
    hold(f"{what}: all are named where five or fewer went before", len(named), len(others) if len(others) <= 5 else 4)


def ran_over(line, job):
    """Whether a job was the choice for more than its C, at ticks before its deadline."""
    return sum(end - start for start, end in line.chosen(job)) > line.tasks[job.place].C
