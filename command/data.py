"""What a screen reads: the same answers as JSON, with the field names of the rules."""
import json

from . import check
from .records import COMPLETION, KINDS, TICK
from .refusals import STOP, of_event


def told(value):
    return json.dumps(value, ensure_ascii=False, indent=1) + "\n"


def task(place, task, first):
    values = {field: getattr(task, field) for field in "CDTmK"}
    return {"position": place, "name": task.name, **values, "w": first.w, "h": first.h, "bound": first.bound}


def tasks(given):
    return [task(place, *pair) for place, pair in enumerate(zip(given.tasks, given.listing.first))]


def event(number, event, answer, clock, names):
    """An event and what was answered; null stands where an event has no task or no job, and where nothing was refused."""
    tick, completion = event.kind == TICK, event.kind == COMPLETION
    found = {"event": number, "kind": KINDS[event.kind], "position": None if tick else event.task}
    found["task"] = None if tick or event.task >= len(names) else names[event.task]
    found.update(job=event.job if completion else None, time=event.time, refused=answer.refused or None)
    found["why"] = of_event(answer.refused, event, clock) if answer.refused else None
    found["run"] = None if answer.run is None else {"position": answer.run, "task": names[answer.run], "class": answer.cls}
    return found


def events(given):
    rows = zip(given.events, given.listing.answers, given.clocks)
    return [event(number, *row, given.names) for number, row in enumerate(rows, 1)]


def listing(given):
    stop = given.listing.stop
    last = [{"position": place, "name": name, **ends._asdict()} for place, (name, ends) in enumerate(zip(given.names, given.listing.last))]
    stopped = stop and {"refused": stop.refusal, "offset": stop.offset, "why": STOP[stop.refusal]}
    return {"tasks": tasks(given), "events": events(given), "stop": stopped, "ends": last}


def checked(given):
    found = tasks(given)
    for place, values in enumerate(found):
        bound = values["bound"]
        values["slack"] = None if bound is None else values["D"] - bound
        values["utilisation"] = check.share(given.tasks[place]) / 100
        values["why"] = check.why(given, place) if bound is None else None
        values["largest_C"] = check.largest(given, place) if bound is None else None
    return {"guaranteed": not check.failing(given), "utilisation": sum(values["utilisation"] for values in found), "tasks": found}


def job(job, name, reasons):
    values = {"position": job.task, "task": name, "job": job.number, "class": job.cls, "release": job.release, "deadline": job.deadline}
    values["state"] = {True: "met", False: "missed", None: "open"}[job.met]
    return {**values, "closed": job.closed, "event": job.by, "why": reasons.why(job) if job.met is False or reasons.overdue(job) else None}


def timeline(history, reasons):
    """What the picture shows: jobs, and from when to when which of them was the choice; the last choice stands."""
    names = history.given.names
    jobs = [job(one, names[one.task], reasons) for one in history.jobs()]
    stretches = [*history.stretches, (history.clock, None, history.choice)]
    choice = [{"from": start, "to": end, "run": one and {"position": one.task, "job": one.number, "class": one.cls}} for start, end, one in stretches]
    return {**listing(history.given), "jobs": jobs, "choice": choice}
