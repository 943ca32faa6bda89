"""What the command shows, turned into the program's plain text again: names, columns and field names are taken away, and each is held to what it should be."""
import json

from there import hold

SAID = {12: "the task has no open job of this number", 11: "less than T after the task's last release", 10: "the table has no task at this position"}

STOPPED = {5: "fewer than the 20 bytes of an event record are left", 6: "no event record begins here: its first two bytes are not 45 56",
           7: "the kind is 3 or more", 8: "a tick or release has a number in a field that has to be 0"}


def called(place, names):
    """How an event names a position."""
    return names[place] if place < len(names) else f"@{place}"


def listed(words):
    return " and ".join([", ".join(words[:-1]), words[-1]] if len(words) > 1 else words)


def events_of(line, names):
    """The events of a line that was followed, as words."""
    for kind, place, job, time in line.events:
        who = f" {called(place, names)}" if kind else ""
        yield f"{('tick', 'release', 'complete')[kind]}{who}{f' {job}' if kind == 2 else ''} at {time}"


def reason(line, number):
    """Why an event was refused; None where it was not."""
    words, time = line.answers[number - 1].split(), line.events[number - 1][3]
    if words[2] != "refused":
        return None
    if words[3] == "9":
        return "its time is past 1,000,000,000,000" if time > 10**12 else f"its time is before the clock, {line.clocks[number - 1]}"
    return SAID[int(words[3])]


def beside(line, names):
    """What stands beside each event of a listing: the event, why it was refused, or which jobs it closed as missed."""
    for number, words in enumerate(events_of(line, names), 1):
        missed = sorted((job for job in line.jobs() if (job.state, job.event) == ("missed", number)), key=lambda job: (job.deadline, job.place))
        if reason(line, number):
            words += f": {reason(line, number)}"
        elif missed:
            words += f"; missed: {listed([f'{names[job.place]} {job.number}' for job in missed])}"
        yield words


def of_text(text):
    """The names, the tasks' numbers and the events of a text, as words."""
    lines = [line.split("#")[0].split() for line in text.splitlines()]
    tasks = [line for line in lines if line[:1] == ["task"]]
    events = [" ".join(line) for line in lines if line[:1] not in ([], ["task"])]
    return [task[1] for task in tasks], [dict(zip(task[2::2], map(int, task[3::2]))) for task in tasks], events


def take_name(words, place, names):
    """Takes the name behind a position away."""
    if names:
        hold("a name beside a position", words.pop(place + 1), names[int(words[place])])


def of_list(shown, names, rights, tasks):
    """The plain text of what `list` shows; the right column has to be `rights` for the events, and for a task what it allows."""
    plain = []
    for line in shown.splitlines():
        words, number = line.split(), len(plain) - len(tasks)
        if words[0] == "stop":
            kept, offset = 4, int(words[3])
            right = f"event {offset // 20 + 1}, from byte {1 + 16 * len(tasks) + offset} of the file on: {STOPPED[int(words[1])]}"
        elif words[0] == "task":
            take_name(words, 1, names)
            kept = 8 if words[2] == "w" else 12
            task = tasks[int(words[1])]
            right = "" if kept == 8 else f"at most {task['m']} of {task['K']}" if task["m"] else "hard, no miss"
            if kept == 12 and words[11] != "0":
                right += f": BROKEN at job {words[11]}"
        else:
            kept, right = {"run": 6, "idle": 3, "refused": 4}[words[2]], rights[number]
            if kept == 6:
                take_name(words, 3, names)
        hold(f"right of '{' '.join(words[:kept])}'", " ".join(words[kept:]), right)
        plain.append(" ".join(words[:kept]))
    return "\n".join(plain) + "\n"


def event_of(event, names):
    """The words of an event of the JSON."""
    kind, who, place, job = event["kind"], [], event["position"], event["job"]
    if kind != "tick":
        who = [called(place, names), *([str(job)] if kind == "complete" else [])]
    hold("what an event does not have", (place is None, job is None), (kind == "tick", kind != "complete"))
    hold("a task's name in an event", event["task"], who[0] if who and place < len(names) else None)
    return " ".join([kind, *who, "at", str(event["time"])])


def of_json(text, names, line, tasks):
    """The plain text of what --json tells."""
    told, plain, events = json.loads(text), [], list(events_of(line, names))
    for place, task in enumerate(told["tasks"]):
        hold("a task as JSON", (task["position"], task["name"], {field: task[field] for field in "CDTmK"}), (place, names[place], tasks[place]))
        plain.append(f"task {place} w {task['w']} h {task['h']} bound {task['bound'] or '-'}")
    for number, event in enumerate(told["events"], 1):
        hold("an event as JSON", (event["event"], event_of(event, names)), (number, events[number - 1]))
        hold("why an event was refused", event["why"], reason(line, number))
        run = event["run"]
        if run:
            hold("the chosen task's name", run["task"], names[run["position"]])
        chosen = f"run {run['position']} class {run['class']}" if run else "idle"
        plain.append(f"event {number} " + (f"refused {event['refused']}" if event["refused"] else chosen))
    if told["stop"]:
        plain.append(f"stop {told['stop']['refused']} at {told['stop']['offset']}")
        hold("why the log stops", told["stop"]["why"], STOPPED[told["stop"]["refused"]])
    for place, task in enumerate(told["ends"]):
        hold("an end as JSON", (task["position"], task["name"]), (place, names[place]))
        plain.append(f"task {place} " + " ".join(f"{field} {task[field]}" for field in ("met", "missed", "open", "window", "broken")))
    return "\n".join(plain) + "\n"
