"""The listing for people: each line of the program's text with the task's name beside its position, and beside it what it is about."""
from .form import event_text
from .records import EVENT_SIZE, events_from
from .refusals import STOP, of_event
from .wrong import listed


def columns(rows):
    """Left parts of one width, then what is said beside them."""
    width = max((len(left) for left, _ in rows), default=0)
    return [f"{left:<{width}}   {right}".rstrip() for left, right in rows]


def with_name(line, given):
    """The program's line with the name beside the position, in columns."""
    words = line.split(" ")
    place = 1 if words[0] == "task" else 3
    if given.named:
        words[place] += " " + given.names[int(words[place])]
    return " ".join(words)


def aligned(lines):
    """Lines of the same words with their numbers and names one below the other."""
    rows = [line.split(" ") for line in lines]
    widths = [max(map(len, column)) for column in zip(*rows)]
    return [" ".join(f"{word:<{width}}" if not word.isdigit() else f"{word:>{width}}" for word, width in zip(row, widths)).rstrip() for row in rows]


def first_lines(given, lines):
    return aligned([with_name(line, given) for line in lines])


def event_lines(history, lines):
    """Beside each answer the event, why it was refused, and which jobs it closed as missed."""
    given, rows, missed = history.given, [], closings(history)
    for number, (line, event, answer, clock) in enumerate(zip(lines, given.events, given.listing.answers, given.clocks), 1):
        left = line if answer.run is None else with_name(line, given)
        right = event_text(event, given.names)
        if answer.refused:
            right += f": {of_event(answer.refused, event, clock)}"
        elif number in missed:
            right += f"; missed: {listed(missed[number])}"
        rows.append((left, right))
    return columns(rows)


def closings(history):
    """By the number of an event: the jobs that it closed as missed."""
    found = {}
    for job in history.missed():
        found.setdefault(job.by, []).append(f"{history.given.names[job.task]} {job.number}")
    return found


def stopped(given):
    """Where the reading stopped, and why."""
    stop = given.listing.stop
    return f"event {stop.offset // EVENT_SIZE + 1}, from byte {events_from(given.raw) + stop.offset} of the file on: {STOP[stop.refusal]}"


def last_lines(given, lines):
    rows = []
    for line, task, last in zip(aligned([with_name(line, given) for line in lines]), given.tasks, given.listing.last):
        allowed = f"at most {task.m} of {task.K}" if task.m else "hard, no miss"
        rows.append((line, f"{allowed}: BROKEN at job {last.broken}" if last.broken else allowed))
    return columns(rows)


def listing(history):
    """All lines, in the program's order."""
    given = history.given
    lines = given.listing.text.splitlines()
    tasks, events = len(given.tasks), len(given.events)
    yield from first_lines(given, lines[:tasks])
    yield from event_lines(history, lines[tasks : tasks + events])
    if given.listing.stop:
        yield f"{lines[tasks + events]}   {stopped(given)}"
    yield from last_lines(given, lines[-tasks:])
