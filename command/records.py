"""Table and event records as bytes (Rules, "The task table" and "Event record"): values to bytes and back."""
from collections import namedtuple

MOST_TASKS = 16
MOST_BYTES = 65536  # of the listing's input
TASK_SIZE = 16
EVENT_SIZE = 20
KINDS = ("tick", "release", "complete")
TICK, RELEASE, COMPLETION = range(3)
FIELDS = {"C": 4, "D": 4, "T": 4, "m": 1, "K": 1}  # a task's numbers in their order, and how many bytes each has
EVENT_FIELDS = {"position": 1, "job": 8, "time": 8}

# `line` is where the task or event stands in a text, and 0 where it was read from bytes
Task = namedtuple("Task", "name C D T m K line")
Event = namedtuple("Event", "kind task job time line")


def largest(size):
    """The largest number of so many bytes."""
    return 256**size - 1


def task_record(task):
    return b"TK" + b"".join(getattr(task, field).to_bytes(size, "little") for field, size in FIELDS.items())


def event_record(event):
    return b"EV" + bytes([event.kind, event.task]) + event.job.to_bytes(8, "little") + event.time.to_bytes(8, "little")


def input_bytes(tasks, events):
    """The listing's input: one byte n, n table records, then the events."""
    return bytes([len(tasks)]) + b"".join(map(task_record, tasks)) + b"".join(map(event_record, events))


def numbers(raw, at, sizes):
    """The little-endian numbers of these sizes that stand from `at` on."""
    for size in sizes:
        yield int.from_bytes(raw[at : at + size], "little")
        at += size


def tasks_of(raw):
    """The tasks of an input whose table was accepted; they have no names, so they are called by their positions."""
    return [Task(f"task{place}", *numbers(raw, 1 + place * TASK_SIZE + 2, FIELDS.values()), 0) for place in range(raw[0])]


def events_from(raw):
    """The offset of the first event byte of an input whose table was accepted."""
    return 1 + raw[0] * TASK_SIZE


def events_of(raw, count):
    """The first `count` events of an input whose table was accepted."""
    start = events_from(raw)
    return [Event(*numbers(raw, start + place * EVENT_SIZE + 2, (1, 1, 8, 8)), 0) for place in range(count)]
