"""What a file gives: its tasks and events, its bytes, and the proved program's listing of them."""
from . import files, form, listing, programs, records, refusals
from .wrong import Wrong, counted


class Given:
    """A table and a log that the listing accepted as a table; `listing` is what was printed."""

    def __init__(self, path, tasks, events, raw, parsed, named):
        self.file = files.name_of(path)
        self.tasks, self.events, self.raw, self.listing = tasks, events, raw, parsed
        self.named = named  # whether the tasks have names of their own, and not only those that their positions give
        self.names = [task.name for task in tasks]
        self.clocks = list(clocks(events, parsed.answers))


def clocks(events, answers):
    """The clock that each event finds."""
    clock = 0
    for event, answer in zip(events, answers):
        yield clock
        clock = clock if answer.refused else event.time


def is_bytes(raw):
    """Whether a file is of bytes: it begins as a table does, or has zero bytes behind a small first byte that begins no text."""
    return raw[1:3] == b"TK" or b"\0" in raw and raw[0] <= records.MOST_TASKS and raw[:1] not in (b"\t", b"\n", b"\r")


def of_text(path, raw, log=True):
    """The given of a text. The table's rules are told by the program's refusal, with the task's line and name."""
    tasks, events = form.Reader(files.name_of(path), log).read(raw)
    made = records.input_bytes(tasks, events)
    text = programs.listing(made)
    refused = listing.refusal(text)
    if refused:
        number, place = refused
        task = tasks[place]
        raise Wrong(f"{files.name_of(path)}:{task.line}: table refused {number} at {place}: task {task.name}: {refusals.of_task(number, task)}")
    return held(path, tasks, events, made, text, True)


def of_bytes(path, raw, names=None, log=True):
    """The given of bytes, with the names of a table text where one is given."""
    file = files.name_of(path)
    if len(raw) > records.MOST_BYTES and log:
        raise Wrong(f"{file}: the log is too long: the file has {len(raw):,} bytes, and {records.MOST_BYTES:,} are listed; cut the log")
    whole, raw = raw, raw if log or not raw else raw[: records.events_from(raw)]
    text = programs.listing(raw)
    refused = listing.refusal(text)
    if refused and refused[0] in (3, 4):
        number, place = refused
        task = records.tasks_of(raw)[place]
        raise Wrong(f"{file}: table refused {number} at {place}: {refusals.of_task(number, task)}")
    if refused:
        raise Wrong(f"{file}: table refused {refused[0]} at {refused[1]}: {refusals.of_table(*refused, raw)}")
    if not log:
        follows(file, whole)
    tasks = records.tasks_of(raw)
    if names:
        tasks = named(tasks, names, file)
    count = (len(raw) - records.events_from(raw)) // records.EVENT_SIZE
    parsed = listing.parse(text)
    if parsed.stop:
        count = parsed.stop.offset // records.EVENT_SIZE
    return held(path, tasks, records.events_of(raw, count), raw, text, bool(names))


def follows(file, raw):
    """What follows the table has to begin as a log does: else the count of tasks is likely wrong, and the table another."""
    at = records.events_from(raw)
    if not b"EV".startswith(raw[at : at + 2]):
        found = f"the first byte says {counted(raw[0], 'task')}, and byte {at}, where the log has to begin, begins no event record (45 56)"
        raise Wrong(f"{file}: {found}; look whether the count of tasks is right")


def held(path, tasks, events, raw, text, named):
    """The given, once the listing has a line for each task and each event of it, and stops where they end, if bytes are left."""
    parsed = listing.parse(text)
    if len(parsed.first) != len(tasks) or len(parsed.answers) != len(events):
        found = f"{counted(len(parsed.first), 'task')} and {counted(len(parsed.answers), 'event')}"
        raise Wrong(f"brumerola: the listing has {found}, and the file {len(tasks)} and {len(events)}; this is a fault of the command")
    ends = records.EVENT_SIZE * len(events)
    rest = len(raw) - records.events_from(raw) - ends
    if (parsed.stop and parsed.stop.offset) != (ends if rest else None):
        found = f"stops at {parsed.stop.offset}" if parsed.stop else "does not stop"
        raise Wrong(f"brumerola: the listing {found}, and the events end at {ends} with {counted(rest, 'byte')} left; this is a fault of the command")
    return Given(path, tasks, events, raw, parsed, named)


def names_from(path):
    """The file and the tasks of the text that gives the names, if one is given."""
    if path is None:
        return None
    raw, file = files.read(path), files.name_of(path)
    if is_bytes(raw):
        raise Wrong(f"{file}: this is a file of bytes, which has no names; give the text that the bytes were made from")
    return file, form.Reader(file, log=False).read(raw)[0]


def named(tasks, names, file):
    """The tasks with the names that a text gives to the same table."""
    source, others = names
    if [task[1:6] for task in others] != [task[1:6] for task in tasks]:
        raise Wrong(f"{source}: its table is not that of {file}, so its names would be wrong; give the text that the bytes were made from")
    return [task._replace(name=other.name) for task, other in zip(tasks, others)]


def given(path, names=None, log=True):
    """The table and log of a text or byte file. With `log` false the events are left out."""
    raw = files.read(path)
    if not is_bytes(raw):
        if names is not None:
            raise Wrong(f"{files.name_of(path)}: this is text and has names; --names is for a file of bytes")
        return of_text(path, raw, log)
    return of_bytes(path, raw, names_from(names), log)
