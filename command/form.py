"""The text form of a table and a log (docs/TEXT.md): read into tasks and events with an error that names the line, and written."""
import re
import unicodedata

from .records import COMPLETION, EVENT_SIZE, FIELDS, KINDS, MOST_BYTES, MOST_TASKS, RELEASE, TASK_SIZE, TICK, Event, Task, largest
from .wrong import Wrong, counted, shown

LONGEST_NAME = 24
SPACE = re.compile("[ \t]+")
SHAPES = {
    "task": "task NAME C N D N T N m N K N",
    "tick": "tick at TIME",
    "release": "release NAME at TIME",
    "complete": "complete NAME JOB at TIME",
}


def is_name(word):
    """A letter, then letters with their marks, digits, '_', '-' and '.', of every language."""
    kinds = [unicodedata.category(c) for c in word]
    return bool(kinds) and kinds[0][0] == "L" and all(c in "_-." or kind[0] in "LM" or kind == "Nd" for c, kind in zip(word, kinds))


def stray(line):
    """The first character that would end or hide a part of the line for some and not for others, or None."""
    return next((c for c in line if c != "\t" and unicodedata.category(c) in ("Cc", "Zl", "Zp")), None)


class Reader:
    """Reads the lines of one text from the top, and keeps its tasks and events. With `log` false lines of events are passed over."""

    def __init__(self, file, log=True):
        self.file, self.log, self.line, self.comment = file, log, 0, False
        self.tasks, self.events, self.places = [], [], {}

    def wrong(self, words):
        return Wrong(f"{self.file}:{self.line}: {words}")

    def read(self, raw):
        for self.line, line in enumerate(self.lines(raw), 1):
            words = self.words(line)
            if not words:
                continue
            if words[0] not in SHAPES:
                raise self.wrong(f"no line begins with {shown(words[0])}; begin it with task, release, complete, tick or #")
            if words[0] == "task":
                self.task(words)
            elif self.log:
                self.event(words)
        if not self.tasks:
            raise Wrong(f"{self.file}: there is no task in it; a line such as '{SHAPES['task']}' is one, with a number for each N")
        return self.tasks, self.events

    def lines(self, raw):
        """The text's lines. A byte that is no text is told with its line."""
        if raw[:2] in (b"\xff\xfe", b"\xfe\xff"):
            raise Wrong(f"{self.file}: this is UTF-16 or UTF-32 text; save it as UTF-8")
        try:
            return raw.decode("utf-8-sig").split("\n")
        except UnicodeDecodeError as wrong:
            self.line = raw[: wrong.start].count(b"\n") + 1
            raise self.wrong(f"byte {raw[wrong.start]:#04x} is no UTF-8 text; save the file as UTF-8") from None

    def words(self, line):
        """The words of a line before its comment."""
        line = line[:-1] if line.endswith("\r") else line
        if stray(line):
            raise self.wrong(f"a character that is no text, {shown(stray(line))}, stands here; take it out, and save the file as UTF-8 text")
        line, mark, _ = line.partition("#")
        self.comment = bool(mark)
        return [word for word in SPACE.split(line) if word]

    def number(self, word, what, size):
        """A number that fits `size` bytes."""
        if not re.fullmatch("[0-9]+", word):
            raise self.wrong(f"{what} is {shown(word)}, and a whole number from 0 to {largest(size):,} is needed")
        # a number of so many digits is too large, and Python would take long over one of thousands
        if len(word.lstrip("0")) > 20 or int(word) > largest(size):
            raise self.wrong(f"{what} is {shown(word)}, and it is at most {largest(size):,}")
        return int(word)

    def shape(self, words, *rest):
        """The line has the words that its kind needs: `rest` has a word where one word alone can stand, and None where any can."""
        shape = SHAPES[words[0]]
        for place, right in enumerate(rest, 1):
            if place == len(words):
                ends = "the comment begins" if self.comment else "the line ends"
                raise self.wrong(f"{ends} after {shown(words[-1])}, and '{shape}' is needed")
            if right is not None and words[place] != right:
                raise self.wrong(f"{shown(words[place])} stands where '{right}' is needed, as in '{shape}'")
        if len(words) > len(rest) + 1:
            raise self.wrong(f"{shown(words[len(rest) + 1])} is a word too many; '{shape}' ends before it")

    def task(self, words):
        self.shape(words, *[None] + [word for field in FIELDS for word in (field, None)])
        if self.events:
            raise self.wrong(f"a task after the event of line {self.events[0].line}; all tasks stand above the events")
        name = self.new_name(words[1])
        if len(self.tasks) == MOST_TASKS:
            raise self.wrong(f"task {shown(name)} is the 17th, and a table has at most {MOST_TASKS}")
        self.places[name] = len(self.tasks)
        values = [self.number(words[3 + 2 * place], f"{field} of {name}", size) for place, (field, size) in enumerate(FIELDS.items())]
        self.tasks.append(Task(name, *values, self.line))

    def new_name(self, word):
        name = unicodedata.normalize("NFC", word)
        if not is_name(name):
            raise self.wrong(f"{shown(word)} is no name; a name is a letter, then letters, digits, '_', '-' and '.'")
        if len(name) > LONGEST_NAME:
            raise self.wrong(f"the name {shown(name)} has {len(name)} characters, and at most {LONGEST_NAME} are allowed")
        if name in self.places:
            raise self.wrong(f"task {shown(name)} stands in line {self.tasks[self.places[name]].line} already; give each task a name of its own")
        return name

    def event(self, words):
        kind = KINDS.index(words[0])
        self.shape(words, *[None] * kind, "at", None)
        place = self.place(words[1]) if kind != TICK else 0
        job = self.number(words[2], "the job", 8) if kind == COMPLETION else 0
        event = Event(kind, place, job, self.number(words[-1], "the time", 8), self.line)
        if 1 + TASK_SIZE * len(self.tasks) + EVENT_SIZE * (len(self.events) + 1) > MOST_BYTES:
            fit = counted(len(self.events), "event")
            raise self.wrong(f"the log is too long: {fit} and the table fill the {MOST_BYTES:,} bytes that are listed; cut the log before this line")
        self.events.append(event)

    def place(self, word):
        """The position that a name, or @ and a number, stands for."""
        if word.startswith("@"):
            return self.number(word[1:], "the position behind @", 1)
        name = unicodedata.normalize("NFC", word)
        if name not in self.places:
            known = f"the tasks are {', '.join(self.places)}" if self.places else "tasks stand above the events"
            raise self.wrong(f"there is no task {shown(word)} above; {known}")
        return self.places[name]


def event_text(event, names):
    """An event as a line of text; a position that has no task is written @ and a number."""
    who = names[event.task] if event.task < len(names) else f"@{event.task}"
    words = {TICK: "tick", RELEASE: f"release {who}", COMPLETION: f"complete {who} {event.job}"}
    return f"{words[event.kind]} at {event.time}"


def text_of(tasks, events):
    """The text whose bytes are those of the tasks and events."""
    widths = [max(len(str(getattr(task, field))) for task in tasks) for field in ("name", *FIELDS)]
    for task in tasks:
        numbers = (f"{field} {getattr(task, field):>{width}}" for field, width in zip(FIELDS, widths[1:]))
        yield f"task {task.name:<{widths[0]}}  {'  '.join(numbers)}\n"
    if events:
        yield "\n"
    names = [task.name for task in tasks]
    for event in events:
        yield event_text(event, names) + "\n"
