"""A listing that cannot be true is an error and not a picture: the program's text is changed before the command reads it, and each change gives one line
and no file."""
from unittest import mock

from bad import ends
from bad_bytes import ONE, event
from there import call, folder_with, hold, inside

# the worked listing of the rules
TEXT = """task a C 2 D 4 T 4 m 1 K 2
task b C 3 D 7 T 8 m 1 K 3
release a at 0
release b at 0
complete a 1 at 2
release a at 3
release a at 4
complete b 1 at 5
complete a 1 at 6
tick at 9
"""
DIFFERS = "brumerola: the listing and the history of its jobs differ: "
DRAWN = "; nothing is drawn"
UNKNOWN = "brumerola: the listing has a line that this command does not know, "
SOURCES = "; build both from the same sources"
FAULT = "; this is a fault of the command"

# a name, what is replaced, by what, and the line
HISTORY = [
    ("met", "met 1 missed 1", "met 2 missed 1", "task 0 ends with 2 1 0 1 0, and its jobs add up to 1 1 0 1 0"),
    ("missed", "met 1 missed 0", "met 1 missed 1", "task 1 ends with 1 1 0 0 0, and its jobs add up to 1 0 0 0 0"),
    ("open", "missed 1 open 0", "missed 1 open 1", "task 0 ends with 1 1 1 1 0, and its jobs add up to 1 1 0 1 0"),
    ("window", "window 1", "window 0", "task 0 ends with 1 1 0 0 0, and its jobs add up to 1 1 0 1 0"),
    ("broken", "window 1 broken 0", "window 1 broken 2", "task 0 ends with 1 1 0 1 2, and its jobs add up to 1 1 0 1 0"),
    ("a class", "event 6 run 0 class 1", "event 6 run 0 class 0", "event 6 is answered run 0 class 0, and job 2 of task 0 in class 1 is first"),
    ("a class that no task has", "event 1 run 0 class 0", "event 1 run 0 class 9",
     "event 1 is answered run 0 class 9, and job 1 of task 0 in class 0 is first"),
    ("a choice with nothing open", "event 3 run 1 class 0", "event 3 run 0 class 0",
     "event 3 is answered run 0 class 0, and job 1 of task 1 in class 0 is first"),
    ("a choice of no task", "event 3 run 1 class 0", "event 3 run 2 class 0", "event 3 is answered run 2 class 0, and job 1 of task 1 in class 0 is first"),
    ("idle with an open job", "event 2 run 0 class 0", "event 2 idle", "event 2 is answered idle, and job 1 of task 0 in class 0 is first"),
    ("an open job of the same class that is not first", "event 2 run 0 class 0", "event 2 run 1 class 0",
     "event 2 is answered run 1 class 0, and job 1 of task 0 in class 0 is first"),
    ("a choice after the end", "event 8 idle", "event 8 run 0 class 1", "event 8 is answered run 0 class 1, and no job is open"),
    ("a refused completion told accepted", "event 7 refused 12", "event 7 run 0 class 1", "event 7 was accepted, and no job 1 is open"),
    ("a refused release told accepted", "event 4 refused 11", "event 4 run 1 class 0",
     "event 5 is answered run 1 class 0, and job 3 of task 0 in class 0 is first"),
    ("an accepted release told refused", "event 5 run 1 class 0", "event 5 refused 11", "event 6 is answered run 0 class 1, and no job is open"),
    ("an accepted completion told refused", "event 6 run 0 class 1", "event 6 refused 12", "task 1 ends with 1 0 0 0 0, and its jobs add up to 0 1 0 1 0"),
    ("a threshold of the first", "task 0 w 1 h 1", "task 0 w 1 h 2", "event 5 is answered run 1 class 0, and job 2 of task 0 in class 0 is first"),
]

FORM = [
    ("a line too many", "event 8 idle\n", "event 8 idle\nevent 9 idle\n", "brumerola: the listing has 2 tasks and 9 events, and the file 2 and 8" + FAULT),
    ("a line too few", "event 8 idle\n", "", "brumerola: the listing has 2 tasks and 7 events, and the file 2 and 8" + FAULT),
    ("a stop that the file does not have", "event 8 idle\n", "event 8 idle\nstop 5 at 160\n",
     "brumerola: the listing stops at 160, and the events end at 160 with 0 bytes left" + FAULT),
    ("a task too many", "broken 0\ntask 1", "broken 0\ntask 2 met 0 missed 0 open 0 window 0 broken 0\ntask 1",
     f"{UNKNOWN}'task 2 met 0 missed 0 open 0 window 0 br..'{SOURCES}"),
    ("a last line too few", "task 1 met 1 missed 0 open 0 window 0 broken 0\n", "", f"{UNKNOWN}''{SOURCES}"),
    ("events that are counted wrong", "event 5 run 1", "event 6 run 1", f"{UNKNOWN}'event 6 run 1 class 0'{SOURCES}"),
    ("a line of another form", "event 5 run 1 class 0", "event 5 run 1 level 0", f"{UNKNOWN}'event 5 run 1 level 0'{SOURCES}"),
    ("a word too many", "event 8 idle", "event 8 idle now", f"{UNKNOWN}'event 8 idle now'{SOURCES}"),
    ("a negative number", "window 1 broken 0", "window -1 broken 0", f"{UNKNOWN}'task 0 met 1 missed 1 open 0 window -1 b..'{SOURCES}"),
    ("no newline at the end", "window 0 broken 0\n", "window 0 broken 0",
     "brumerola: the listing ends within a line, so something of it is lost; run it again"),
    ("lines behind the end", "window 0 broken 0\n", "window 0 broken 0\nmore\n", f"{UNKNOWN}'more'{SOURCES}"),
]

# of bytes that end within a third record
STOPS = [
    ("a stop too late", "stop 5 at 40", "stop 5 at 41", "brumerola: the listing stops at 41, and the events end at 40 with 3 bytes left" + FAULT),
    ("a stop too early", "stop 5 at 40", "stop 5 at 20", "brumerola: the listing has 1 task and 2 events, and the file 1 and 1" + FAULT),
    ("no stop", "stop 5 at 40\n", "", "brumerola: the listing does not stop, and the events end at 40 with 3 bytes left" + FAULT),
    ("a stop of another form", "stop 5 at 40", "stop 5", f"{UNKNOWN}'stop 5'{SOURCES}"),
]

# of the bounds: a bound is a demand of exactly itself
BOUNDS = [
    ("a bound too small", "h 2 bound 7", "h 2 bound 6", "brumerola: the listing and the demand of b differ: bound 6, demand 7" + FAULT),
    ("a bound too large", "h 1 bound 2", "h 1 bound 3", "brumerola: the listing and the demand of a differ: bound 3, demand 2" + FAULT),
    ("no bound, and there is one", "h 2 bound 7", "h 2 bound -", "brumerola: the listing and the demand of b differ: bound -, demand 7" + FAULT),
]


def tried(name, old, new, line, args):
    """One change of the program's text, told to one command."""
    from command import programs

    truth = programs.listing
    files = {"in.txt": TEXT, "in.bin": ONE + event(1) + event(0) + b"EV\0", "out.svg": "older"}
    with folder_with(files) as folder, mock.patch.object(programs, "listing", lambda raw: changed(truth(raw))):
        before = inside(folder)
        changed.by = name, old, new
        ends(f"{name}: {args[0]}", call(args, folder), line)
        hold(f"{name}: files", inside(folder), before)


def changed(text):
    """The text with the one change; one that is not found in it is noted."""
    name, old, new = changed.by
    hold(f"{name}: what is replaced is there", text.count(old) > 0, True)
    return text.replace(old, new, 1)


def look():
    draw, screen = ["timeline", "in.txt", "-o", "out.svg"], ["timeline", "in.txt", "--json"]
    for name, old, new, line in HISTORY:
        for args in draw, screen:
            tried(name, old, new, f"{DIFFERS}{line}{DRAWN}", args)
    for name, old, new, line in FORM:
        for args in draw, ["list", "in.txt"], ["list", "--json", "in.txt"]:
            tried(name, old, new, line, args)
    for name, old, new, line in STOPS:
        tried(name, old, new, line, ["list", "in.bin"])
    for name, old, new, line in BOUNDS:
        tried(name, old, new, line, ["check", "in.txt"])
    return f"{len(HISTORY + FORM + STOPS + BOUNDS)} false listings"
