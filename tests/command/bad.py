"""Wrong inputs and uses: each ends with status 2 and its one line on standard error, prints nothing, and leaves every file as it was."""
import os
from concurrent.futures import ThreadPoolExecutor

import bad_bytes
import bad_programs
import bad_streams
import bad_texts
import bad_uses
from there import call, folder_with, hold, inside, run

# the commands that read a text
READERS = (["list", "in.txt"], ["check", "in.txt"], ["timeline", "in.txt", "-o", "out.svg"], ["bytes", "in.txt", "-o", "out.bin"], ["list", "--json", "in.txt"])
EVENTS = ("tick", "release", "complete")
OLD = {"out.svg": "an older picture", "out.bin": "older bytes", "out.txt": "an older text"}
USES = {"good.txt": bad_uses.GOOD, "good.bin": bad_bytes.ONE + bad_bytes.event(1) + bad_bytes.event(2, 0, 1, 1) + bad_bytes.event(0, 0, 0, 9)}
EACH = 8  # a case in so many is run as a process too


def ends(name, found, line):
    """Status, streams and the one line; None for a line stands for argparse's own words."""
    if line is None and found.err.startswith("brumerola") and found.err.endswith("--help' tells more\n") and found.err.count("\n") == 1:
        line = found.err[:-1]
    hold(name, (found.status, found.out, found.err), (2, b"", f"{line}\n"))


def tried(how, name, files, args, line):
    """One wrong use in a folder of its own."""
    with folder_with(files) as folder:
        if files is USES:
            os.mkdir(f"{folder}/folder")
            os.symlink("loop", f"{folder}/loop")
            os.symlink("good.txt", f"{folder}/link.svg")
        before = inside(folder)
        ends(name, how(args, folder), line)
        hold(f"{name}: files", inside(folder), before)


def of_texts():
    for place, (name, text, line) in enumerate(bad_texts.CASES):
        yield name, {"in.txt": text}, READERS[0 if of_the_log(text, line) else place % len(READERS)], line


def of_bytes():
    for name, words, raw, line in bad_bytes.CASES:
        yield f"bytes: {name}", {**bad_bytes.FILES, "in.bin": raw or b""}, words.split(), line


def of_uses():
    for name, args, line in bad_uses.CASES:
        yield name, USES, args, line


def by_two_readers():
    """A wrong text gives its line whichever command reads it, and an older output stays."""
    for place, (name, text, line) in enumerate(bad_texts.CASES):
        for args in READERS[place % 5], READERS[(place + 2) % 5]:
            if args[0] == "check" and of_the_log(text, line):
                left_out(name, text)
            else:
                tried(call, f"{name}: {' '.join(args)}", {"in.txt": text, **OLD}, args, line)


def of_the_log(text, line):
    """Whether what is wrong stands in a line of an event, or is that one stands above a task; `check` leaves the log out."""
    number = line.split(":")[1]
    return "after the event" in line or number.isdigit() and not isinstance(text, bytes) and text.split("\n")[int(number) - 1].split(" ")[0] in EVENTS


def left_out(name, text):
    with folder_with({"in.txt": text}) as folder:
        found = call(["check", "in.txt"], folder)
        hold(f"{name}: check leaves it out", (found.status, found.err), (0, ""))


def look():
    texts, others = list(of_texts()), [*of_bytes(), *of_uses()]
    hold("wrong uses with a name of their own", len({case[0] for case in texts + others}), len(texts + others))
    with ThreadPoolExecutor(os.cpu_count()) as pool:
        list(pool.map(lambda case: tried(run, *case), texts[::EACH] + others[::EACH]))
    by_two_readers()
    for case in others:
        tried(call, *case)
    more = bad_streams.look(ends) + bad_programs.look(ends)
    return f"{len(texts) + len(others) + more} wrong inputs and uses"
