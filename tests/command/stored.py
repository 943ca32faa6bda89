"""Stored cases of the listing, as people see them: the shown listing and its JSON hold the program's text, and one that is refused is told with its number."""
import re

from follow import followed
from parsed import beside, of_json, of_list
from there import ROOT, call, folder_with, hold

FOLDER = ROOT / "tests/cases/listing"
MOST = 10000  # bytes; longer ones show nothing new


def shown(name, folder, raw, plain):
    """A case whose table is accepted."""
    line = followed(raw)
    names = [f"task{place}" for place in range(len(line.tasks))]
    tasks = [{field: getattr(task, field) for field in "CDTmK"} for task in line.tasks]
    listed, screen = call(["list", "in.bin"], folder), call(["list", "--json", "in.bin"], folder)
    hold(f"{name}: shown", of_list(listed.out.decode(), None, list(beside(line, names)), tasks), plain)
    hold(f"{name}: as JSON", of_json(screen.out, names, line, tasks), plain)
    stop = re.search(r"^stop \d+ at \d+", plain, re.M)
    for found in listed, screen:
        hold(f"{name}: end", (found.status, found.err[: len(f"in.bin: {stop[0]}: ")] if stop else found.err), (0, f"in.bin: {stop[0]}: " if stop else ""))


def refused(name, folder, plain):
    """A case that the program refuses: the number and the place are in the line that is told."""
    line = call(["list", "in.bin"], folder)
    words = "the log is too long" if plain.startswith("input") else plain.strip()
    hold(f"{name}: refused", (line.status, line.out, line.err.startswith(f"in.bin: {words}: "), line.err.count("\n")), (2, b"", True, 1))


def look():
    count = 0
    for path in sorted(FOLDER.glob("*.in"))[::2]:
        raw, plain = path.read_bytes(), path.with_suffix(".out").read_text()
        if b"\0" not in raw and raw[1:3] != b"TK":
            continue  # a few bytes that might as well be text, and are taken for it
        with folder_with({"in.bin": raw}) as folder:
            hold(f"{path.name}: plain", (*call(["list", "--plain", "in.bin"], folder),), (0, plain.encode(), ""))
            if not plain.startswith("task"):
                refused(path.name, folder, plain)
            elif len(raw) < MOST:
                shown(path.name, folder, raw, plain)
        count += 1
    return f"{count} stored listings shown"
