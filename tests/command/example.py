"""Each command on the example, as a person runs it: from the text and from the bytes, from another folder and through a link, for people and as JSON."""
import os

import checks
from follow import followed
from parsed import beside, events_of, of_json, of_list, of_text
from there import COMMAND, EXAMPLE, ROOT, Ended, call, folder_with, hold, run

PLAIN = (ROOT / "examples/line.out").read_bytes()
BYTES = ROOT / "examples/line.bin"
NAMED = [str(BYTES), "--names", str(EXAMPLE)]
NAMES, TASKS, EVENTS = of_text(EXAMPLE.read_text())
LINE = followed(BYTES.read_bytes())


def printed(what, found):
    """What was printed, once the command has ended well."""
    hold(f"{what}: end", (found.status, found.err), (0, ""))
    return found.out.decode()


def all_of(folder, *many):
    """What commands print: a command is run as a process the first time that its name comes, and called after that."""
    seen = set()
    for args in many:
        how = call if args[0] in seen else run
        seen.add(args[0])
        yield printed(" ".join(args), how(args, folder))


def lists(folder):
    plain, from_bytes, shown, named, bare = all_of(
        folder, ["list", "--plain", str(EXAMPLE)], ["list", "--plain", str(BYTES)], ["list", str(EXAMPLE)], ["list", *NAMED], ["list", str(BYTES)])
    hold("the plain listing of the text", plain.encode(), PLAIN)
    hold("the plain listing of the bytes", from_bytes.encode(), PLAIN)
    hold("the listing with names taken away", of_list(shown, NAMES, list(beside(LINE, NAMES)), TASKS), PLAIN.decode())
    hold("the listing of the bytes with names", named, shown)
    hold("the listing of the bytes without names", of_list(bare, None, list(beside(LINE, [f"task{place}" for place in range(10)])), TASKS), PLAIN.decode())
    hold("the events of the text", list(events_of(LINE, NAMES)), EVENTS)


def screens(folder):
    listed, drawn, checked, from_bytes = all_of(
        folder, ["list", "--json", str(EXAMPLE)], ["timeline", "--json", str(EXAMPLE)], ["check", "--json", str(EXAMPLE)], ["check", str(BYTES)])
    hold("the listing as JSON", of_json(listed, NAMES, LINE, TASKS), PLAIN.decode())
    hold("the timeline as JSON", of_json(drawn, NAMES, LINE, TASKS), PLAIN.decode())
    checks.example(checked, from_bytes, NAMES, TASKS, PLAIN.decode())


def there_and_back(folder):
    made = ["bytes", str(EXAMPLE), "-o", "a.bin"], ["text", *NAMED, "-o", "a.txt"], ["text", str(BYTES)], ["timeline", *NAMED, "-o", "a.svg"]
    outs = list(all_of(folder, *made, ["bytes", "a.txt", "-o", "b.bin"]))
    hold("the bytes of the text", open(f"{folder}/a.bin", "rb").read(), BYTES.read_bytes())
    hold("the text of the bytes", of_text(open(f"{folder}/a.txt").read()), (NAMES, TASKS, EVENTS))
    hold("the text of the bytes without names", of_text(outs[2])[1], TASKS)
    hold("the text of the bytes without names", of_text(outs[2])[0], [f"task{place}" for place in range(10)])
    hold("the bytes of the text of the bytes", open(f"{folder}/b.bin", "rb").read(), BYTES.read_bytes())
    hold("nothing else is made", sorted(os.listdir(folder)), ["a.bin", "a.svg", "a.txt", "b.bin", "link"])


def elsewhere(folder):
    """At the top with the names of the README, and through a link from another folder."""
    with folder_with({}) as other:
        hold("the picture that is stored", (*run(["timeline", "examples/line.txt", "-o", f"{other}/line.svg"], ROOT),), (0, b"", ""))
        hold("the picture that is stored", open(f"{other}/line.svg").read(), (ROOT / "examples/line.svg").read_text())
        hold("through a link", run(["list", "--plain", str(EXAMPLE)], other, command=f"{folder}/link"), Ended(0, PLAIN, ""))


def helps(folder):
    for args, how in ([], run), (["list"], call), (["check"], call), (["timeline"], call), (["bytes"], call), (["text"], call):
        found = how([*args, "--help"], folder)
        shown = found.out.decode().split()
        hold(f"help of {args}", (found.status, shown[:2 + len(args)], found.err), (0, ["usage:", "brumerola", *args], ""))


def look():
    with folder_with({}) as folder:
        os.symlink(COMMAND, f"{folder}/link")
        lists(folder)
        screens(folder)
        there_and_back(folder)
        elsewhere(folder)
        helps(folder)
    count = checks.tables()
    return f"22 runs on the example, {count} tables checked"
