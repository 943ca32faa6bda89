"""Text to bytes to text, and bytes to text to bytes, are the same: for random tables and logs of every size, and for the stored cases."""
import random

from follow import packed
from made import any_task, table_and_log
from there import ROOT, call, folder_with, hold

COUNT = 300
KINDS = ("tick", "release", "complete")
WHOLE = 12  # so many go through the commands themselves


def written(seed, tasks, events, names):
    """A text for them in a layout of its own: spaces, tabs, comments, zeros in front, positions for names."""
    gap = lambda: seed.choice([" ", "  ", "\t", " \t "])
    number = lambda value: "0" * seed.randrange(3) + str(value)
    end = lambda: seed.choice(["", " ", "# note", " # task a C 1"]) + seed.choice(["\n", "\r\n", "\n\n", "\n# more\n"])
    lines = []
    for name, task in zip(names, tasks):
        words = ["task", name] + [word for field, value in zip("CDTmK", task) for word in (field, number(value))]
        lines.append(gap().join(words) + end())
    for kind, place, job, time in events:
        who = seed.choice([names[place], f"@{number(place)}"]) if place < len(names) else f"@{number(place)}"
        words = [KINDS[kind], *([who] if kind else []), *([number(job)] if kind == 2 else []), "at", number(time)]
        lines.append(gap().join(words) + end())
    return "".join(lines)


def read(text):
    """The numbers of a text that the command wrote, by its words alone."""
    lines = [line.split() for line in text.splitlines() if line]
    names = [words[1] for words in lines if words[0] == "task"]
    tasks = [tuple(map(int, words[3::2])) for words in lines if words[0] == "task"]
    events = []
    for words in lines[len(tasks) :]:
        place = 0 if words[0] == "tick" else names.index(words[1]) if words[1] in names else int(words[1][1:])
        events.append((KINDS.index(words[0]), place, int(words[2]) if words[0] == "complete" else 0, int(words[-1])))
    return names, tasks, events


def by_modules(number, seed):
    """One table and log, also one that the rules of a table refuse: form and bytes do not ask for them."""
    from command import form, records

    tasks, events = table_and_log(seed)
    tasks = [seed.choice([task, task, any_task(seed)]) for task in tasks]
    names = [seed.choice(["a", "Z.", "w-", "\u00e9", "\u6d82"]) + str(place) for place in range(len(tasks))]
    raw = packed(tasks, events)
    text = "".join(form.text_of(records.tasks_of(raw), records.events_of(raw, len(events))))
    hold(f"random {number}: what the text says", read(text), ([f"task{place}" for place in range(len(tasks))], tasks, events))
    hold(f"random {number}: bytes, text, bytes", records.input_bytes(*form.Reader("text").read(text.encode())), raw)
    ours = form.Reader("text").read(written(seed, tasks, events, names).encode())
    hold(f"random {number}: text, bytes", records.input_bytes(*ours), raw)
    again = form.Reader("text").read("".join(form.text_of(*ours)).encode())
    hold(f"random {number}: text, bytes, text", [[value[:-1] for value in part] for part in again], [[value[:-1] for value in part] for part in ours])


def by_commands(name, raw):
    """Bytes to text to bytes to text, as a person would."""
    with folder_with({"a.bin": raw}) as folder:
        steps = ["text a.bin -o a.txt", "bytes a.txt -o b.bin", "text b.bin -o b.txt"]
        hold(f"{name}: ends", [(*call(step.split(), folder),) for step in steps], [(0, b"", "")] * 3)
        if hold(f"{name}: bytes", open(f"{folder}/b.bin", "rb").read(), raw):
            hold(f"{name}: text", open(f"{folder}/b.txt").read(), open(f"{folder}/a.txt").read())


def stored():
    """The stored cases that can be read to their end."""
    for path in sorted((ROOT / "tests/cases/listing").glob("*.in")):
        listed = path.with_suffix(".out").read_text()
        if listed.startswith("task") and "\nstop" not in listed:
            yield path.name, path.read_bytes()


def look():
    seed, count = random.Random(20), 0
    for number in range(COUNT):
        by_modules(number, seed)
    for number in range(WHOLE):
        by_commands(f"whole {number}", packed(*table_and_log(seed)))
    for name, raw in stored():
        by_commands(name, raw)
        count += 1
    return f"{COUNT + WHOLE} random tables and logs and {count} stored ones there and back"
