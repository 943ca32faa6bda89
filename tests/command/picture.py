"""The timeline's picture, read back: it shows the jobs, the choice and the refusals of the rules, at one place for one time, and its counts are those
of the listing."""
import random
import re
from collections import Counter

import reasons
from follow import TICK, followed, packed
from made import EDGE, GAPS, REFUSED, busy_line, table_and_log
from page import Page
from scale import Scale
from there import EXAMPLE, ROOT, call, folder_with, hold

SIGNS = {"met": "met", "cross": "missed"}
ALL = range(10**14)


def name_of(place, names):
    return names[place] if names else f"task{place}"


def told(job, names):
    """What a browser shows of a job."""
    ended = f"met at {job.closed}" if job.state == "met" else job.state
    return f"{name_of(job.place, names)} {job.number}: class {job.cls}, released at {job.release}, due at {job.deadline}, {ended}"


def ended(job):
    """The time at which the sign of a closed job stands; -1 for an open one."""
    return {"met": job.closed, "missed": job.deadline, "open": -1}[job.state]


def counts(what, page, line, part):
    """Ticks and crosses of each row are the jobs that ended in the part; the table below is the listing's last lines."""
    drawn = Counter((SIGNS[sign.kind], sign.row) for strip in page.strips for sign in strip.signs if sign.kind in SIGNS)
    hold(f"{what}: signs by row", drawn, Counter((job.state, job.place) for job in line.jobs() if ended(job) in part))
    more = Counter((sign.kind, sign.row) for strip in page.strips for sign in strip.signs if sign.kind in ("ring", "used"))
    rings = Counter(("ring", job.place) for job in line.jobs() if job.number == line.tasks[job.place].broken and job.deadline in part)
    hold(f"{what}: rings and notches by row", more, rings + Counter(("used", job.place) for job in line.jobs() if used_up(line, job) in part))
    for cells, task in zip(page.table(), line.tasks):
        words = task.last_line().split()
        wanted = [words[3], words[5], words[7], f"{words[9]} of {task.K}", str(task.m), words[11] if task.broken else "-"]
        hold(f"{what}: the table's row {task.place}", cells[1:], wanted)
    hold(f"{what}: rows of the table", len(page.table()), len(line.tasks))


def summary(what, page, line, names):
    """What stands above the legend: the counts of all, what was missed, and which windows were broken."""
    states, count = Counter(job.state for job in line.jobs()), len(line.events)
    events = f"{count:,} event{'s' * (count != 1)}, {sum('refused' in answer for answer in line.answers)} refused."
    wanted = f"{events} {states['met']:,} job{'s' * (states['met'] != 1)} met, {states['missed']} missed, {states['open']} open."
    head = " ".join(page.words[: page.words.index("At the end")]).replace("     ", " ")
    hold(f"{what}: summary", head[: len(wanted) + 7], f"in.bin {wanted}")
    missed = sorted((job for job in line.jobs() if job.state == "missed"), key=lambda job: (job.deadline, job.place))
    first = ", ".join(f"{name_of(job.place, names)} {job.number} at {job.deadline:,}" for job in missed[:16])
    wanted = f" Missed: {first}{f' and {len(missed) - 16} more' if len(missed) > 16 else ''}. "
    hold(f"{what}: what was missed", wanted in head if missed else " Missed:" not in head, True)
    broken = [f"at job {task.broken} (more than {task.m} of {task.K})" for task in line.tasks if task.broken]
    hold(f"{what}: broken windows", (re.findall(r"at job \d+ \(more than \d+ of \d+\)", head), "No window was broken." in head), (broken, not broken))


def used_up(line, job):
    """The tick at which a job that goes on has been the choice for its C; -1 where there is none."""
    spans, left = line.chosen(job), line.tasks[job.place].C
    if sum(end - start for start, end in spans) <= left:
        return -1
    for start, end in spans:
        if end - start >= left:
            return start + left
        left -= end - start
    return -1


def jobs(what, page, line, names, now, part):
    """Each job has its release, its deadline and its bars in its row, at their times."""
    wanted = {told(job, names): job for job in line.jobs()}
    seen, reached, times = Counter(), {}, sign_times(line, part)
    for strip in page.strips:
        scale = Scale(strip)
        for x in strip.ended:
            scale.note(now, x, "the end of the log")
        if strip is page.strips[0]:
            scale.note(part.start, strip.left, "the left edge")
        if strip is page.strips[-1] and part.stop != ALL.stop:
            scale.note(part.stop - 1, strip.right, "the right edge")
        for group in strip.groups:
            job = wanted.get(group.title.split(";")[0])
            if job is None:
                hold(f"{what}: a job that is drawn", group.title, "none of this kind")
                continue
            for sign in group.signs:
                scale.note(job.release if sign.kind == "up" else job.deadline, sign.x, sign.kind)
                seen[job, sign.kind] += 1
            rows = {part.row for part in group.signs + group.bars}
            hold(f"{what}: rows of {group.title}", rows, {job.place})
            bars(scale, group, job, now, reached)
        alone(scale, strip, times)
        hold(f"{what}: places and times", scale.wrong(), [])
    hold(f"{what}: bars without an end", [(told(key[0], names), *key[1:], ends) for key, ends in reached.items() if part is ALL and len(ends) < 2][:2], [])
    late = {job for job in line.jobs() if (now if job.state == "open" else job.closed) > job.deadline}
    hold(f"{what}: jobs with a bar past their deadline", {key[0] for key in reached if key[1] == "over"} if part is ALL else late, late)
    times = [(job, "up", job.release) for job in line.jobs()] + [(job, "down", job.deadline) for job in line.jobs()]
    hold(f"{what}: releases and deadlines", seen, Counter((job, kind) for job, kind, time in times if time in part))


def bars(scale, group, job, now, reached):
    """The bars of a group: open up to the deadline, past it, or the choice; `reached` gets which ends of each stand in a strip."""
    until = now if job.state == "open" else job.closed
    chosen = group.title.partition("; the choice from ")[2].split(" to ")
    for bar in group.bars:
        if bar.kind == "wait":
            start, end = job.release, min(until, job.deadline)
        elif bar.kind == "over":
            start, end = job.deadline, until
        else:
            start, end = map(int, chosen)
        reached.setdefault((job, bar.kind, start, end), set()).update(scale.note_bar(start, end, bar))


def sign_times(line, part):
    """By kind and row, the times of all signs that stand alone, in order."""
    times = {("flag", None): sorted({at for at, _ in refusals(line)})}
    times["tick", None] = sorted(event[3] for event, answer in zip(line.events, line.answers) if event[0] == TICK and "refused" not in answer)
    for row, task in enumerate(line.tasks):
        for kind, state in SIGNS.items():
            times[kind, row] = sorted(ended(job) for job in task.jobs if job.state == state)
        times["used", row] = sorted(used_up(line, job) for job in task.jobs)
    return {key: iter([time for time in found if time in part]) for key, found in times.items()}


def alone(scale, strip, times):
    """The signs of a strip that stand alone: the next ones of their kind and row."""
    for kind, row, x in sorted((sign for sign in strip.signs if (sign.kind, sign.row) in times), key=lambda sign: (sign.kind, sign.row or 0, sign.x)):
        scale.note(next(times[kind, row], -1), x, kind)


def choice(what, page, line, names, now, part):
    """At every tick the bar that is drawn is the job that the rules choose; where ticks are many, at every tick at which something changes."""
    drawn = {}
    for strip in page.strips:
        for group in strip.groups:
            job, _, span = group.title.partition("; the choice from ")
            if span:
                drawn[tuple(map(int, span.split(" to ")))] = job, group.bars[0].kind, group.digit
    steps = {time for time, _ in line.choices} | {edge for span in drawn for edge in span} | {job.deadline for job in line.jobs()}
    ticks = range(part.start, min(now, part.stop - 1)) if now < 3000 else sorted(tick for tick in steps if tick < now and tick + 1 in part and tick in part)
    spans, wanted, at = sorted(drawn), [], 0
    found = follow_spans(ticks, spans, drawn)
    for tick in ticks:
        while at + 1 < len(line.choices) and line.choices[at + 1][0] <= tick:
            at += 1
        job = line.choices[at][1]
        wanted.append((tick, job and told(job, names), job and ("late" if tick >= job.deadline else f"c{min(job.cls, 3)}")))
    hold(f"{what}: the choice", next((pair for pair in zip(found, wanted) if pair[0] != pair[1]), None), None)
    for job, kind, digit in drawn.values():
        hold(f"{what}: the digit of {job}", digit in (None, job.split("class ")[1].split(",")[0]), True)


def follow_spans(ticks, spans, drawn):
    """What is drawn as the choice at each tick."""
    found, at = [], 0
    for tick in ticks:
        while at < len(spans) and spans[at][1] <= tick:
            at += 1
        inside = at < len(spans) and spans[at][0] <= tick
        found.append((tick, *drawn[spans[at]][:2]) if inside else (tick, None, None))
    return found


def refusals(line):
    """Where each refused event is drawn: at its time, or at the clock where that is refused; and its task's row, or None."""
    for event, answer, clock in zip(line.events, line.answers, line.clocks):
        if "refused" in answer:
            yield clock if answer.endswith(" 9") else event[3], event[1] if event[0] != TICK and event[1] < len(line.tasks) else None


def refused(what, page, line, part):
    """A flag for each time of a refusal, and a diamond in the row of each refused event's task."""
    found = {one for one in refusals(line) if one[0] in part}
    drawn = Counter((sign.kind, sign.row) for strip in page.strips for sign in strip.signs if sign.kind in ("flag", "diamond"))
    rows = Counter(("diamond", row) for _, row in found if row is not None)
    hold(f"{what}: flags and diamonds", drawn, rows + Counter({("flag", None): len({at for at, _ in found})}))


def held(what, raw, names, svg, why, part):
    """One picture, of all ticks or of a part of them."""
    page, line = Page(svg), followed(raw)
    if what == "long gaps":
        gaps(page)
    hold(f"{what}: outside the page", page.outside()[:3], [])
    hold(f"{what}: rows", {tuple(strip.names) for strip in page.strips}, {tuple(f"{place} {name_of(place, names)}" for place in range(len(line.tasks)))})
    now = line.now()
    refused(what, page, line, part)
    summary(what, page, line, names)
    counts(what, page, line, part)
    jobs(what, page, line, names, now, part)
    choice(what, page, line, names, now, part)
    reasons.held(what, page, line, names, why, part)


def cases():
    """A name, bytes, and names of tasks, and from when to when it is drawn where it is a part."""
    names = [words.split()[1] for words in EXAMPLE.read_text().splitlines() if words.startswith("task ")]
    for part in (), (1200, 1800), (0, 97), (1304, 1744), (1000, 1044), (2100, 2320):
        yield f"the example {part}", (ROOT / "examples/line.bin").read_bytes(), names, *part
    for path in sorted((ROOT / "tests/cases/listing").glob("*.in"))[::3]:
        raw = path.read_bytes()
        if path.with_suffix(".out").read_text().startswith("task") and len(raw) < 10000:
            yield f"tests/cases/listing/{path.name}", raw, None
    yield "refused completions", packed(*REFUSED), None
    yield "refused at the edge", packed(*EDGE), None
    yield "long gaps", packed(*GAPS), None
    yield "16 tasks", packed(*busy_line(1, 3000, 16, 0.1)), None
    yield "5 tasks that are overloaded", packed(*busy_line(2, 400, 5, 0.6)), None
    yield "3 tasks for some hundred ticks", packed(*busy_line(3, 60, 3, 0.4)), None
    seed = random.Random(4)
    for number in range(12):
        yield f"random {number}", packed(*table_and_log(seed)), None


def gaps(page):
    """What is cut out of a long stretch is told with its length; the third has no room for it."""
    cuts = [text.text for strip in page.strips for text in strip.texts if text.text.endswith(" cut")]
    hold("long gaps: what is cut", (cuts[:2], sum(len(strip.cuts) for strip in page.strips)), (["1,000 cut", "100,000 cut"], 3))


def stops(raw):
    """Whether the log does not read to its end; then a line on standard error says so."""
    return 1 + 16 * raw[0] + 20 * len(followed(raw).events) < len(raw)


def look():
    count = 0
    for what, raw, names, *part in cases():
        with folder_with({"in.bin": raw}) as folder:
            args = ["in.bin", *(["--names", str(EXAMPLE)] if names else [])]
            words = ["--from", str(part[0]), "--to", str(part[1])] if part else []
            found = call(["timeline", *args, *words, "-o", "out.svg"], folder)
            if hold(f"{what}: drawn", (found.status, found.out, found.err.count("\n"), ": stop " in found.err), (0, b"", int(stops(raw)), stops(raw))):
                why = call(["timeline", *args, "--json"], folder).out
                held(what, raw, names, open(f"{folder}/out.svg", encoding="utf-8").read(), why, range(part[0], part[1] + 1) if part else ALL)
        count += 1
    return f"{count} pictures"
