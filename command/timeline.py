"""The picture of a log as one page: what it is of, the legend, strips of time one below the other, and how each task ended."""
from . import look, svg
from .refusals import STOP
from .scene import Scene
from .strip import LINE, RIGHT, ROOM, WIDTH, Strip
from .why import Reasons
from .wrong import counted, listed

MOST_MISSED = 16  # named in the summary
WIDEST = 6  # a short log is drawn at most so many times as wide
EARLIEST = 0.7  # a strip is filled at least so far


def left_edge(names):
    """Where rows begin: behind the longest name."""
    return max(126, 34 + max(look.wide(name, 12, True) for name in names))


def strips_of(scene, reasons):
    """Strips that are filled, or ended a little earlier where fewer jobs are open."""
    left = left_edge(scene.given.names)
    width = WIDTH - RIGHT - left
    if scene.axis.length < width:
        scene.axis.stretch(min(width / scene.axis.length, WIDEST))
    scene.place()
    ends = breaks(scene, width)
    return [Strip(scene, reasons, left, start, end, end == ends[-1]) for start, end in zip(ends, ends[1:])]


def breaks(scene, width):
    """Where strips begin and end: in the last part of a strip between two marks, where the fewest jobs are open, and as far on as can be."""
    axis, ends = scene.axis, [0.0]
    middles = [(a + b) / 2 for a, b in zip(axis.places, axis.places[1:])]
    while axis.length - ends[-1] > width:
        least, most = ends[-1] + width * EARLIEST, ends[-1] + width
        free = [place for place in middles if least < place < most]
        near = [span for span in scene.job_spans if span[0] < most and span[1] > least]
        ends.append(min(free, key=lambda place: (sum(begin < place < end for begin, end, _ in near), -place), default=most))
    return [*ends, axis.length]


def ended(history):
    """Each task with the listing's last line of it."""
    return list(zip(history.given.tasks, history.given.listing.last))


def summary(history, scene):
    """What the log came to, as sentences and whether each is bad news: its events and jobs, where its reading stopped, what was missed and broken."""
    jobs, names = history.jobs(), history.given.names
    met, missed = sum(job.met is True for job in jobs), history.missed()
    events = counted(len(history.given.events), "event")
    refused = len(history.given.events) - history.accepted
    part = f" Drawn: {scene.start:,} to {scene.end:,} of 0 to {scene.whole:,}." if scene.part else ""
    yield f"{events}, {refused} refused. {counted(met, 'job')} met, {len(missed)} missed, {len(jobs) - met - len(missed)} open.{part}", False
    stop = history.given.listing.stop
    if stop:
        yield f"The log was read up to byte {stop.offset} of its events and stopped there: {STOP[stop.refusal]} (refusal {stop.refusal}).", True
    if missed:
        first = [f"{names[job.task]} {job.number} at {job.deadline:,}" for job in missed[:MOST_MISSED]]
        yield f"Missed: {', '.join(first)}{f' and {len(missed) - MOST_MISSED} more' if len(missed) > MOST_MISSED else ''}.", False
    broken = [f"{task.name} at job {last.broken} (more than {task.m} of {task.K})" for task, last in ended(history) if last.broken]
    yield (f"Broken windows: {listed(broken)}.", True) if broken else ("No window was broken.", False)


def head(history, scene):
    """The title, the summary and the legend, and the height that they take."""
    lines = [(line, bad) for words, bad in summary(history, scene) for line in look.wrapped(words, ROOM, bad)]
    name = history.given.file
    while look.wide(name, 17, True) > ROOM:
        name = ".." + name[12:]
    page = [svg.text(10, 26, name, "head")]
    page.extend(svg.text(10, 46 + LINE * place, line, "bad" if bad else None) for place, (line, bad) in enumerate(lines))
    bottom = 46 + LINE * len(lines)
    return page + [svg.group(look.legend(10, bottom - 8), "legend")], bottom + 56


def table(history, y):
    """How each task ended, by the listing's last lines."""
    heads = ("task", "met", "missed", "open", "missed of the last K", "allowed", "broken at job")
    places = [10, *(left_edge(history.given.names) + more for more in (64, 124, 184, 304, 374, 474))]
    yield svg.text(10, y, "At the end", "name")
    for x, words in zip(places, heads):
        yield svg.text(x, y + 18, words, "small", None if x == 10 else "end")
    for row, (task, last) in enumerate(ended(history)):
        cells = (f"{row} {task.name}", last.met, last.missed, last.open, f"{last.window} of {task.K}", task.m, last.broken or "-")
        for x, cell in zip(places, cells):
            yield svg.text(x, y + 34 + LINE * row, str(cell), "bad" if last.broken else None, None if x == 10 else "end")


def draw(history, start=None, end=None):
    """The whole picture, or the part of it from tick `start` to tick `end`."""
    scene = Scene(history, start, end)
    page, y = head(history, scene)
    for strip in strips_of(scene, Reasons(history)):
        page.append(svg.group(strip.drawn(), place=f"translate(0 {y})"))
        y += strip.height
    page.extend(table(history, y + 16))
    height = y + 56 + LINE * len(history.courses)
    opening = f'<svg xmlns="http://www.w3.org/2000/svg" width="{WIDTH}" height="{height}" viewBox="0 0 {WIDTH} {height}">'
    body = "\n".join(part for part in page if part)
    return f"{opening}\n<style>{look.STYLE}</style>\n<defs>{look.PATTERNS}</defs>\n{svg.rect(0, 0, WIDTH, height, 'page')}\n{body}\n</svg>\n"
