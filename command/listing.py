"""The listing's text as data (Rules, "The listing"), line by line; a line of another form is an error."""
import re
from collections import namedtuple

from .wrong import Wrong, shown

First = namedtuple("First", "w h bound")  # bound: None where the task has none
Answer = namedtuple("Answer", "run cls refused")  # run: the chosen position, None for idle; refused: the number, 0 for an accepted event
Stop = namedtuple("Stop", "refusal offset")
Last = namedtuple("Last", "met missed open window broken")
Listing = namedtuple("Listing", "text first answers stop last")

FIRST = re.compile(r"task (\d+) w (\d+) h (\d+) bound (\d+|-)")
RUN = re.compile(r"event (\d+) run (\d+) class (\d+)")
IDLE = re.compile(r"event (\d+) idle")
REFUSED = re.compile(r"event (\d+) refused (\d+)")
STOP = re.compile(r"stop (\d+) at (\d+)")
LAST = re.compile(r"task (\d+) met (\d+) missed (\d+) open (\d+) window (\d+) broken (\d+)")
TABLE = re.compile(r"table refused (\d+) at (\d+)\n")
TOO_LONG = "input too long\n"


def refusal(text):
    """The number and position of a refused table, or None."""
    found = TABLE.fullmatch(text)
    return (int(found[1]), int(found[2])) if found else None


def answer_of(line, number):
    """The answer in the line of event `number`, or None for another line."""
    for form, make in (
        (RUN, lambda run, cls: Answer(run, cls, 0)),
        (IDLE, lambda: Answer(None, None, 0)),
        (REFUSED, lambda refused: Answer(None, None, refused)),
    ):
        found = form.fullmatch(line)
        if found and int(found[1]) == number:
            return make(*map(int, found.groups()[1:]))
    return None


class Lines:
    """The lines of a listing, taken from the top."""

    def __init__(self, text):
        self.rest = text.split("\n")[::-1]

    def take(self, make):
        """What `make` makes of the next line, which is then taken; None, and nothing is taken, where it makes nothing of it."""
        made = make(self.rest[-1]) if self.rest else None
        if made is not None:
            self.rest.pop()
        return made

    def while_made(self, make):
        """All that `make` makes of the lines, counted from 0, up to the first of another form."""
        made = []
        while True:
            one = self.take(lambda line: make(line, len(made)))
            if one is None:
                return made
            made.append(one)


def placed(form, make):
    """A line of this form for the task at the given position."""

    def of(line, place):
        found = form.fullmatch(line)
        return make(*found.groups()[1:]) if found and int(found[1]) == place else None

    return of


def parse(text):
    """The listing of a table that was accepted."""
    lines = Lines(text)
    first = lines.while_made(placed(FIRST, lambda w, h, bound: First(int(w), int(h), None if bound == "-" else int(bound))))
    answers = lines.while_made(lambda line, place: answer_of(line, place + 1))
    stop = lines.take(lambda line: STOP.fullmatch(line))
    last = lines.while_made(placed(LAST, lambda *numbers: Last(*map(int, numbers))))
    if not lines.rest:
        raise Wrong("brumerola: the listing ends within a line, so something of it is lost; run it again")
    if lines.rest != [""] or len(first) != len(last) or not first:
        raise Wrong(f"brumerola: the listing has a line that this command does not know, {shown(lines.rest[-1])}; build both from the same sources")
    return Listing(text, first, answers, Stop(*map(int, stop.groups())) if stop else None, last)
