"""The refusal numbers in words (Rules, "Refusal numbers")."""
from .wrong import counted

LIMIT = 10**12
EVENT = {
    10: "the table has no task at this position",
    11: "less than T after the task's last release",
    12: "the task has no open job of this number",
}
STOP = {
    5: "fewer than the 20 bytes of an event record are left",
    6: "no event record begins here: its first two bytes are not 45 56",
    7: "the kind is 3 or more",
    8: "a tick or release has a number in a field that has to be 0",
}


def of_event(number, event, clock):
    """Why an event was refused, which found this clock."""
    if number == 9:
        return f"its time is past {LIMIT:,}" if event.time > LIMIT else f"its time is before the clock, {clock}"
    return EVENT[number]


def of_table(number, place, raw):
    """Why table bytes were refused by 1 or 2: what was found, and what is needed."""
    if number == 2:
        return f"byte {1 + 16 * place} begins no table record: it and the next have to be 54 4B"
    if not raw:
        return "there are no bytes, and the first has to say how many tasks follow"
    if not 1 <= raw[0] <= 16:
        return f"the first byte says {counted(raw[0], 'task')}, and 1 to 16 are needed"
    return f"the first byte says {counted(raw[0], 'task')}, so {16 * raw[0]} bytes have to follow, and {len(raw) - 1} do"


def of_task(number, task):
    """Why a task was refused by 3 or 4: the first of its numbers that breaks a rule, and the rule."""
    if number == 3:
        return next(words for broken, words in times(task) if broken)
    return next(words for broken, words in misses(task) if broken)


def times(task):
    """The rules of C, D and T, each with whether it is broken."""
    yield task.C < 1, "C is 0, and it has to be at least 1"
    yield task.D < task.C, f"D is {task.D} and C is {task.C}, and D has to be at least C"
    yield task.T < task.D, f"T is {task.T} and D is {task.D}, and T has to be at least D"
    yield task.T > 1000000, f"T is {task.T}, and it has to be at most 1000000"


def misses(task):
    """The rules of m and K, each with whether it is broken."""
    yield not 1 <= task.K <= 64, f"K is {task.K}, and it has to be from 1 to 64"
    yield task.m >= task.K, f"m is {task.m} and K is {task.K}, and m has to be smaller than K"
    yield task.m == 0 and task.K != 1, f"m is 0 and K is {task.K}, and a hard task, with m 0, has to have K 1"
