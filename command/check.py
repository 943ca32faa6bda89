"""The engineer's question: does the guarantee hold for this table?

Bounds are the proved program's. The sentence for a task without one shows the sum that fails."""
from . import listing, programs
from .records import input_bytes
from .wrong import Wrong, counted, listed

MOST_NAMED = 4  # of the tasks above, in a sentence
MOST_TIMES = 20000  # that are looked at for the largest C
FAULT = "this is a fault of the command"


def above(tasks, place):
    """The positions of the tasks above one (Rules, "Response bound")."""
    return [other for other, task in enumerate(tasks) if (task.D, other) < (tasks[place].D, place)]


def parts(tasks, place, ticks):
    """The demand in so many ticks, part by part: a task, how many jobs, and their time."""
    yield tasks[place], 1, tasks[place].C
    for other in above(tasks, place):
        jobs = -(-ticks // tasks[other].T)
        yield tasks[other], jobs, jobs * tasks[other].C


def demand(tasks, place, ticks):
    return sum(time for _, _, time in parts(tasks, place, ticks))


def hold(given):
    """The bounds that were printed are held to the demand: a bound is a demand of exactly itself, and without one the deadline is not enough."""
    for place, (task, first) in enumerate(zip(given.tasks, given.listing.first)):
        asked = demand(given.tasks, place, first.bound or task.D)
        if asked != first.bound if first.bound else asked <= task.D:
            bound = first.bound or "-"
            raise Wrong(f"brumerola: the listing and the demand of {task.name} differ: bound {bound}, demand {asked}; {FAULT}")


def failing(given):
    """The positions that have no bound."""
    return [place for place, first in enumerate(given.listing.first) if first.bound is None]


def largest(given, place):
    """The largest C with which a task would have a bound, 0 where none would do; None where too many times would have to be looked at.

    What the tasks above leave is largest at a multiple of some T, just before one more job can come, or at D."""
    own, uppers = given.tasks[place], [given.tasks[other] for other in above(given.tasks, place)]
    if sum(own.D // task.T for task in uppers) > MOST_TIMES:
        return None
    times = {own.D}.union(*(range(task.T, own.D + 1, task.T) for task in uppers))
    most = max(0, max(ticks - sum(-(-ticks // task.T) * task.C for task in uppers) for ticks in times))
    if most and bound_with(given, place, most) is None or bound_with(given, place, most + 1) is not None:
        raise Wrong(f"brumerola: the listing and the largest C of {own.name}, {most}, differ; {FAULT}")
    return most


def bound_with(given, place, C):
    """The bound that the program prints for a task with another C."""
    tasks = [task._replace(C=C) if at == place else task for at, task in enumerate(given.tasks)]
    return listing.parse(programs.listing(input_bytes(tasks, []))).first[place].bound


def advice(most):
    """What a C would do, in a sentence."""
    if most is None:
        return ""
    return f" With a C of at most {most:,} it would have one." if most else " No C would do: the tasks above leave it no time."


def why(given, place):
    """Why a task has no bound, in a sentence: what can be asked for up to its deadline."""
    task = given.tasks[place]
    asked = demand(given.tasks, place, task.D)
    others = sorted((part for part in parts(given.tasks, place, task.D) if part[0] is not task), key=lambda part: -part[2])
    named = others if len(others) <= MOST_NAMED + 1 else others[:MOST_NAMED]
    sums = [f"{time:,} for {counted(jobs, 'job')} of {other.name}" for other, jobs, time in named]
    if len(others) > len(named):
        rest = sum(time for _, _, time in others[len(named) :])
        sums.append(f"{rest:,} for {counted(len(others) - len(named), 'other task')}")
    whole = f"{task.C:,} for its own job, {listed(sums)}"
    return f"{task.name} has no bound: within its D of {task.D:,} ticks, it and the tasks above it can ask for {asked:,}: {whole}."


def share(task):
    """The share of the processor that a task can take, in percent."""
    return 100 * task.C / task.T


def headline(given):
    """The answer. Without all bounds the guarantee says nothing of a table; it does not say that it fails."""
    bad = failing(given)
    if not bad:
        return f"{given.file}: the guarantee holds: every task has a bound."
    names = listed(given.tasks[place].name for place in bad)
    return f"{given.file}: there is no guarantee for this table: {names} {'has' if len(bad) == 1 else 'have'} no bound."


def rows(given):
    """The table: a head, then a row for each task."""
    yield "", "task", "C", "D", "T", "(m,K)", "w", "h", "bound", "slack", "utilisation"
    for place, (task, first) in enumerate(zip(given.tasks, given.listing.first)):
        slack = "-" if first.bound is None else task.D - first.bound
        misses = f"({task.m},{task.K})" if task.m else "hard"
        yield (place, task.name, task.C, task.D, task.T, misses, first.w, first.h, "-" if first.bound is None else first.bound, slack, f"{share(task):.1f} %")


def told(given):
    """What is printed."""
    yield headline(given)
    yield ""
    table = [[str(cell) for cell in row] for row in rows(given)]
    widths = [max(map(len, column)) for column in zip(*table)]
    for row in table:
        yield "  ".join(f"{cell:<{width}}" if place == 1 else f"{cell:>{width}}" for place, (cell, width) in enumerate(zip(row, widths))).rstrip()
    yield ""
    yield f"Together they can take {sum(map(share, given.tasks)):.1f} % of the processor. Slack is D less the bound."
    for place in failing(given):
        yield why(given, place) + advice(largest(given, place))
    if failing(given):
        yield "To mend it, give it a larger D or a smaller C, or the tasks above it a larger T or a smaller C, and check again."
    else:
        yield "It holds while no job runs past its C: docs/RULES.md, \"Chosen time\", has the premise in full."
