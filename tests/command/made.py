"""Made tables and logs, always the same for a seed: random ones of every size, and a line of 16 tasks whose jobs run as the choice has it."""
import random

from follow import COMPLETION, LIMIT, RELEASE, TICK, Line

MISSES = [(0, 1), (1, 2), (1, 3), (1, 4), (2, 5), (3, 5), (2, 3), (4, 10), (63, 64), (1, 64)]
EDGES = (0, 1, 2, 255, 256, 65535, 2**31, 2**32 - 1)
WIDE = (0, 1, 2, LIMIT - 1, LIMIT, LIMIT + 1, 2**32, 2**63, 2**64 - 1)

# by hand: a result behind the next release, a result of a job that is not open, one before the clock, and a job that is open past its deadline at the end
REFUSED = [(1, 2, 2, 1, 2), (3, 7, 8, 1, 3)], [
    (RELEASE, 0, 0, 0), (RELEASE, 0, 0, 2), (COMPLETION, 0, 1, 2), (COMPLETION, 0, 7, 3), (RELEASE, 1, 0, 3), (COMPLETION, 0, 2, 1), (TICK, 0, 0, 5),
    (RELEASE, 0, 0, 5), (RELEASE, 0, 0, 6), (RELEASE, 0, 0, 9), (RELEASE, 2, 0, 9), (COMPLETION, 1, 9, 20), (TICK, 0, 0, LIMIT + 1)]
# by hand: three refusals at the last tick, whose numbers have no room behind their sign
EDGE = [(1, 2, 2, 1, 2)], [
    (RELEASE, 0, 0, 0), (COMPLETION, 0, 1, 1), (TICK, 0, 0, 30), (COMPLETION, 0, 9, 30), (RELEASE, 2, 0, 30), (TICK, 0, 0, 29)]
# by hand: stretches of 1,000, 200, 100,000 and 2,000,000 ticks without an event, among steps of 10
GAPS = [(1, 5, 10, 1, 2)], [(TICK, 0, 0, time) for time in (0, 10, 20, 30, 40, 50, 1050, 1250)] + [
    (RELEASE, 0, 0, 101250), (COMPLETION, 0, 1, 101252), (RELEASE, 0, 0, 2101255)]


def lawful(seed):
    """A task that the rules of a table allow."""
    D = seed.choice([1, 2, seed.randint(1, 50), seed.randint(1, 10**6), 10**6])
    return seed.choice([1, D, seed.randint(1, D)]), D, seed.choice([D, 10**6, seed.randint(D, 10**6)]), *seed.choice(MISSES)


def any_task(seed):
    """Five numbers that fit their fields, lawful or not."""
    number = lambda: seed.choice([*EDGES, seed.randrange(2**32)])
    return number(), number(), number(), seed.choice([0, 1, 255, seed.randrange(256)]), seed.choice([0, 1, 255, seed.randrange(256)])


def any_event(seed, tasks):
    """An event that reads, with numbers of every size."""
    kind, wide = seed.randrange(3), lambda: seed.choice([*WIDE, seed.randrange(2**64), seed.randrange(100)])
    place = seed.choice([seed.randrange(tasks), seed.randrange(256), 255]) if kind != TICK else 0
    return kind, place, wide() if kind == COMPLETION else 0, wide()


def table_and_log(seed):
    tasks = [lawful(seed) for _ in range(seed.choice([1, 2, seed.randint(1, 16), 16]))]
    return tasks, [any_event(seed, len(tasks)) for _ in range(seed.choice([0, 1, seed.randrange(40)]))]


def busy_task(seed, load):
    T = seed.choice([50, 100, 100, 200, 250, 500, 500, 1000])
    D = seed.randint(T // 2, T)
    return max(1, int(D * seed.uniform(0.5, 1.4) * load)), D, T, *seed.choice(MISSES[:8])


def busy_line(number, count, tasks, load):
    """A line whose jobs take about `load` of their D: jobs take up to their C, some hang, some results come late, some releases too soon."""
    seed = random.Random(number)
    table = [busy_task(seed, load) for _ in range(tasks)]
    line, needs, now = Line(table), {}, 0
    due = [seed.randint(0, task[2]) for task in table]
    while len(line.events) < count:
        running = line.choices[-1][1]
        running = running if running in needs else None
        first = due.index(min(due))
        done = now + needs[running] if running else None
        if done is not None and done <= due[first]:
            now = done
            del needs[running]
            if now <= running.deadline or seed.random() < 0.5:
                line.apply(COMPLETION, running.place, running.number, now)
            continue
        if running:
            needs[running] -= due[first] - now
        now = due[first]
        release(seed, line, first, now, needs)
        due[first] = now + table[first][2] + (seed.randint(0, table[first][2] // 3) if seed.random() < 0.3 else 0)
    return table, line.events[:count]


def release(seed, line, place, now, needs):
    """A release, the time that its job will need, and now and then a tick before or a release too soon behind it."""
    C = line.tasks[place].C
    if seed.random() < 0.02:
        line.apply(TICK, 0, 0, now)
    line.apply(RELEASE, place, 0, now)
    needs[line.tasks[place].jobs[-1]] = C * 4 if seed.random() < 0.03 else seed.randint(max(1, C // 2), C)
    if seed.random() < 0.01:
        line.apply(RELEASE, place, 0, now + 1)
