"""What `check` says of a table: of the example, and of tables whose bounds were worked out by hand."""
import json

from there import call, folder_with, hold

MEND = "To mend it, give it a larger D or a smaller C, or the tasks above it a larger T or a smaller C, and check again."
KEPT = "It holds while no job runs past its C: docs/RULES.md, \"Chosen time\", has the premise in full."

# a name, the table, the status, and lines that have to be there
TABLES = [
    # above tension: nozzle. In 6 ticks nozzle can ask for ceil(6 / 4) = 2 jobs of 2 ticks, and tension for 3: 7, and 6 are there
    ("the rules' own", "task nozzle C 2 D 4 T 4 m 1 K 2\ntask tension C 3 D 6 T 8 m 1 K 3\n", 1, [
        "in.txt: there is no guarantee for this table: tension has no bound.",
        "0 nozzle 2 4 4 (1,2) 1 1 2 2 50.0 %",
        "1 tension 3 6 8 (1,3) 1 2 - - 37.5 %",
        "Together they can take 87.5 % of the processor. Slack is D less the bound.",
        "tension has no bound: within its D of 6 ticks, it and the tasks above it can ask for 7: 3 for its own job, 4 for 2 jobs of nozzle. "
        "With a C of at most 2 it would have one.",
        MEND]),
    # with D 7 the same demand, 7, is just enough
    ("the rules' own, with a bound", "task nozzle C 2 D 4 T 4 m 1 K 2\ntask tension C 3 D 7 T 8 m 1 K 3\n", 0, [
        "in.txt: the guarantee holds: every task has a bound.", "1 tension 3 7 8 (1,3) 1 2 7 0 37.5 %", KEPT]),
    # equal deadlines: the first stands above. In 5 ticks: b 3 and a 3 are 6. And c, with D 9, 1 + 2 jobs of a and 2 of b in 9 ticks: 13
    ("equal deadlines", "task a C 3 D 5 T 5 m 0 K 1\ntask b C 3 D 5 T 5 m 1 K 2\ntask c C 1 D 9 T 9 m 1 K 2\n", 1, [
        "in.txt: there is no guarantee for this table: b and c have no bound.",
        "0 a 3 5 5 hard 0 1 3 2 60.0 %",
        "b has no bound: within its D of 5 ticks, it and the tasks above it can ask for 6: 3 for its own job, 3 for 1 job of a. "
        "With a C of at most 2 it would have one.",
        "c has no bound: within its D of 9 ticks, it and the tasks above it can ask for 13: 1 for its own job, 6 for 2 jobs of a and 6 for 2 jobs of b. "
        "No C would do: the tasks above leave it no time."]),
    # seven tasks above one: the four that ask for most are named. In 1,000 ticks: 10 jobs of t7 (10 x 70), t6 600, .. t1 100, and 500
    ("many above", "".join(f"task t{n} C {10 * n} D 100 T 100 m 0 K 1\n" for n in range(1, 8)) + "task low C 500 D 1000 T 1000 m 0 K 1\n", 1, [
        "low has no bound: within its D of 1,000 ticks, it and the tasks above it can ask for 3,300: 500 for its own job, "
        "700 for 10 jobs of t7, 600 for 10 jobs of t6, 500 for 10 jobs of t5, 400 for 10 jobs of t4 and 600 for 3 other tasks. "
        "No C would do: the tasks above leave it no time."]),
    # five above are all named: none would be left out for one more word
    ("five above", "".join(f"task t{n} C {10 * n} D 100 T 100 m 0 K 1\n" for n in range(1, 6)) + "task low C 500 D 1000 T 1000 m 0 K 1\n", 1, [
        "low has no bound: within its D of 1,000 ticks, it and the tasks above it can ask for 2,000: 500 for its own job, "
        "500 for 10 jobs of t5, 400 for 10 jobs of t4, 300 for 10 jobs of t3, 200 for 10 jobs of t2 and 100 for 10 jobs of t1. "
        "No C would do: the tasks above leave it no time."]),
    # what a leaves of R ticks: 2 at 4, 4 at 8, 5 at 11, its D; so 5 and not 6
    ("the largest C at D", "task a C 2 D 4 T 4 m 0 K 1\ntask b C 6 D 11 T 12 m 0 K 1\n", 1, [
        "b has no bound: within its D of 11 ticks, it and the tasks above it can ask for 12: 6 for its own job, 6 for 3 jobs of a. "
        "With a C of at most 5 it would have one."]),
    # what a leaves: 3 at 5, and 1 at 6, its D, where a second job of a can come
    ("the largest C before D", "task a C 2 D 5 T 5 m 0 K 1\ntask b C 4 D 6 T 12 m 0 K 1\n", 1, [
        "b has no bound: within its D of 6 ticks, it and the tasks above it can ask for 8: 4 for its own job, 4 for 2 jobs of a. "
        "With a C of at most 3 it would have one."]),
    # a million jobs of a are not gone through one by one
    ("too many times", "task a C 1 D 1 T 1 m 0 K 1\ntask b C 1 D 1000000 T 1000000 m 0 K 1\n", 1, [
        "b has no bound: within its D of 1,000,000 ticks, it and the tasks above it can ask for 1,000,001: 1 for its own job, "
        "1,000,000 for 1,000,000 jobs of a."]),
]


def tables():
    for name, text, status, lines in TABLES:
        with folder_with({"in.txt": text + "release @0 at 5\n" * 2}) as folder:
            found = call(["check", "in.txt"], folder)
            hold(f"check {name}: end", (found.status, found.err), (status, ""))
            shown = [" ".join(line.split()) for line in found.out.decode().splitlines()]
            for line in lines:
                hold(f"check {name}: a line '{line}'", shown.count(line), 1)
            without = sum(line.split()[-4] == "-" for line in rows(shown))
            hold(f"check {name}: how many have none", sum(" has no bound: " in line for line in shown), without)
            as_json(name, json.loads(call(["check", "--json", "in.txt"], folder).out), shown)
    return len(TABLES)


def rows(shown):
    """The rows of the table that was shown."""
    return [line for line in shown if line.endswith("%") and line[0].isdigit()]


def largest(C):
    """The sentence behind a reason."""
    return "" if C is None else f" With a C of at most {C} it would have one." if C else " No C would do: the tasks above leave it no time."


def as_json(name, told, shown):
    """The same numbers as JSON."""
    found = []
    for task in told["tasks"]:
        misses = f"({task['m']},{task['K']})" if task["m"] else "hard"
        bound, slack = ("-", "-") if task["bound"] is None else (task["bound"], task["slack"])
        numbers = [task[field] for field in ("position", "name", "C", "D", "T")] + [misses, task["w"], task["h"], bound, slack]
        found.append(f"{' '.join(map(str, numbers))} {100 * task['utilisation']:.1f} %")
    hold(f"check {name}: rows as JSON", found, rows(shown))
    reasons = [line for line in shown if " has no bound: " in line]
    hold(f"check {name}: reasons as JSON", [task["why"] + largest(task["largest_C"]) for task in told["tasks"] if task["why"]], reasons)
    more = told["utilisation"] - sum(task["C"] / task["T"] for task in told["tasks"])
    hold(f"check {name}: JSON", (told["guaranteed"], round(more, 9)), (" has no bound: " not in "".join(shown), 0))


def example(text, from_bytes, names, tasks, plain):
    """The example's check, as JSON of the text and for people of the bytes, against the first lines of the listing."""
    told = json.loads(text)
    as_json("of the example", told, [line.replace(f"task{place} ", f"{name} ") for line in [" ".join(line.split()) for line in from_bytes.splitlines()]
                                     for place, name in enumerate(names) if line.startswith(f"{place} ")])
    hold("check of the example", from_bytes.splitlines()[0].split(": ", 1)[1], "the guarantee holds: every task has a bound.")
    for task, numbers, line in zip(told["tasks"], tasks, plain.splitlines()):
        bound = int(line.split()[-1])
        hold("a bound of the example", (task["bound"], task["slack"], task["utilisation"]), (bound, numbers["D"] - bound, numbers["C"] / numbers["T"]))
