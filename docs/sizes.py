#!/usr/bin/env python3
"""sizes.py: the table of docs/TIMES.md. For each crate, in the order of crates.txt: functions, lines of code, of definitions and of proof that are not empty, and
must-fail edits."""
import pathlib
import re
import sys

ROOT = pathlib.Path(__file__).resolve().parent.parent
ORDER = re.findall(r"^(\w+)(?: staticlib)?:", (ROOT / "crates.txt").read_text(encoding="utf-8"), re.M)


def lines(files):
    return sum(1 for f in files for x in f.read_text(encoding="utf-8").splitlines() if x.strip())


def row(name):
    crate = ROOT / "crates" / name
    code = list(crate.glob("src/**/*.rt"))
    return [
        sum(len(re.findall(r'^(?:pub )?(?:extern "C" )?fn ', f.read_text(encoding="utf-8"), re.M)) for f in code),
        lines(code),
        lines(crate.glob("specs/**/*.antt")),
        lines(crate.glob("proofs/**/*.antt")),
        len(list(crate.glob("must-fail/*.edit"))),
    ]


def main():
    heads = ["functions", "code", "definitions", "proof", "edits"]
    rows = {name: row(name) for name in ORDER}
    rows["all"] = [sum(column) for column in zip(*rows.values())]
    print(f"| crate | {' | '.join(heads)} |\n|{'---|' * (len(heads) + 1)}")
    for name, numbers in rows.items():
        shown = name if name == "all" else f"`{name}`"
        print(f"| {shown} | " + " | ".join(str(n) if n else "" for n in numbers) + " |")


try:
    main()
except OSError as wrong:
    sys.exit(f"sizes.py: {wrong.filename}: {wrong.strerror}")
