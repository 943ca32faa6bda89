"""The house is in order: crates.txt, the folders of crates/ and the table of docs/ARCHITECTURE.md have the same crates, and no line is too long to read."""
import re

from there import ROOT, crates, missing, read, sources

LONGEST = 160


def listed():
    """The crates of crates.txt are the folders of crates/."""
    names = re.findall(r"^(\w+)(?: staticlib)?:", read(ROOT / "crates.txt"), re.M)
    for name in sorted(set(names) - crates):
        missing.append(f"crates.txt: crates/{name} is not there")
    for name in sorted(crates - set(names)):
        missing.append(f"crates.txt: {name} is not listed")
    for name in sorted({x for x in names if names.count(x) > 1}):
        missing.append(f"crates.txt: {name} is listed twice")
    return names


def rows():
    """The crates of the tables of docs/ARCHITECTURE.md whose first column is headed `crate`: a line's number and a name."""
    inside = False
    for number, line in enumerate(read(ROOT / "docs/ARCHITECTURE.md").splitlines(), 1):
        first = line.strip("| ").split("|")[0].strip()
        if not line.startswith("|"):
            inside = False
        elif first.lower() in ("crate", "crates"):
            inside = True
        elif inside:
            yield from ((number, name) for name in re.findall(r"`([^`]+)`", first))


def tabled(names):
    """Each crate stands in one row, and each row's crates are there."""
    found = list(rows())
    for number, name in found:
        if name not in names:
            missing.append(f"docs/ARCHITECTURE.md:{number}: there is no crate `{name}`")
        if [x for _, x in found].index(name) != found.index((number, name)):
            missing.append(f"docs/ARCHITECTURE.md:{number}: `{name}` stands in a row above too")
    for name in names:
        if name not in {x for _, x in found}:
            missing.append(f"docs/ARCHITECTURE.md: `{name}` stands in no row of the table of crates")


def lines_fit():
    for path in sorted(sources("", ".antt") + sources("", ".rt")):
        for number, line in enumerate(read(path).splitlines(), 1):
            if len(line) > LONGEST:
                missing.append(f"{path.relative_to(ROOT)}:{number}: {len(line)} characters, and {LONGEST} are the most")


def look():
    names = listed()
    tabled(names)
    lines_fit()
    return f"{len(names)} crates"
