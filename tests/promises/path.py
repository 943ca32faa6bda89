"""The reading path of the README: its files are the definitions that the guarantee's statement goes back to, all of them, each behind those that it uses."""
import re

from there import CRATES, ROOT, crates, missing, read

START = "guarantee/specs/Guarantee"
USED = r"^use Rattle\.(\w+)\.specs\.(?!declared\.)(\w+)"
STEP = r"^\d+\. `(\w+)`: ((?:`\w+`(?:, )?)+)"


def uses(file):
    """The files of definitions that one uses, as crate/specs/File."""
    return [f"{crate}/specs/{name}" for crate, name in re.findall(USED, read(CRATES / f"{file}.antt"), re.M) if crate in crates]


def reached():
    """All that the guarantee's statement goes back to."""
    found, todo = set(), [START]
    while todo:
        file = todo.pop()
        if file not in found:
            found.add(file)
            todo += uses(file)
    return found


def path():
    """The files of the README's numbered list, in its order."""
    text = read(ROOT / "README.md")
    return [f"{crate}/specs/{name}" for crate, names in re.findall(STEP, text, re.M) for name in re.findall(r"`(\w+)`", names)]


def look():
    wanted, given = reached(), path()
    for file in sorted(wanted - set(given)):
        missing.append(f"README.md: the reading path lacks {file}.antt")
    for file in sorted(set(given) - wanted):
        missing.append(f"README.md: the guarantee does not need {file}.antt of the reading path")
    for at, file in enumerate(given):
        if given.index(file) != at:
            missing.append(f"README.md: {file}.antt stands twice in the reading path")
        for used in uses(file) if file in wanted else []:
            if used not in given[:at]:
                missing.append(f"README.md: {file}.antt stands before {used}.antt, which it uses")
    return f"{len(given)} files to read"
