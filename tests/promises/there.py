"""What there is: crates, edits, definitions and functions by the names that documents give them; and the list of what is missing."""
import os
import pathlib
import re

ROOT = pathlib.Path(__file__).resolve().parent.parent.parent
CRATES = ROOT / "crates"
missing = []


def read(path):
    return path.read_text(encoding="utf-8")


def files(top):
    """The file, or those below the folder, but for what tools make: that may come and go while this looks."""
    if top.is_file():
        return [top]
    found = []
    for folder, folders, names in os.walk(top):
        folders[:] = [x for x in folders if is_ours(pathlib.Path(folder, x))]
        found += [pathlib.Path(folder, x) for x in names]
    return sorted(found)


def sources(kind, suffix):
    return [p for p in files(CRATES) if p.name.endswith(suffix) and kind in ("", p.relative_to(CRATES).parts[1])]


def is_ours(path):
    """Whether no tool made the file: rt keeps what it makes in crates/NAME/out/."""
    parts = path.relative_to(ROOT).parts
    return "__pycache__" not in parts and not (parts[0] == "crates" and parts[2:3] == ("out",))


def texts():
    """Every file of the repository that is text, with what it says."""
    for top in (".ci", "README.md", "brumerola", "command", "crates", "crates.txt", "docs", "examples", "include", "tests"):
        for path in files(ROOT / top):
            try:
                yield path, read(path)
            except UnicodeDecodeError:
                pass


edits = {}  # by an edit's name: the crates that have one of that name
for path in CRATES.glob("*/must-fail/*.edit"):
    edits.setdefault(path.stem, set()).add(path.parent.parent.name)
crates = {p.name for p in CRATES.iterdir() if p.is_dir()}
declared = {}  # by a file's name: the definitions and theorems in it
for path in sources("specs", ".antt") + sources("proofs", ".antt"):
    here = declared.setdefault(path.stem, set())
    here |= set(re.findall(r"^\s*(?:abbrev |unfoldable |pub )*(?:data |record )?([^\s(){}:]+)(?: [({][^)}]*[)}])* :", read(path), re.M))
functions = {}  # by a file's or a crate's name: the functions and types in it
for path in sources("src", ".rt"):
    text = read(path)
    crate = path.relative_to(CRATES).parts[0]
    here = set(re.findall(r"\b(?:fn|struct|enum|const) (\w+)", text)) | set(re.findall(r"^    (?:pub )?(\w+)(?:: | \{|,|\()", text, re.M))
    functions.setdefault(path.stem, set()).update(here | {crate})
    functions.setdefault(crate, set()).update(here | {path.stem})
parts = {path.stem for path in (ROOT / "command").glob("*.py")}  # of the command for people
names = parts | crates | set(declared) | set(functions) | set().union(*declared.values(), *functions.values())
