"""What the documents name is there: in docs/PROMISES.md, docs/ARCHITECTURE.md and docs/DECISIONS.md; and every must-fail edit is named by a promise."""
import re

from there import CRATES, ROOT, crates, declared, edits, functions, missing, names, read

WORDS = {"&", "-", "let", "loop", "requires", "specs", "proofs", "must-fail", "pub", "es", "i", "result"}
# words of the language and of its prover that the other two documents name
OTHERS = {"i32", "u64", "count_ones", "take", "out", "Read", "Result", "Option", "From", "alloc1", "rt"}


def stands(path):
    """A file or folder of the repository, of the crates or of one crate."""
    path = path.rstrip("/")
    return (ROOT / path).exists() or (CRATES / path).exists() or any(any(CRATES.glob(f"*/{path}{end}")) for end in ("", ".antt"))


def known(word):
    if "/" in word:
        return stands(word)
    parts = [x for x in re.split(r"::|\.", word) if x and x != "antt"]
    inside = all(b in functions.get(a, names) for a, b in zip(parts, parts[1:])) if "::" in word else True
    return inside and all(x in names or x in edits or x in WORDS for x in parts)


def check_line(at, line, edit_column):
    for token in re.findall(r"`([^`]+)`", line):
        if not known(token.split()[0]):
            missing.append(f"{at}: `{token}` names nothing")
    # `File` name, name: the names stand in that file
    for stem, tokens in re.findall(r"\b([A-Z]\w+) ((?:`[^` ]+`(?:, | and )?)+)", line):
        for token in re.findall(r"`([^`]+)`", tokens):
            if stem in declared and token not in declared[stem] and "::" not in token and token not in crates:
                missing.append(f"{at}: `{token}` is not in {stem}")
    for stem, token in re.findall(r"`([A-Z]\w+)\.([\w-]+)`", line):
        if stem in declared and token not in declared[stem]:
            missing.append(f"{at}: `{token}` is not in {stem}")
    # `crate` File: the file stands in that crate
    for crate, stem in re.findall(r"`(\w+)` ([A-Z]\w+)\b", line):
        if crate in crates and stem in declared and not any((CRATES / crate / kind / f"{stem}.antt").exists() for kind in ("specs", "proofs")):
            missing.append(f"{at}: {stem} is not in `{crate}`")
    # `crate`: `edit`, `edit`: the edits stand in that crate
    for crate, tokens in re.findall(r"`(\w+)`: ((?:`\w+`(?:, )?)+)", line):
        for token in re.findall(r"`(\w+)`", tokens):
            if crate in crates and token in edits and crate not in edits[token]:
                missing.append(f"{at}: `{token}` is no edit of `{crate}`")
    if edit_column:
        for token in re.findall(r"`([^`]+)`", line.strip().strip("|").split("|")[-1]):
            if token not in edits and token not in crates:
                missing.append(f"{at}: there is no edit `{token}`")


def promises_name():
    in_edits = False
    for number, line in enumerate(read(ROOT / "docs/PROMISES.md").splitlines(), 1):
        if not line.startswith("|"):
            in_edits = False
        elif re.search(r"\| (Must-fail edits|Edits) \|$", line):
            in_edits = True
        check_line(f"docs/PROMISES.md:{number}", line, in_edits)


def others_name():
    for document in ("ARCHITECTURE", "DECISIONS"):
        for number, line in enumerate(read(ROOT / f"docs/{document}.md").splitlines(), 1):
            for token in re.findall(r"`([\w-]+(?:(?:::|\.|/)[\w-]+)*/?)`", line):
                if not known(token) and not set(token.split("::")) <= OTHERS:
                    missing.append(f"docs/{document}.md:{number}: `{token}` names nothing")


def edits_are_told():
    """Every edit stands in a promise behind its crate's name; a name may stand for edits of several crates."""
    text = re.sub(r"\s+", " ", read(ROOT / "docs/PROMISES.md"))
    told = {(crate, name) for crate, group in re.findall(r"`(\w+)`: ((?:`\w+`(?:, )?)+)", text) for name in re.findall(r"`(\w+)`", group)}
    for crate, name in sorted((crate, name) for name in edits for crate in edits[name]):
        if (crate, name) not in told:
            missing.append(f"docs/PROMISES.md: no promise names the edit {name} of {crate}, as `{crate}`: `{name}`")


def look():
    promises_name()
    others_name()
    edits_are_told()
    return f"{sum(len(x) for x in edits.values())} edits"
