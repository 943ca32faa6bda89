#!/usr/bin/env python3
"""Brings the must-fail edits to the text of today's files, as port.py and spelling.py turned those files.

usage: python3 tools/port/edits.py turn OLD WORK     OLD is a checkout of the last commit before port.py, WORK a folder that isn't there yet
       python3 tools/port/edits.py check             sees that each edit still fits; exits with 1 where one does not

turn takes the edits that are as they were in OLD and whose text no longer stands, or has words that are spelled otherwise today. It puts them into
copies of OLD without its proofs of functions, and lets port.py and spelling.py turn these as they turned the repository. The lines by which such a
copy differs from one with no edit are the edit in today's words. What is left for the hand is printed. It takes half an hour.
"""

import difflib
import glob
import os
import re
import shutil
import subprocess
import sys

HERE = os.path.dirname(os.path.realpath(__file__))
ROOT = os.path.dirname(os.path.dirname(HERE))
sys.path.insert(0, HERE)
sys.dont_write_bytecode = True
import spelling  # noqa: E402

# the toolchain's own scripts lie beside the folder of its command
PORT = os.path.join(os.path.dirname(os.path.dirname(os.path.realpath(shutil.which("rt") or "rt"))), "port")


def read(path):
    with open(path, encoding="utf-8") as f:
        return f.read()


def write(path, text):
    with open(path, "w", encoding="utf-8") as f:
        f.write(text)


def edits(root):
    """Of every edit its crate, its name, the remarks at its head, its file and its pairs."""
    found = []
    for path in sorted(glob.glob(os.path.join(root, "crates", "*", "must-fail", "*.edit"))):
        head, name, pairs, old = [], None, [], None
        for line in read(path).split("\n"):
            kind, _, rest = line.partition(": ")
            if kind == "file":
                name = rest
            elif kind == "old":
                old = rest
            elif kind == "new":
                pairs.append((old, rest))
            elif line:
                head.append(line)
        crate = path.split(os.sep)[-3]
        found.append((crate, os.path.basename(path), head, name, pairs))
    return found


def applied(text, pairs):
    """The text with each old TEXT replaced in turn, or none where one does not stand there exactly once."""
    for old, new in pairs:
        if old == new or text.count(old) != 1:
            return None
        text = text.replace(old, new)
    return text


def lines_of(text, pairs):
    """The numbers of the lines that an edit changes."""
    return {text[:text.index(old)].count("\n") for old, _ in pairs}


def rounds(old, found):
    """The edits in lists in which no line is changed twice, none takes another's text away, and one of several lines is alone in its file."""
    lists = []
    for edit in found:
        crate, _, _, file, pairs = edit
        whole = read(os.path.join(old, "crates", crate, file))
        here = lines_of(whole, pairs) if len(pairs) == 1 else set(range(whole.count("\n") + 1))
        for edits_here, changed in lists:
            text, lines = changed.get((crate, file), (whole, set()))
            if not here & lines and applied(text, pairs) is not None:
                break
        else:
            text, lines, edits_here, changed = whole, set(), [], {}
            lists.append((edits_here, changed))
        edits_here.append(edit)
        changed[crate, file] = applied(text, pairs), lines | here
    return [edits_here for edits_here, _ in lists]


def turned_copy(old, to, some):
    """A copy of old without its proofs of functions, with some edits, as port.py and spelling.py turn it."""
    shutil.copytree(old, to, ignore=shutil.ignore_patterns("out", ".git"))
    for folder in glob.glob(os.path.join(to, "crates", "*", "proofs", "*", "")):
        shutil.rmtree(folder)
    for crate, name, _, file, pairs in some:
        path = os.path.join(to, "crates", crate, file)
        text = applied(read(path), pairs)
        if text is None:
            sys.exit(f"{crate}/{name} does not fit {old}")
        write(path, text)
    for words in (["init", "-q", "."], ["add", "-A"], ["-c", "user.name=edits", "-c", "user.email=edits", "commit", "-q", "-m", "as it was"]):
        subprocess.run(["git", *words], cwd=to, check=True)
    script = f"import sys; sys.path.insert(0, {PORT!r}); import port; port.SAID = {to + '.said'!r}; sys.exit(port.main([]))"
    subprocess.run([sys.executable, "-B", "-c", script], cwd=to, check=True, stdout=subprocess.DEVNULL)
    subprocess.run([sys.executable, "-B", os.path.join(HERE, "spelling.py"), to], check=True, stdout=subprocess.DEVNULL)


def by_word(text, file):
    """A TEXT turned by words alone: names, and projections of a name."""
    parts = spelling.tables()
    text = spelling.antt(text, parts) if file.endswith(".antt") else spelling.rt(text, parts)
    text = re.sub(r"\((\w+) \.(\w+)\)", r"\1.\2", text)
    return re.sub(r"(?<![\w'] )(\b[\w']+) \.(\w)", r"\1.\2", text)


def by_line(before, after):
    """The pairs of lines by which two texts differ, or none where a line has no partner."""
    a, b = before.split("\n"), after.split("\n")
    pairs = []
    for tag, i, j, k, l in difflib.SequenceMatcher(None, a, b, autojunk=False).get_opcodes():
        if tag == "equal":
            continue
        if j - i != l - k:
            return None
        pairs += [(x.strip(), y.strip()) for x, y in zip(a[i:j], b[k:l])]
    return pairs


def stale(old):
    """The edits that are as they were in OLD, and are in yesterday's words."""
    found = []
    for edit in edits(old):
        crate, name, _, file, pairs = edit
        if read(os.path.join(ROOT, "crates", crate, "must-fail", name)) == read(os.path.join(old, "crates", crate, "must-fail", name)):
            text = read(os.path.join(ROOT, "crates", crate, file))
            if applied(text, pairs) is None or any(by_word(word, file) != word for pair in pairs for word in pair):
                found.append(edit)
    return found


def today(old, edits_of_file, before, after):
    """For each of these edits of one file its pairs in today's words: word by word, or line by line where words do not make the same text."""
    crate, file = edits_of_file[0][0], edits_of_file[0][3]
    words = [[(by_word(a, file), by_word(b, file)) for a, b in edit[4]] for edit in edits_of_file]
    if applied(before, sum(words, [])) == after:
        return words
    lines = by_line(before, after)
    if len(edits_of_file) == 1:
        return [lines]
    if lines is None or len(lines) != len(edits_of_file):
        return [None] * len(edits_of_file)
    text = read(os.path.join(old, "crates", crate, file))
    order = sorted(range(len(words)), key=lambda at: text.find(edits_of_file[at][4][0][0]))
    return [[lines[order.index(at)]] for at in range(len(words))]


def turn(old, work):
    lists = rounds(old, stale(old))
    os.makedirs(work)
    turned_copy(old, os.path.join(work, "plain"), [])
    for n, some in enumerate(lists):
        print(f"round {n + 1} of {len(lists)}", flush=True)
        turned_copy(old, os.path.join(work, f"round{n}"), some)
        for crate, file in sorted({(edit[0], edit[3]) for edit in some}):
            group = [edit for edit in some if (edit[0], edit[3]) == (crate, file)]
            before, after = (read(os.path.join(work, copy, "crates", crate, file)) for copy in ("plain", f"round{n}"))
            for edit, pairs in zip(group, today(old, group, before, after)):
                store(edit, pairs)


def store(edit, pairs):
    """Writes the edit where these pairs fit today's file."""
    crate, name, head, file, _ = edit
    if pairs is None or applied(read(os.path.join(ROOT, "crates", crate, file)), pairs) is None:
        print(f"left for the hand: {crate}/{name}: {pairs}")
        return
    text = head + [f"file: {file}"] + [f"old: {old}\nnew: {new}" for old, new in pairs]
    write(os.path.join(ROOT, "crates", crate, "must-fail", name), "\n".join(text) + "\n")


def check():
    bad = 0
    for crate, name, _, file, pairs in edits(ROOT):
        path = os.path.join(ROOT, "crates", crate, file)
        if not os.path.isfile(path) or not pairs or applied(read(path), pairs) is None:
            print(f"{crate}/{name} does not fit {file}")
            bad += 1
    print(f"{len(edits(ROOT))} edits, {bad} do not fit")
    return 1 if bad else 0


if __name__ == "__main__":
    if sys.argv[1:2] == ["turn"] and len(sys.argv) == 4:
        turn(os.path.realpath(sys.argv[2]), os.path.realpath(sys.argv[3]))
    elif sys.argv[1:] == ["check"]:
        sys.exit(check())
    else:
        sys.exit(__doc__)
