#!/usr/bin/env python3
"""Brings the repository's own definitions and lemmas to the spelling of today's Rattle, by the table names.txt beside it.

usage: python3 tools/port/spelling.py [FOLDER]      the repository at FOLDER, or the one that this script is in

It is run once, after the toolchain's port.py. In crates/ every name is turned in .antt files; in .rt files only names of
definitions, which no code can have; in pages only names between backticks. Names of src/, exported names and strings stay.
"""

import os
import re
import sys

HERE = os.path.dirname(os.path.realpath(__file__))
PART = r"[\w'μ-]"
TABLE = os.path.join(HERE, "names.txt")


def tables():
    """The two parts of the table, each a dictionary."""
    parts = [{}]
    with open(TABLE, encoding="utf-8") as f:
        for line in f:
            if not line.strip():
                parts.append({})
            elif not line.startswith("#"):
                old, new = line.split()
                parts[-1][old] = new
    return parts


def turned(text, names, bare):
    """The text with each whole name replaced; with bare, a part of a path is left alone."""
    def one(m):
        return names.get(m.group(0), m.group(0))
    before, after = (r"(?<![\w'.·-])", r"(?![\w'.·-])") if bare else (r"(?<![\w'-])", r"(?![\w'-])")
    return re.sub(before + PART + "+" + after, one, text)


def antt(text, parts):
    lemmas, names = parts
    lines = []
    for line in text.split("\n"):
        code, dash, remark = line.partition("-- ") if re.match(r"\s*-- ", line) else (line, "", "")
        code = turned(turned(code, lemmas, True), names, False)
        lines.append(code + dash + remarked(remark, names))
    return "\n".join(lines)


def remarked(text, names):
    """A remark or a page: names between backticks, and definitions anywhere, since no English word is spelled as they were."""
    definitions = {k: v for k, v in names.items() if "-" not in k}
    text = re.sub(r"`[^`\n]*`", lambda m: turned(m.group(0), names, False), text)
    return turned(text, definitions, False)


def rt(text, parts):
    return turned(text, {k: v for k, v in parts[1].items() if "-" not in k}, False)


def files(root):
    for top in ("crates", "docs"):
        for folder, dirs, names in os.walk(os.path.join(root, top)):
            dirs[:] = sorted(d for d in dirs if d not in ("out", "must-fail"))
            yield from (os.path.join(folder, n) for n in sorted(names))
    yield os.path.join(root, "README.md")


def main(root):
    parts = tables()
    changed = 0
    for path in files(root):
        how = {".antt": antt, ".rt": rt, ".md": lambda t, p: remarked(t, p[1])}.get(os.path.splitext(path)[1])
        if how is None or os.path.basename(path) == "PORT.md":
            continue
        with open(path, encoding="utf-8") as f:
            old = f.read()
        new = how(old, parts)
        if new != old:
            changed += 1
            with open(path, "w", encoding="utf-8") as f:
                f.write(new)
    print(f"{changed} files changed")


if __name__ == "__main__":
    main(sys.argv[1] if len(sys.argv) > 1 else os.path.join(HERE, "..", ".."))
