"""What is cited can be read: every heading of the rules that is cited is one of docs/RULES.md, and no document is named that the repository does not have."""
import re

from there import ROOT, missing, read, texts

RULES = ROOT / "docs/RULES.md"
# a heading is cited as: Rules, "Choice"; several as: Rules, "Choice" and "Window"
CITED = re.compile(r'\bRules,? ("[^"]+"(?:(?:, and |, | and )"[^"]+")*)')
# a path with a word in capitals stands for others; documents are named in capitals too. What rt makes is in a folder out/
STANDS_FOR = re.compile(r"[A-Z]{2,}(?!\w*\.md)|/N+\.|/out/")
ELSEWHERE = re.compile(r"\bdocuments?[ /-]\d+|\b\d\d-\w+\.md\b|\bthis paper\b", re.I)


def joined(text):
    """The text with a comment's lines as one, so that a citation may go over two."""
    return re.sub(r"[ \t]*\n[ \t]*(?:--|//[/!]?|#|\*)?[ \t]*", " ", text)


def citations():
    headings = set(re.findall(r"^#+ (.+?)\s*$", read(RULES), re.M)) if RULES.exists() else set()
    if not headings:
        missing.append("docs/RULES.md is not there, or has no heading")
    count = 0
    for path, text in texts():
        for group in CITED.findall(joined(text)):
            for heading in re.findall(r'"([^"]+)"', group):
                count += 1
                if headings and heading not in headings:
                    missing.append(f"{path.relative_to(ROOT)}: '{heading}' is no heading of docs/RULES.md")
    return count


def elsewhere():
    """Documents that a reader does not have."""
    for path, text in texts():
        for number, line in enumerate(text.splitlines(), 1):
            for found in [x for x in ELSEWHERE.findall(line) if not any((ROOT / "docs").rglob(x))]:
                missing.append(f"{path.relative_to(ROOT)}:{number}: '{found}' is no document of the repository")


def paths_stand():
    """Every path of the repository that a document names, but for the page on what was before."""
    documents = [ROOT / "README.md", *sorted((ROOT / "docs").rglob("*.md")), *sorted((ROOT / "tests").rglob("*.md"))]
    for document in [d for d in documents if d != ROOT / "docs/PORT.md"]:
        for number, line in enumerate(read(document).splitlines(), 1):
            for path in re.findall(r"(?<=[`( ])(?:crates|docs|tests|examples|include|\.ci)/[\w./-]*\w(?=[`), :;./])", line + " "):
                if not STANDS_FOR.search(path) and not (ROOT / path).exists():
                    missing.append(f"{document.relative_to(ROOT)}:{number}: there is no {path}")


def look():
    count = citations()
    elsewhere()
    paths_stand()
    return f"{count} citations"
