"""Every rule has its promise: each tag of docs/RULES.md is given to one rule and stands in docs/PROMISES.md, and no promise has a tag that is no rule's."""
import re

from there import ROOT, missing, read

TAG = r"\*\*([A-Z])(\d+)\*\*"


def given():
    """The tags of the rules, each at the front of its line or of its row."""
    return [a + n for a, n in re.findall(rf"^(?:- |\| ?){TAG}", read(ROOT / "docs/RULES.md"), re.M)]


def promised():
    """The tags of the promises; `**F1** to **F8**` has those between as well."""
    text = read(ROOT / "docs/PROMISES.md")
    found = {a + n for a, n in re.findall(TAG, text)}
    for a, low, b, high in re.findall(rf"{TAG} to {TAG}", text):
        found |= {a + str(n) for n in range(int(low), int(high) + 1) if a == b}
    return found


def look():
    rules, promises = given(), promised()
    for tag in sorted({x for x in rules if rules.count(x) > 1}):
        missing.append(f"docs/RULES.md: two rules have the tag {tag}")
    for tag in [x for x in rules if x not in promises]:
        missing.append(f"docs/PROMISES.md: the rule {tag} is not there")
    for tag in sorted(promises - set(rules)):
        missing.append(f"docs/PROMISES.md: {tag} is the tag of no rule")
    if not rules:
        missing.append("docs/RULES.md: no rule has a tag")
    return f"{len(rules)} rules"
