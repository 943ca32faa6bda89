"""Every public function asks nothing and says its whole answer; the exceptions are listed here, and the forms that the decisions name stand where they say."""
import re

from there import CRATES, ROOT, missing, read, sources

# Public functions that break rules, each with the rules (`requires`, `contract`, `equation` or `lent`); docs/DECISIONS.md names each and says why.
EXCEPTED = {
    "bound_search::search::bound_in": ["requires"],
    "tally_rules::adding::put_in": ["requires"],
    "case_frames::input::read_full": ["equation", "lent"],
}
decisions = read(ROOT / "docs/DECISIONS.md")
needed = set()
laws = {law for path in sources("proofs", ".antt") for law in re.findall(r"^ *pub (\w+_tells) :", read(path), re.M)}


def public_files(crate):
    """The files that can be reached from lib.rt by `pub mod` alone."""
    root = crate / "src/lib.rt"
    todo, found = [root], []
    while todo:
        path = todo.pop()
        found.append(path)
        for mod in re.findall(r"^pub mod (\w+);", read(path), re.M):
            folder = path.parent if path.name == "lib.rt" else path.parent / path.stem
            todo.append(folder / f"{mod}.rt")
    return found


def breaks(function, rule, what):
    """A function that breaks a rule: missing, unless it is excepted from that rule and the decisions say why."""
    if rule not in EXCEPTED.get(function, []):
        missing.append(f"{function} {what}")
    elif f"`{function}`" not in decisions:
        missing.append(f"{function} {what}, and docs/DECISIONS.md does not say why")
    needed.add((function, rule))


def fields(struct):
    name = re.sub(r"<.*>", "", struct)
    body = next((m.group(1) for p in sources("src", ".rt") if (m := re.search(rf"^pub struct {name}(?:<[^>]*>)? \{{(.*?)^\}}", read(p), re.M | re.S))), "")
    return set(re.findall(r"^    pub (\w+):", body, re.M))


# a view of an answer in the rules' terms: of a `Result`, the number of its refusal, or the case that it is; each view tells all of it (`.._tells` in proofs/)
VIEW = r"(?:\b(?:as_\w+(?: \w+)*|fault_in) \(?(?:Ok )?)?"


def is_said(result, clauses):
    """Whether the answer, or a view of it, stands on the left of an equation, whole or field by field, of an I/O result where it is no error; nothing is
    asked of a function that answers nothing."""
    if not result or re.search(VIEW + r"\bresult(\.now)?\)? ≡ ", clauses):
        return True
    if result.startswith("io::Result<"):
        return bool(re.search(r"\bIfOk result \(λ (\w+)\. \1 ≡ ", clauses))
    return set(re.findall(VIEW + r"\bresult\.(\w+)(?:\.now)? ≡ ", clauses)) >= fields(result) > set()


def has(kind, clauses):
    """Whether there is a clause of this kind, with or without a name."""
    return re.search(rf"^\s*{kind}( \w+)? \{{", clauses, re.M)


def views_tell(function, clauses):
    """Each view of an answer that a contract cites has a theorem that it tells the whole answer."""
    for view in re.findall(r"\bas_\w+|\bfault_in\b", clauses):
        if (law := view.removeprefix("as_").removesuffix("_in") + "_tells") not in laws:
            missing.append(f"{function} says its answer by {view}, and no {law} shows that this tells all of it")


def judge(function, parameters, result, clauses):
    """What one public function's contract has to say."""
    views_tell(function, clauses)
    if has("requires", clauses):
        breaks(function, "requires", "has a `requires`")
    if not has("ensures", clauses):
        breaks(function, "contract", "has no contract")
    elif not is_said(result, clauses):
        breaks(function, "equation", "has a contract that is no equation for its answer")
    for lent in re.findall(r"(\w+): &mut", parameters) + (["self"] if "&mut self" in parameters else []):
        if not re.search(rf"\b{lent}\.new\b[^×}}]* ≡ |\bPuts [^×}}]*\b{lent}\.new\b", clauses):
            breaks(function, "lent", f"says nothing of what {lent} holds afterwards")


def judge_traits(crate, text):
    """A step of a public trait asks nothing, as a public function does."""
    for name, body in re.findall(r"^pub trait (\w+)[^{]*\{(.*?)^\}", text, re.M | re.S):
        if has("requires", body):
            breaks(f"{crate.name}::{name}", "requires", "has a step with a `requires`")


def judge_file(crate, path):
    """How many public functions the file has, each judged."""
    text = read(path)
    judge_traits(crate, text)
    found = list(re.finditer(r'^ *pub (?:extern "C" )?fn (\w+)(?:<[^>]*>)?\((.*?)\)(?: -> (.*?))?$(.*?)(?:^ *\{|\{$)', text, re.M | re.S))
    if len(found) != len(re.findall(r"^\s*pub\b.*\bfn ", text, re.M)):
        missing.append(f"{path.relative_to(ROOT)}: a public function is not in a form that is read here")
    for match in found:
        name, parameters, result, clauses = match.groups()
        judge("::".join([crate.name] + ([] if path.name == "lib.rt" else [path.stem]) + [name]), parameters, result, clauses)
    return len(found)


def forms_stand():
    """`crate/src/file.rt`: `function`, `function`: the named forms stand where the decisions say."""
    for file, tokens in re.findall(r"`(\w+/src/\w+\.rt)`: ((?:`\w+`(?:, )?)+)", decisions):
        for token in re.findall(r"`(\w+)`", tokens):
            if not (CRATES / file).exists() or not re.search(rf"\bfn {token}\(", read(CRATES / file)):
                missing.append(f"docs/DECISIONS.md: {file} has no function {token}")


def look():
    forms_stand()
    count = sum(judge_file(crate, path) for crate in sorted(p.parent.parent for p in CRATES.glob("*/src/lib.rt")) for path in public_files(crate))
    for function, rule in sorted({(f, rule) for f in EXCEPTED for rule in EXCEPTED[f]} - needed):
        missing.append(f"{function} is excepted from the rule '{rule}' and need not be")
    return f"{count} public functions"
