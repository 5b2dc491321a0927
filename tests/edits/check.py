"""The must-fail edits: which rule each breaks, where it is refused, and what rt says of it.

An edit has a line `rule: ERR-2: what it does wrong`, which may name several rules with commas between them, and a line `fails: proofs/count/Answers.antt`
with the file of its crate in which the first error stands. A file in the folder of a function's proof, or that folder, stands for the function: an error
in any file of the folder, or a note on the function's own text, is in it. Each check takes the folder of a repository and returns its faults, a line of
text each; no fault means that it passed.
"""

import re
from pathlib import Path

SPECIFICATION = "docs/SPECIFICATION.md"

# The lines of `rt ci` or `rt must-fail` about edits, one for each.
LOG = "target/must-fail.log"

RULE = r"[A-Z]+-[0-9]+"
RULE_LINE = re.compile(rf"({RULE}(?:, {RULE})*)(?::| [-–—]) (\S+(?: \S+){{2,}})")
DEMAND = "DEM-"
PARTS = ("src", "specs", "proofs")


# ---- edits and what was said of them


def text(path):
    return path.read_text(encoding="utf-8", errors="replace") if path.is_file() else ""


def edits(root):
    return sorted((root / "crates").glob("*/must-fail/*.edit"))


def crate(edit):
    return edit.parent.parent.name


def name(edit):
    return f"{crate(edit)}/{edit.stem}"


def values(edit, key):
    """What stands after `key:` in the lines of an edit that begin so."""
    return [line[len(key) + 1 :].strip() for line in text(edit).splitlines() if line.startswith(f"{key}:")]


def said(root):
    """From each edit to what rt said of it."""
    return dict(re.findall(r"^rt: must-fail (\S+)\.edit: (.*)$", text(root / LOG), re.M))


def is_tried(root):
    """The log is newer than all that edits change or stand on."""
    parts = (root / "crates" / one / part for one in dependencies(root) for part in (*PARTS, "must-fail"))
    files = [root / "crates.txt", *(file for part in parts for file in part.rglob("*") if file.is_file())]
    return (root / LOG).is_file() and all(file.stat().st_mtime <= (root / LOG).stat().st_mtime for file in files)


# ---- the first error, of which rt shows the beginning

REFUSED = "refused, as it must be"
FIRST = re.compile(rf"{REFUSED}: (note: )?(?:\./)?(\S+?):([0-9]+):[0-9]+: (?:error: )?(.*)")


def first_error(words):
    """The first error: its file, its line, what it says, and whether it is a note on a function; nothing if none is shown."""
    found = FIRST.fullmatch(words)
    return (found[2], int(found[3]), found[4], bool(found[1])) if found else None


def first_errors(root):
    """The edits with their first errors, those that have one."""
    shown = said(root)
    errors = ((edit, first_error(shown.get(name(edit), ""))) for edit in edits(root))
    return [(edit, error) for edit, error in errors if error]


# An error about a definition or a proof begins with its name; any other is about a text that cannot be read, or about a file that has no place.
OF_DECLARATION = re.compile(r"`[^`]+`: ")
# What comes next if the proof file does not fit the code, whatever the facts are.
MISFITS = {
    r"(?:`[^`]*`: )?module `[^`]*`\s+has no `": "a name that is not there",
    r"record `[^`]*`\s+has no field `": "a field that is not there",
    r"`[^`]*`\s+is not in scope|no constructor `": "a name that is not in scope",
    r"`[^`]*`\s+has no clause for": "a case without its clause",
    r"expected type `\S*\bgoal\.|expected type `[^`]*`,?\s+but this has type `\S*\bgoal\.": "a proof given for something else",
    r"this is applied to an argument|this λ has [0-9]+ binders, but its type has room": "a wrong number of arguments",
    r"`[^`]*`\s+(?:was not admitted|cannot be unfolded because)": "something that was not admitted itself",
}


def misfit(path, words, is_note):
    """In what way, if any, an error says no more than that things do not fit: not that a fact fails."""
    if path.startswith("specs/"):
        return "a definition that is not accepted"
    if is_note:
        return None if words.startswith("it is not proved that ") else "a proof that is left to be written"
    head = OF_DECLARATION.match(words)
    if not head:
        return "a file that cannot be read or has no place"
    return next((what for pattern, what in MISFITS.items() if re.match(pattern, words[head.end() :])), None)


# ---- places

PROOF_FILES = ("Answers.antt", "Invariants.antt", "Proof.antt")


def function(path):
    """The folder below proofs/ of the function that a path stands for, or nothing: a folder, or a file that only such a folder has."""
    parts = path.split("/")
    if parts[0] != "proofs" or len(parts) < 2:
        return None
    folder = parts[1:-1] if parts[-1] in PROOF_FILES else [] if parts[-1].endswith(".antt") else parts[1:]
    return "/".join(folder) or None


def source(folder, of_function):
    """The file of a crate's folder in which the function stands, and its name."""
    *modules, last = of_function.split("/")
    while modules and not (folder / "src" / f"{'/'.join(modules)}.rt").is_file():
        modules.pop()
    roots = ["/".join(modules)] if modules else ["lib", "main"]
    file = next((folder / "src" / f"{it}.rt" for it in roots if (folder / "src" / f"{it}.rt").is_file()), None)
    # A method has its proofs in the folder of its type, and may stand in another file than the type.
    is_method = any(part[:1].isupper() for part in of_function.split("/"))
    if file and is_method and last not in FUNCTION.findall(text(file)):
        others = [it for it in sorted((folder / "src").rglob("*.rt")) if last in FUNCTION.findall(text(it))]
        file = others[0] if len(others) == 1 else file
    return file, last


FUNCTION = re.compile(r"\bfn (\w+)")


def function_at(file, line):
    """The function to which a line of a source file belongs: the last that begins there or above, or the one below if it is an attribute of that."""
    lines = text(file).splitlines()
    while line <= len(lines) and lines[line - 1].lstrip().startswith("#["):
        brackets = 0
        while line <= len(lines):
            brackets += lines[line - 1].count("[") - lines[line - 1].count("]")
            line += 1
            if brackets <= 0:
                break
    names = FUNCTION.findall("\n".join(lines[:line]))
    return names[-1] if names else None


def is_there(folder, path):
    """The path names a file of a crate's folder, or a function of it."""
    if not function(path):
        return (folder / path).is_file()
    file, last = source(folder, function(path))
    return file is not None and last in FUNCTION.findall(text(file))


def is_in(folder, path, error):
    """An error stands in the file that a path names, or in the function that it stands for."""
    found, line, _, is_note = error
    if not function(path):
        return found == path
    if is_note:
        file, last = source(folder, function(path))
        return file == folder / found and function_at(file, line) == last
    return found.rpartition("/")[0] == f"proofs/{function(path)}"


# ---- crates


def dependencies(root):
    """From each crate of crates.txt to those that it names."""
    found = {}
    for line in text(root / "crates.txt").splitlines():
        head, colon, tail = line.partition("#")[0].partition(":")
        if colon:
            found[head.split()[0]] = tail.split()
    return found


def below(uses, start):
    """A crate and all that it depends on."""
    reached, ahead = set(), [start]
    while ahead:
        one = ahead.pop()
        if one not in reached:
            reached.add(one)
            ahead += uses.get(one, [])
    return reached


def cited(root, one):
    """The rules that a crate cites."""
    files = (file for part in PARTS for file in (root / "crates" / one / part).rglob("*") if file.suffix in (".rt", ".antt"))
    return {rule for file in files for rule in ranges(text(file))}


RANGE = re.compile(r"([A-Z]+)-([0-9]+) to \1-([0-9]+)")


def ranges(words):
    """The rules cited in a text, with those between the ends of `REF-1 to REF-20`."""
    yield from re.findall(rf"(?<![\w-]){RULE}(?![\w-])", words)
    for mark, start, end in RANGE.findall(words):
        yield from (f"{mark}-{n}" for n in range(int(start), int(end) + 1))


def near(uses, citing, start):
    """The rules that an edit of a crate can break: those that the crate cites and those below it, and if there are none below it, those that the
    crates cite that name it as a dependency."""
    stands_on = rules_of(citing, below(uses, start) - {start})
    above = set() if stands_on else {one for one, named in uses.items() if start in named}
    return stands_on | rules_of(citing, above | {start})


def rules_of(citing, crates):
    return set().union(*(citing.get(one, set()) for one in crates))


# ---- the checks


def single(root, key):
    """The edits with what their one line `key:` says; the faults of those that have none or several."""
    lines = [(edit, values(edit, key)) for edit in edits(root)]
    faults = [f"{name(edit)} has {len(found) or 'no'} lines '{key}:'" for edit, found in lines if len(found) != 1]
    return [(edit, found[0]) for edit, found in lines if len(found) == 1], faults


def named_rules(root):
    """The edits with the rules that they name; the faults of lines that cannot be read."""
    lines, faults = single(root, "rule")
    read = [(edit, line, RULE_LINE.fullmatch(line)) for edit, line in lines]
    faults += [f"{name(edit)}: '{line}' is not a rule, a colon and what the edit does wrong" for edit, line, match in read if not match]
    return [(edit, match[1].split(", ")) for edit, _, match in read if match], faults


def rules(root):
    """Each edit names rules of the specification and says what it does wrong."""
    known = set(re.findall(rf"^- \*\*({RULE})\*\* \S", text(root / SPECIFICATION), re.M))
    lines, faults = named_rules(root)
    if not edits(root):
        faults.append("there are no edits")
    return faults + [f"{name(edit)}: {rule} is no rule" for edit, named in lines for rule in named if rule not in known]


def rules_near(root):
    """Each rule that an edit names is one that its crate, or a crate close to it, cites, or a demand, which all crates are to meet."""
    uses = dependencies(root)
    citing = {one: cited(root, one) for one in uses}
    known = {one: near(uses, citing, one) for one in uses}
    far = [(edit, rule) for edit, named in named_rules(root)[0] for rule in named if rule not in known.get(crate(edit), ())]
    return [f"{name(edit)}: no crate close to {crate(edit)} cites {rule}" for edit, rule in far if not rule.startswith(DEMAND)]


def places(root):
    """Each edit names a file or a function of its crate as the one in which it is refused, and it is."""
    lines, faults = single(root, "fails")
    errors = dict(first_errors(root))
    for edit, path in lines:
        folder, error = root / "crates" / crate(edit), errors.get(edit)
        if not is_there(folder, path):
            faults.append(f"{name(edit)}: its crate has nothing at '{path}'")
        elif error and not is_in(folder, path, error):
            faults.append(f"{name(edit)}: the first error is at {error[0]}:{error[1]} and not in {path}")
    return faults


def refused(root):
    """Each edit has been tried and refused."""
    shown = said(root)
    results = ((edit, shown.get(name(edit), "not tried")) for edit in edits(root))
    return [f"{name(edit)}: {words}" for edit, words in results if not words.startswith(REFUSED)]


def facts(root):
    """Each edit is refused for a fact, and not because something does not fit or the prover met a limit."""
    shown, errors = said(root), dict(first_errors(root))
    without = ((edit, shown.get(name(edit), "")) for edit in edits(root) if edit not in errors)
    faults = [f"{name(edit)}: {words}" for edit, words in without if words.startswith(REFUSED)]
    found = [(edit, path, misfit(path, words, is_note)) for edit, (path, _, words, is_note) in errors.items()]
    return faults + [f"{name(edit)}: the first error, in {path}, is {what}" for edit, path, what in found if what]


CHECKS = {
    "each edit names the rules that it breaks": rules,
    "each rule that an edit names is cited close to it": rules_near,
    "each edit has been tried and refused": refused,
    "each edit is refused first where it says": places,
    "each edit is refused for a fact": facts,
}


def results(root):
    return [(label, check(Path(root))) for label, check in CHECKS.items()]
