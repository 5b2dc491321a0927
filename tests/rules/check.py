"""The rules of docs/SPECIFICATION.md, where they are cited, and the tables of rules and of crates in docs/ARCHITECTURE.md.

Each check takes the folder of a repository and returns its faults, a line of text each; no fault means that it passed.
"""

import os
import re
from collections import Counter, defaultdict
from pathlib import Path

import counts

SPECIFICATION = "docs/SPECIFICATION.md"
TABLE = "docs/ARCHITECTURE.md"
DECISIONS = "docs/DECISIONS.md"

# Rules that no definition can state: what is demanded, the worked examples, and the forms of the code. Code, a theorem or a test cites them.
WITHOUT_DEFINITION = {"DEM", "EX", "FORM"}

# Where a rule may be cited, and must exist if it is. This test's own files are left out: they make rules up.
CITING = ("crates", "tests", "docs", "include", "rust", "examples", "bench", "README.md")
THIS_TEST = "tests/rules/"
NOT_READ = {"target", ".git", "__pycache__", "Cargo.lock"}

# What looks like the number of a rule but is not.
NO_RULES = {"UTF-8"}

CITATION = re.compile(r"(?<![\w-])[A-Z]{2,6}-[0-9]+(?![\w-])")
DECISION = re.compile(r"(?<![\w-])D-[0-9]+(?![\w-])")


# ---- files


def is_read(root, path):
    """Not what was built: crates/NAME/out, say, which rt writes while this test runs."""
    parts = path.relative_to(root).parts
    return not NOT_READ & set(parts) and not (parts[0] == "crates" and parts[2:3] == ("out",))


def below(root, start):
    for folder, folders, names in os.walk(start):
        folders[:] = [name for name in folders if is_read(root, Path(folder, name))]
        yield from (path for path in (Path(folder, name) for name in names) if is_read(root, path))


def files(root, *folders):
    """The files below folders of the repository, or those files themselves, but not the files of this test."""
    for start in (root / folder for folder in folders):
        for path in [start] if start.is_file() else sorted(below(root, start)):
            if path.is_file() and not name_in(root, path).startswith(THIS_TEST):
                yield path


def text(path):
    return path.read_text(encoding="utf-8", errors="replace") if path.is_file() else ""


def name_in(root, path):
    return path.relative_to(root).as_posix()


def comment(path, line):
    """The comment in a line, by the kind of the file."""
    if path.suffix == ".md":
        return line
    if path.suffix == ".antt":
        return line.partition("--")[2]
    if path.suffix in (".rt", ".rs", ".c", ".h"):
        stripped = line.lstrip()
        return stripped if stripped.startswith(("/*", "*")) else line.partition("//")[2]
    return line.partition("#")[2]


# ---- the specification


def headed_rules(root):
    """Each rule with the heading it stands under, in order."""
    heading = None
    for line in text(root / SPECIFICATION).splitlines():
        if line.startswith("## "):
            heading = line[3:]
        elif match := re.match(r"- \*\*([A-Z]+-[0-9]+)\*\* \S", line):
            yield match[1], heading


def rules(root):
    return [rule for rule, _ in headed_rules(root)]


def prefix(rule):
    return rule.partition("-")[0]


def numbered(root):
    """Each rule has a number of its own, and a heading has one prefix, which no other heading has."""
    faults = [f"{rule} stands {n} times in {SPECIFICATION}" for rule, n in Counter(rules(root)).items() if n > 1]
    if not rules(root):
        faults.append(f"{SPECIFICATION} has no rules")
    pairs = sorted({(heading, prefix(rule)) for rule, heading in headed_rules(root)})
    for heading, n in Counter(heading for heading, _ in pairs).items():
        faults += [f"the heading '{heading}' has rules of {n} prefixes"] if n > 1 else []
    for mark, n in Counter(mark for _, mark in pairs).items():
        faults += [f"rules {mark} stand under {n} headings"] if n > 1 else []
    return faults


# ---- citations


def cited_in(root, *folders):
    """From each rule that is cited in a comment below the folders to the files that cite it."""
    found = defaultdict(set)
    for path in files(root, *folders):
        for line in text(path).splitlines():
            for rule in CITATION.findall(comment(path, line)):
                found[rule].add(name_in(root, path))
    return found


def is_definition(path):
    return re.fullmatch(r"crates/[^/]+/specs/.+\.antt", path) is not None


def is_code_proof_or_test(path):
    return re.match(r"crates/[^/]+/(specs|src|proofs)/|tests/", path) is not None


def cited(root):
    """Each rule is cited: by a definition, or, if none can state it, by code, a theorem or a test."""
    where = cited_in(root, "crates", "tests")
    faults = []
    for rule in rules(root):
        if prefix(rule) in WITHOUT_DEFINITION:
            if not any(map(is_code_proof_or_test, where[rule])):
                faults.append(f"{rule} is cited by no code, theorem or test")
        elif not any(map(is_definition, where[rule])):
            faults.append(f"{rule} is cited by no definition")
    return faults


def existing(root):
    """Each rule that is cited anywhere, in a comment or not, is in the specification."""
    known = set(rules(root)) | NO_RULES
    faults = []
    for path in files(root, *CITING):
        for number, line in enumerate(text(path).splitlines(), 1):
            stray = [c for c in CITATION.findall(line) if c not in known]
            faults += [f"{name_in(root, path)}:{number}: {c} is no rule" for c in stray]
    return faults


# ---- the table: | rule | definitions | functions | theorems |


def rows(root):
    """From the rule of each row to its cells; a row may have a wrong number of them."""
    for line in text(root / TABLE).splitlines():
        if match := re.match(r"\|\s*([A-Z]+-[0-9]+)\s*\|(.*)\|\s*$", line):
            yield match[1], [cell.strip() for cell in match[2].split("|")]


def in_table(root):
    """Each rule has one row of four cells, which names a definition if the rule needs one."""
    count = Counter(rule for rule, _ in rows(root))
    faults = [f"{rule} has {count[rule] or 'no'} rows in {TABLE}" for rule in rules(root) if count[rule] != 1]
    for rule, cells in rows(root):
        if len(cells) != 3:
            faults.append(f"the row of {rule} has {len(cells) + 1} cells and not 4")
        elif not cells[0] and prefix(rule) not in WITHOUT_DEFINITION:
            faults.append(f"the row of {rule} names no definition")
    return faults


GROUP = re.compile(r"(?:([\w./]+):?\s+)?(`[^`]+`(?:,\s*`[^`]+`)*)")


def groups(cell):
    """The groups of a cell: a place, which may be left out, and the names there, or None for a group that cannot be read. The word `contract`, for
    the contracts of the functions in the row, is no group."""
    for part in (p.strip() for p in cell.split(";")):
        if part in ("", "contract"):
            continue
        match = GROUP.fullmatch(part)
        yield (match[1] or "", re.findall(r"`([^`]+)`", match[2])) if match else (part, None)


def placed(root, place, crate):
    """The crate and the file of a place: `crate/file`, `crate`, or `file` of the crate named last in the row."""
    first, _, rest = place.partition("/")
    if first and (root / "crates" / first).is_dir():
        return first, rest
    return crate, place


def antt_names(path):
    """What a file of definitions or theorems names at the start of a line."""
    names = set()
    for line in text(path).splitlines():
        words = line.partition("--")[0].split()
        while words and words[0] in ("pub", "unfoldable", "abbrev"):
            words.pop(0)
        if len(words) > 1 and words[0] in ("record", "data"):
            names.add(words[1])
        elif len(words) > 1 and words[1] == ":":
            names.add(words[0])
    return names


def code_names(root, crate, file):
    """The functions, types, constants and cases of enums of a crate's file, or of the whole crate if no file is given."""
    names = set()
    for path in files(root, f"crates/{crate}/src/{file}.rt" if file else f"crates/{crate}/src"):
        code = re.sub(r"//.*", "", text(path))
        names |= set(re.findall(r"\b(?:fn|struct|enum|const|type|static|mod)\s+(\w+)", code))
        names |= set(re.findall(r"^\s+([A-Z]\w*)(?:\(.*\))?,$", code, re.M))
    return names


def unknown(root, column, crate, file, names):
    """Those of the names in a cell of the column that are not in the crate's file."""
    if column == "function":
        known = code_names(root, crate, file)
        return [n for n in names if not set(n.split("::")) <= known]
    folder = {"definition": "specs", "theorem": "proofs"}[column]
    known = antt_names(root / "crates" / crate / folder / f"{file}.antt")
    return [n for n in names if n not in known]


def row_faults(root, rule, cells):
    crate = ""
    for column, cell in zip(("definition", "function", "theorem"), cells):
        for place, names in groups(cell):
            if names is None:
                yield f"{rule}: cannot read '{place}' in the column of {column}s"
                continue
            paths = [n for n in names if "/" in n and not n.startswith("◌")]
            yield from (f"{rule}: there is no {p}" for p in paths if not (root / p).exists())
            crate, file = placed(root, place, crate)
            rest = [n for n in names if n not in paths]
            where = "/".join(filter(None, (crate, file))) or "no crate"
            yield from (f"{rule}: no {column} `{n}` in {where}" for n in unknown(root, column, crate, file, rest))


def named(root):
    """Each name in the table is that of a definition, function or theorem in the place that the table gives."""
    return [fault for rule, cells in rows(root) for fault in row_faults(root, rule, cells)]


# ---- decisions


def decisions(root):
    """Each decision has a number of its own, and each that is cited is there."""
    count = Counter(re.findall(r"^- \*\*(D-[0-9]+)\*\* \S", text(root / DECISIONS), re.M))
    faults = [f"{decision} stands {n} times in {DECISIONS}" for decision, n in count.items() if n > 1]
    for path in files(root, *CITING):
        for number, line in enumerate(text(path).splitlines(), 1):
            stray = [d for d in DECISION.findall(line) if d not in count]
            faults += [f"{name_in(root, path)}:{number}: {d} is no decision" for d in stray]
    return faults


# ---- the table of crates: | crate | what it holds |


def listed(root):
    """The crates of crates.txt."""
    lines = (line.partition("#")[0] for line in text(root / "crates.txt").splitlines())
    return [line.split()[0].rstrip(":") for line in lines if ":" in line]


def described(root):
    """The crates in the first cells of the table of crates, which begins with the line `| Crate |..` and ends with the first line that is no row."""
    inside = False
    for line in text(root / TABLE).splitlines():
        if re.match(r"\|\s*Crate\s*\|", line):
            inside = True
        elif inside and not line.startswith("|"):
            return
        elif inside:
            yield from re.findall(r"`(\w+)`", line.split("|")[1])


def crates_described(root):
    """Each crate of crates.txt stands once in the table of crates, and nothing else does."""
    found = Counter(described(root))
    faults = [f"{crate} stands {found[crate]} times in the table of crates" for crate in listed(root) if found[crate] != 1]
    return faults + [f"{crate} stands in the table of crates and not in crates.txt" for crate in found if crate not in listed(root)]


CHECKS = {
    "each rule has a number of its own under its heading": numbered,
    "each rule is cited": cited,
    "each rule has its row in the table": in_table,
    "each cited rule exists": existing,
    "each name in the table exists": named,
    "each decision has a number of its own, and each cited one exists": decisions,
    "each crate stands once in the table of crates": crates_described,
    "no number of counts.txt has grown": counts.grown,
}


def results(root):
    return [(label, check(root)) for label, check in CHECKS.items()]
