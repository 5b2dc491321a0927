"""Tests of the check: a small made-up repository passes it, and each edit of a copy that breaks something is found."""

import tempfile
from pathlib import Path

import check
import counts

GOOD = {
    "crates.txt": """# the crates
banks staticlib:
lists: banks  # lists of calls
parser: banks
print:
""",
    "docs/SPECIFICATION.md": """# Specification

## From address to cell

- **MAP-1** An address selects a bank.
- **MAP-2** The row and the column,
  in two lines.

## Forms of the code

- **FORM-1** Rows are tuple structs.

## Worked examples

- **EX-1** An example.
""",
    "docs/ARCHITECTURE.md": """# Architecture

| Crate | What it holds |
|---|---|
| `banks` | `map` |
| `lists` | lists |
| `parser`, `print` | lines |

| Rule | Definitions | Functions | Theorems |
|---|---|---|---|
| MAP-1 | banks/Map: `selected`, `Spans` | `map`, `Row::new` | contract; CellLaws `one_bank` |
| MAP-2 | banks/Map: `◌else◌` | | lists/Run: `run_laws`; Deeper/Laws: `more_laws` |
| FORM-1 | | banks: `Row`, `Mapping::NoBank`; lists/lib: `go` | |
| EX-1 | | | `tests/compare` |
""",
    "docs/DECISIONS.md": """# Decisions

- **D-1** Rows are numbers.
- **D-2** Columns too.
""",
    "docs/requests/01-rows.md": "Decided: D-1, D-2.\n",
    "crates/banks/specs/Map.antt": """-- MAP-1: the bank of an address
unfoldable pub selected : Setup → ℕ
pub record Spans : Type 0 where
-- MAP-2
abbrev pub ◌else◌ : A → A → A
""",
    "crates/banks/src/lib.rt": """// FORM-1: a tuple struct
pub struct Row(pub u32);
// MAP-1: the map
pub fn map(r: Registers) -> Mapping
pub enum Mapping {
    NoBank,
    At(Place),
}
impl Row {
    pub fn new(n: u32) -> Row
}
""",
    "crates/banks/specs/CodeFields.antt": "unfoldable pub fields : A\n",
    "crates/banks/proofs/CellLaws.antt": """-- unfolding outer
use Rattle.banks.specs.Map.{selected}
pub one_bank : A ≡ A
unfolding selected
""",
    "crates/parser/specs/Format.antt": "use Rattle.banks.specs.Map.{selected}\n",
    "crates/print/proofs/PrintLaws.antt": """use Rattle.banks.specs.Map.{selected, ◌else◌}
use Rattle.std.specs.Prelude.{outer}
use Rattle.lists.specs.Run as run
printed : A
unfolding selected own
printed_outer : A
unfolding outer
printed_more : A
  unfolding run.go
""",
    "tests/rules/counts.txt": "# a comment\nunfolds print 2\n",
    "crates/lists/src/lib.rt": "#[tactic(auto, unfolding(lists::specs::Run::go, std::run))]\nfn go(n: u8)\n",
    "crates/lists/out/proofs/Run.antt": "-- MAP-77\n",
    "crates/lists/proofs/out/go/Answers.antt": "-- MAP-1\n",
    "crates/lists/proofs/Run.antt": "run_laws :\n",
    "crates/lists/proofs/Deeper/Laws.antt": "pub more_laws : A\n",
    "tests/compare/run": "#!/bin/sh\n# EX-1 and UTF-8\n",
    "README.md": "What MAP-1 says.\n",
}

SPECIFICATION, TABLE = check.SPECIFICATION, check.TABLE
MAP, CODE, TEST = "crates/banks/specs/Map.antt", "crates/banks/src/lib.rt", "tests/compare/run"

COUNTS = counts.STORED
GROWN = "{}, and " + COUNTS + " allows {}"

# for each check: label, file, what is replaced there, by what, and a fault that is then found
BAD = {
    check.cited: [
        ("a rule that nobody cites", MAP, "-- MAP-2\n", "", "MAP-2 is cited by no definition"),
        ("a rule that only the code cites", MAP, "-- MAP-1: the bank of an address\n", "", "MAP-1 is cited by no definition"),
        ("a rule that is cited outside comments", MAP, "-- MAP-2\n", "MAP-2\n", "MAP-2 is cited by no definition"),
        ("a form that nobody cites", CODE, "// FORM-1: a", "// a", "FORM-1 is cited by no code, theorem or test"),
        ("an example that nobody cites", TEST, "# EX-1 and", "# ", "EX-1 is cited by no code, theorem or test"),
    ],
    check.existing: [
        ("a citation of no rule, in a definition", MAP, "-- MAP-2", "-- MAP-2, MAP-22", f"{MAP}:4: MAP-22 is no rule"),
        ("a citation of no rule, in code", CODE, "FORM-1", "FORM-3", f"{CODE}:1: FORM-3 is no rule"),
        ("a citation of no rule, in a document", "README.md", "MAP-1", "MAP-7", "README.md:1: MAP-7 is no rule"),
        ("a citation of no rule, in a folder of proofs", "crates/lists/proofs/out/go/Answers.antt", "MAP-1", "MAP-8", "crates/lists/proofs/out/go/Answers.antt:1: MAP-8 is no rule"),
        ("a citation with an unknown prefix", TEST, "EX-1", "EXX-1", f"{TEST}:2: EXX-1 is no rule"),
    ],
    check.named: [
        ("a definition that does not exist", TABLE, "`selected`", "`selects`", "MAP-1: no definition `selects` in banks/Map"),
        ("a definition in another file", TABLE, "Map: `◌else◌`", "Maps: `◌else◌`", "MAP-2: no definition `◌else◌` in banks/Maps"),
        ("a function that does not exist", TABLE, "`map`", "`mapp`", "MAP-1: no function `mapp` in banks"),
        ("a function in another crate", TABLE, "lists/lib: `go`", "`go`", "FORM-1: no function `go` in banks"),
        ("a function in another file", TABLE, "lists/lib: `go`", "lists/more: `go`", "FORM-1: no function `go` in lists/more"),
        ("a case that does not exist", TABLE, "Mapping::NoBank", "Mapping::No", "FORM-1: no function `Mapping::No` in banks"),
        ("a theorem that does not exist", TABLE, "`one_bank`", "`a_bank`", "MAP-1: no theorem `a_bank` in banks/CellLaws"),
        ("a theorem in another file", TABLE, "Deeper/Laws: ", "Laws: ", "MAP-2: no theorem `more_laws` in lists/Laws"),
        ("a path that does not exist", TABLE, "tests/compare", "tests/compared", "EX-1: there is no tests/compared"),
        ("a cell that cannot be read", TABLE, "contract; CellLaws", "a law", "MAP-1: cannot read 'a law `one_bank`' in the column of theorems"),
    ],
    check.in_table: [
        ("a rule without a row", TABLE, "| EX-1 |", "| Example |", f"EX-1 has no rows in {TABLE}"),
        ("a rule with two rows", TABLE, "| EX-1 |", "| FORM-1 |", f"FORM-1 has 2 rows in {TABLE}"),
        ("a row without a definition", TABLE, "banks/Map: `◌else◌`", "", "the row of MAP-2 names no definition"),
        ("a row with a cell too few", TABLE, "| EX-1 | |", "| EX-1 |", "the row of EX-1 has 3 cells and not 4"),
    ],
    check.decisions: [
        ("a decision that is cited and not there", check.DECISIONS, "**D-2**", "**D-3**", "docs/requests/01-rows.md:1: D-2 is no decision"),
        ("a number that two decisions have", check.DECISIONS, "**D-2**", "**D-1**", f"D-1 stands 2 times in {check.DECISIONS}"),
    ],
    check.crates_described: [
        ("a crate that the table leaves out", TABLE, "`parser`, `print`", "`parser`", "print stands 0 times in the table of crates"),
        ("a crate that the table has twice", TABLE, "| `lists` |", "| `lists`, `banks` |", "banks stands 2 times in the table of crates"),
        ("a crate that crates.txt leaves out", "crates.txt", "print:\n", "", "print stands in the table of crates and not in crates.txt"),
    ],
    counts.grown: [
        ("a line more that unfolds", "crates/print/proofs/PrintLaws.antt", "printed_more : A\n", "printed_more : A\nunfolding ◌else◌\n", GROWN.format("unfolds print: 3", 2)),
        ("a function that unfolds", CODE, "pub fn map", "#[tactic(auto, unfolding(crate::a, lists::specs::Run::go))]\npub fn map", GROWN.format("unfolds banks: 1", 0)),
        ("a number that was lowered too far", COUNTS, "print 2", "print 1", GROWN.format("unfolds print: 2", 1)),
        ("a number that is not stored", COUNTS, "unfolds print 2\n", "", GROWN.format("unfolds print: 2", 0)),
        ("a definition that rests on a file for code", "crates/parser/specs/Format.antt", "Map.{selected}", "CodeFields.{fields}", GROWN.format("trusts parser: 1", 0)),
    ],
    check.numbered: [
        ("a number that is used twice", SPECIFICATION, "**MAP-2**", "**MAP-1**", f"MAP-1 stands 2 times in {SPECIFICATION}"),
        ("a rule under another heading", SPECIFICATION, "**FORM-1**", "**MAP-3**", "rules MAP stand under 2 headings"),
        ("a specification without rules", SPECIFICATION, "- **", "- *", f"{SPECIFICATION} has no rules"),
    ],
}


def put(root, tree):
    for name, text in tree.items():
        path = root / name
        path.parent.mkdir(parents=True, exist_ok=True)
        path.write_text(text, encoding="utf-8")


def faults_of(function, tree):
    """What a check finds in a repository of these files."""
    with tempfile.TemporaryDirectory() as folder:
        put(Path(folder), tree)
        return function(Path(folder))


def tried(function, file, old, new, expected):
    """No fault if the check finds the expected one after the edit and did not find it before."""
    if old not in GOOD[file]:
        return [f"the edit does not fit: '{old}' is not in {file}"]
    if before := faults_of(function, GOOD):
        return ["found without the edit: " + fault for fault in before]
    found = faults_of(function, GOOD | {file: GOOD[file].replace(old, new)})
    return [] if expected in found else [f"'{expected}' was not found, but: {found}"]


def results():
    good = [(f"made-up repository: {label}", faults_of(function, GOOD)) for label, function in check.CHECKS.items()]
    return good + [(f"found: {label}", tried(function, *case)) for function, cases in BAD.items() for label, *case in cases]
