"""Tests of the check: a small made-up repository passes it, and each change of a copy that breaks something is found."""

import os
import tempfile
from pathlib import Path

import check

EDIT, BY_ITSELF = "crates/banks/must-fail/row_lost.edit", "crates/banks/must-fail/start_lost.edit"
BELOW, OF_LAW = "crates/numbers/must-fail/sum_lost.edit", "crates/banks/must-fail/bank_lost.edit"
CODE, LAWS, LOG = "crates/banks/src/map/row.rt", "proofs/MapLaws.antt", check.LOG
PROOF, SPEC = "proofs/map/row/select/Answers.antt", "specs/Map.antt"
MESSAGE = "`returns`: the two types differ only where one has `1` (expected) and the other has `2` (fou"
SAID = f"refused, as it must be: ./{PROOF}:9:13: error: {MESSAGE}"

GOOD = {
    "docs/SPECIFICATION.md": "- **DEM-1** All.\n- **MAP-1** An address selects a bank.\n- **MAP-2** The row.\n- **REG-1** The record.\n- **LINE-1** A line.\n",
    "crates.txt": "numbers:\nregisters:\nbanks staticlib: numbers registers # the map\nlines: banks\n",
    "crates/registers/specs/Record.antt": "-- REG-1: the record\n",
    "crates/banks/specs/Map.antt": "-- MAP-1 to MAP-2: the map\n",
    "crates/banks/src/lib.rt": "mod map;\n\npub fn map(a: u32) -> u32\n    ensures { .. }\n{\n}\n\nfn last(a: u32) -> u32\n",
    CODE: "fn select(a: u32) -> u32\n{\n}\n\nfn other(a: u32) -> u32\n{\n}\n",
    f"crates/banks/{PROOF}": "returns c = refl\n",
    f"crates/banks/{LAWS}": "one_bank = refl\n",
    "crates/lines/src/lib.rt": "// LINE-1\n",
    EDIT: "file: src/map/row.rt\nold: row\nnew: column\nrule: MAP-2, REG-1: the row is lost\nfails: proofs/map/row/select\n",
    BY_ITSELF: "file: src/lib.rt\nold: start\nnew: last\nrule: MAP-1 - the start is lost\nfails: proofs/map/Answers.antt\n",
    BELOW: "file: src/lib.rt\nold: sum\nnew: product\nrule: MAP-1, DEM-1: a product of all\nfails: src/lib.rt\n",
    OF_LAW: f"file: specs/Map.antt\nold: bank\nnew: row\nrule: MAP-1: another bank is selected\nfails: {LAWS}\n",
    "crates/numbers/src/lib.rt": "pub fn sum(a: u32) -> u32\n",
    LOG: f"""rt: must-fail banks/bank_lost.edit: refused, as it must be: {LAWS}:4:1: error: `one_bank`: the two types differ
rt: must-fail banks/row_lost.edit: {SAID}
rt: must-fail banks/start_lost.edit: refused, as it must be: note: src/lib.rt:4:15: it is not proved that what the function ensures holds when it ret
rt: must-fail numbers/sum_lost.edit: refused, as it must be: note: src/lib.rt:1:1: it is not proved that it holds
""",
}

RULES, FAILS = "MAP-2, REG-1: the row is lost", "fails: proofs/map/row/select"
NOTE = "it is not proved that what"
NO_LINE = "is not a rule, a colon and what the edit does wrong"


def said(words):
    """The fault of an edit whose first error says no more than that."""
    return f"banks/row_lost: the first error, in {PROOF}, is {words}"


def misfit(label, words, found):
    return label, LOG, MESSAGE, words, said(found)


def elsewhere(label, old, new, edit, place, path):
    """A place that the log contradicts: what is replaced in the log, and the fault."""
    return label, LOG, old, new, f"banks/{edit}: the first error is at {place} and not in {path}"


# for each check: label, file, what is replaced there, by what, and a fault that is then found
BAD = {
    check.rules: [
        ("no rule", EDIT, "rule: ", "", "banks/row_lost has no lines 'rule:'"),
        ("two lines of rules", EDIT, "rule: ", "rule: MAP-1: one more of them\nrule: ", "banks/row_lost has 2 lines 'rule:'"),
        ("a rule that does not exist", EDIT, "MAP-2", "NOWHERE-2", "banks/row_lost: NOWHERE-2 is no rule"),
        ("a second rule that does not exist", EDIT, "REG-1", "NOWHERE-1", "banks/row_lost: NOWHERE-1 is no rule"),
        ("a rule and no words", EDIT, RULES, "MAP-2", f"banks/row_lost: 'MAP-2' {NO_LINE}"),
        ("a rule and too few words", EDIT, RULES, "MAP-2: lost", f"banks/row_lost: 'MAP-2: lost' {NO_LINE}"),
        ("words and no rule", EDIT, RULES, "the row is lost", f"banks/row_lost: 'the row is lost' {NO_LINE}"),
        ("rules without a comma", EDIT, "MAP-2, REG-1", "MAP-2 REG-1", f"banks/row_lost: '{RULES.replace(',', '')}' {NO_LINE}"),
    ],
    check.rules_near: [
        ("a rule of another part", EDIT, "MAP-2", "LINE-1", "banks/row_lost: no crate close to banks cites LINE-1"),
        ("a rule that nobody cites", "crates/banks/specs/Map.antt", "MAP-1 to MAP-2", "MAP-1", "banks/row_lost: no crate close to banks cites MAP-2"),
        ("a rule of no crate above", BELOW, "MAP-1", "REG-1", "numbers/sum_lost: no crate close to numbers cites REG-1"),
        ("a rule of a crate that is not used", "crates.txt", "staticlib: numbers registers", "staticlib: numbers", "banks/row_lost: no crate close to banks cites REG-1"),
    ],
    check.refused: [
        ("an edit that was not tried", LOG, "banks/row_lost", "banks/row_found", "banks/row_lost: not tried"),
        ("an edit that is proved", LOG, SAID, "NOT REFUSED: the crate is still proved", "banks/row_lost: NOT REFUSED: the crate is still proved"),
        ("a bad edit", LOG, SAID, "BAD EDIT: it changes nothing", "banks/row_lost: BAD EDIT: it changes nothing"),
    ],
    check.places: [
        ("no place", EDIT, FAILS, "", "banks/row_lost has no lines 'fails:'"),
        ("two places", EDIT, FAILS, f"{FAILS}\n{FAILS}", "banks/row_lost has 2 lines 'fails:'"),
        ("a place in a file that does not exist", OF_LAW, LAWS, "proofs/Map.antt", "banks/bank_lost: its crate has nothing at 'proofs/Map.antt'"),
        ("a place in a function that does not exist", EDIT, "row/select", "row/selects", "banks/row_lost: its crate has nothing at 'proofs/map/row/selects'"),
        ("a place in a module that does not exist", EDIT, "map/row/", "map/", "banks/row_lost: its crate has nothing at 'proofs/map/select'"),
        ("a place with its line", OF_LAW, LAWS, f"{LAWS}:4", f"banks/bank_lost: its crate has nothing at '{LAWS}:4'"),
        ("a place in another file", OF_LAW, LAWS, "src/lib.rt", f"banks/bank_lost: the first error is at {LAWS}:4 and not in src/lib.rt"),
        elsewhere("an error in a file of laws", PROOF, LAWS, "row_lost", f"{LAWS}:9", "proofs/map/row/select"),
        elsewhere("an error in another function", "row/select", "row/other", "row_lost", "proofs/map/row/other/Answers.antt:9", "proofs/map/row/select"),
        elsewhere("a note on another function", "lib.rt:4", "lib.rt:8", "start_lost", "src/lib.rt:8", "proofs/map/Answers.antt"),
        elsewhere("a note on a function of another module", "lib.rt:4", "map/row.rt:4", "start_lost", "src/map/row.rt:4", "proofs/map/Answers.antt"),
    ],
    check.facts: [
        misfit("a need that is not there", "`returns`: `goal.returns`: module `Goals` has no `returns` that can be", "a name that is not there"),
        misfit("a field that is not there", "`returns`: record `M.Start` has no field `before`", "a field that is not there"),
        misfit("a name that is not in scope", "`returns`: `q` is not in scope", "a name that is not in scope"),
        misfit("a need for another", "`returns`: expected type `goal.returns`, but this has type `ℕ`", "a proof given for something else"),
        misfit("a need too many", "`returns`: expected type `URA {1} ?1`, but this has type `goal.returns-then-on`", "a proof given for something else"),
        misfit("an argument too many", "`returns`: this is applied to an argument but has type `ℕ`", "a wrong number of arguments"),
        misfit("a binder too many", "`returns`: this λ has 2 binders, but its type has room for only 1", "a wrong number of arguments"),
        misfit("a case without a clause", "`keeps`: `keeps` has no clause for 1 case", "a case without its clause"),
        misfit("what was not admitted", "`keeps`: `map` was not admitted", "something that was not admitted itself"),
        misfit("a bracket left open", "the `(` at 4:2 is never closed (reached end of file)", "a file that cannot be read or has no place"),
        misfit("a proof of no function", "`banks` has no function `map` for this file to be the proof of", "a file that cannot be read or has no place"),
        ("a note of something else", LOG, NOTE, "a measure is asked for:", "banks/start_lost: the first error, in src/lib.rt, is a proof that is left to be written"),
        ("a definition that is refused", LOG, PROOF, SPEC, said("a definition that is not accepted").replace(PROOF, SPEC)),
        ("a limit of the prover", LOG, "be: ./", "be (only by a limit): ./", f"banks/row_lost: {SAID.replace('be: ./', 'be (only by a limit): ./')}"),
        ("names alone that are gone", LOG, "be: ./", "be (only because ..): ./", f"banks/row_lost: {SAID.replace('be: ./', 'be (only because ..): ./')}"),
        ("no error", LOG, SAID, "refused, as it must be", "banks/row_lost: refused, as it must be"),
    ],
}


def put(root, tree):
    for name, text in tree.items():
        path = root / name
        path.parent.mkdir(parents=True, exist_ok=True)
        path.write_text(text, encoding="utf-8")


def in_folder(function, tree):
    """What a function of a repository's folder returns for a repository of these files."""
    with tempfile.TemporaryDirectory() as folder:
        put(Path(folder), tree)
        return function(Path(folder))


def tried(function, file, old, new, expected):
    """No fault if the check finds the expected one after the change and nothing before."""
    if old not in GOOD[file]:
        return [f"the change does not fit: '{old}' is not in {file}"]
    if before := in_folder(function, GOOD):
        return ["found without the change: " + fault for fault in before]
    found = in_folder(function, GOOD | {file: GOOD[file].replace(old, new)})
    return [] if expected in found else [f"'{expected}' was not found, but: {found}"]


# ---- whether the edits are still to be tried


def same(found, expected):
    return [] if found == expected else [f"{expected} was expected, but: {found}"]


def without(*names):
    return {name: text for name, text in GOOD.items() if name not in names}


def is_tried_after(changed):
    """Whether the log counts if a file was changed after it was written."""

    def ask(root):
        for name in GOOD:
            os.utime(root / name, (2, 2) if name == LOG else (1, 1))
        os.utime(root / changed, (3, 3))
        return check.is_tried(root)

    return in_folder(ask, GOOD)


def to_be_tried():
    return [
        ("not to be tried: a changed document", same(is_tried_after("docs/SPECIFICATION.md"), True)),
        ("to be tried: a changed edit", same(is_tried_after(EDIT), False)),
        ("to be tried: changed code", same(is_tried_after(CODE), False)),
        ("to be tried: a changed line of crates.txt", same(is_tried_after("crates.txt"), False)),
        ("to be tried: no log", same(in_folder(check.is_tried, without(LOG)), False)),
        ("found: a missing log", same(in_folder(check.refused, without(LOG))[:1], ["banks/bank_lost: not tried"])),
        ("found: no edits", same(in_folder(check.rules, without(EDIT, BY_ITSELF, BELOW, OF_LAW)), ["there are no edits"])),
    ]


def results():
    good = [(f"made-up repository: {label}", in_folder(function, GOOD)) for label, function in check.CHECKS.items()]
    bad = [(f"found: {label}", tried(function, *case)) for function, cases in BAD.items() for label, *case in cases]
    return good + bad + to_be_tried()
