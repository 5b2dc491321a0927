#!/usr/bin/env python3
"""Brings the names of definitions and lemmas to the spelling of today's Rattle: words in snake case, where port.py left camel case or dashes.

usage: tools/respell.py [ROOT]

Run once, right after port.py. It collects what the files of crates/*/specs and crates/*/proofs declare (definitions, lemmas, constructors, fields), and respells
each such name wherever it stands in them, in contracts, in must-fail edits and, between backticks, in comments and documents. Names of functions of src/, of types
and of the kit's libraries stay. Where a lemma would get the name of a definition, it gets `_lem`.
"""

import glob
import os
import re
import sys

root = sys.argv[1] if len(sys.argv) > 1 else "."
os.chdir(root)

WORD = r"[^\s(){}.;,@\"«»\[\]\\`|]+"
TOKEN = re.compile(WORD)
KIT = re.compile(r"^\s*(?:ghost )?use (Rattle\.(?:std|core)\S*|Prim\S*|mathlib\S*|native\S*|borrow\S*|lib\S*|text\S*|base\S*|denote\S*)\.\{([^}]*)\}", re.M)


def read(path):
    with open(path, encoding="utf-8", newline="") as it:
        return it.read()


def antt_files():
    return sorted(it for it in glob.glob("crates/*/specs/**/*.antt", recursive=True) + glob.glob("crates/*/proofs/**/*.antt", recursive=True))


def is_own_proof(path):
    # A folder of proofs/ holds the proof of one function: its names are of that file alone.
    return path.split("/")[2] == "proofs" and path.count("/") > 3


def declared():
    names = set()
    for path in antt_files():
        if is_own_proof(path):
            continue
        for line in read(path).splitlines():
            it = re.match(rf"\s*(?:abbrev |unfoldable |pub )*({WORD}) :(?: |$)", line)
            if it and not line.lstrip().startswith(("use ", "mod ", "--", "let ", "λ")):
                names.add(it.group(1))
            it = re.match(rf"\s*\|\s*({WORD})", line)
            if it:
                names.add(it.group(1))
    return names


def of_kit():
    names = set()
    for path in antt_files() + glob.glob("crates/*/src/**/*.rt", recursive=True):
        for it in KIT.finditer(read(path)):
            names.update(word.strip().split(" as ")[0] for word in it.group(2).split(","))
    return names


def snake(name):
    name = re.sub(r"(?<=[a-z0-9₀-₉'])([A-Z])", r"_\1", name)
    return name.lower().replace("-", "_")


def plan():
    kit = of_kit()
    own = {it for it in declared() if re.match(r"[a-z]", it)}
    clash = sorted(it for it in own & kit if snake(it) != it)
    if clash:
        print("left, since the kit has the name too:", *clash)
    own -= set(clash)
    renamed = {it: snake(it) for it in own if snake(it) != it}
    # A Rust struct has fields of these names.
    renamed.update(rowBits="row_bits_of", columnBits="column_bits_of")
    # port.py gave these lemmas, spelled with a dash before, the name that their definition gets.
    for name in sorted(own):
        camel = re.sub(r"_(\w)", lambda it: it.group(1).upper(), name)
        if "_" in name and camel in renamed:
            renamed[name] = name + "_lem"
            print("gets _lem:", name)
    taken = {it for it in own if it not in renamed} | kit
    # A definition goes before a lemma, whose name has dashes.
    for name in sorted(renamed, key=lambda it: ("-" in it, it)):
        if "_" in name:
            taken.add(renamed[name])
            continue
        if renamed[name] in taken:
            renamed[name] += "_lem"
            print("gets _lem:", name, "->", renamed[name])
        if renamed[name] in taken:
            sys.exit(f"two names would be {renamed[name]}")
        taken.add(renamed[name])
    return renamed


def respell(text, names):
    return TOKEN.sub(lambda it: names.get(it.group(), it.group()), text)


def in_backticks(text, names):
    return re.sub(r"`[^`\n]*`", lambda it: respell(it.group(), names), text)


def in_antt(text, names):
    out = []
    for line in text.split("\n"):
        code, dash, comment = line.partition("--") if line.lstrip().startswith("--") else (line, "", "")
        out.append(respell(code, names) + dash + in_backticks(comment, names))
    return "\n".join(out)


def in_rt(text, names):
    # Contracts and imports: what stands in `ghost use` lines and between the braces of clauses. Elsewhere only camel case, which the code does not have.
    camel = {old: new for old, new in names.items() if re.search("[A-Z]", old)}
    out, ghost = [], False
    for line in text.split("\n"):
        if line.lstrip().startswith("//"):
            out.append(in_backticks(line, names))
        elif re.match(r"\s*(ghost|requires|ensures)\b", line) or ghost:
            out.append(respell(line, names))
        else:
            out.append(respell(line, camel))
        if re.match(r"\s*(requires|ensures)\b", line):
            ghost = line.count("{") > line.count("}")
        elif ghost:
            ghost = line.count("}") <= line.count("{")
    return "\n".join(out)


def main():
    names = plan()
    jobs = [(it, in_antt) for it in antt_files()]
    jobs += [(it, in_rt) for it in glob.glob("crates/*/src/**/*.rt", recursive=True)]
    jobs += [(it, in_antt) for it in glob.glob("crates/*/must-fail/*.edit")]
    jobs += [(it, in_backticks) for it in ["README.md"] + glob.glob("docs/**/*.md", recursive=True) + glob.glob("tests/**/*.md", recursive=True)]
    changed = 0
    for path, way in sorted(jobs, key=lambda it: it[0]):
        text = read(path)
        turned = way(text, names)
        if turned != text:
            changed += 1
            with open(path, "w", encoding="utf-8", newline="") as it:
                it.write(turned)
    print(len(names), "names,", changed, "files")


main()
