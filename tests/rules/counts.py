"""How often the crates do what they should not do, against the numbers stored in tests/rules/counts.txt, which only get smaller.

unfolds CRATE  lines `unfolding ..` in the crate's proofs, and `unfolding(..)` in its code, that name something of another crate, whose laws should do
trusts CRATE   files of the crate's specs/ that a reader has to believe and that rest on a file Code*.antt, which serves contracts of code alone
"""

import re
from collections import Counter

STORED = "tests/rules/counts.txt"
HEAD = "# Written by `tests/rules/run --write`; counts.py says what is counted. A crate that is not here has 0.\n"

# `use Rattle.CRATE.place.{names}` or `use Rattle.CRATE.place as name`; the kit's libraries have paths of the same form
USE = re.compile(r"^\s*(?:pub\s+)?use\s+Rattle\.(\w+)([^\s{]*?)(?:\.\{([^}]*)\}|\s+as\s+(\S+))", re.M)


def crates(root):
    return sorted(path.name for path in (root / "crates").glob("*") if path.is_dir())


def uncommented(path):
    return re.sub(r"--(?=\s|-).*", "", path.read_text(encoding="utf-8", errors="replace"))


def foreign(others, code):
    """The names that a file brings in from other crates."""
    names = set()
    for other, _, braced, alias in USE.findall(code):
        if other in others:
            names |= {name.strip().split(" as ")[-1] for name in braced.split(",") if name.strip()} | ({alias} if alias else set())
    return names


def unfolds(root, crate):
    total, others = 0, set(crates(root)) - {crate}
    for path in sorted((root / "crates" / crate / "proofs").rglob("*.antt")):
        code = uncommented(path)
        names = foreign(others, code)
        for line in re.findall(r"^\s*unfolding\s+(.*)$", code, re.M):
            total += any(word in names or word.partition(".")[0] in names for word in line.split())
    for path in sorted((root / "crates" / crate / "src").rglob("*.rt")):
        code = re.sub(r"//.*", "", path.read_text(encoding="utf-8", errors="replace"))
        for words in re.findall(r"\bunfolding\(([^)]*)\)", code):
            total += any(word.strip().partition("::")[0] in others for word in words.split(","))
    return total


def trusts(root, crate):
    files = sorted((root / "crates" / crate / "specs").rglob("*.antt"))
    believed = [path for path in files if not path.name.startswith("Code") and path.name != "Lib.antt"]
    return sum(any(re.search(r"\.Code\w", place) for _, place, _, _ in USE.findall(uncommented(path))) for path in believed)


COUNTED = {"unfolds": unfolds, "trusts": trusts}


def now(root):
    found = {(what, crate): count(root, crate) for what, count in COUNTED.items() for crate in crates(root)}
    return Counter({key: n for key, n in found.items() if n})


def stored(root):
    path = root / STORED
    lines = path.read_text(encoding="utf-8").splitlines() if path.is_file() else []
    rows = (line.split() for line in lines if line.strip() and not line.startswith("#"))
    return Counter({(what, crate): int(n) for what, crate, n in rows})


def write(root):
    (root / STORED).write_text(HEAD + "".join(f"{what} {crate} {n}\n" for (what, crate), n in now(root).items()), encoding="utf-8")


def grown(root):
    """No number is larger than the stored one."""
    found, limit = now(root), stored(root)
    return [f"{what} {crate}: {n}, and {STORED} allows {limit[what, crate]}" for (what, crate), n in found.items() if n > limit[what, crate]]


def shrunk(root):
    """What is smaller than stored."""
    found, limit = now(root), stored(root)
    return [f"{what} {crate}: {found[what, crate]}, and {STORED} has {n}" for (what, crate), n in limit.items() if found[what, crate] < n]
