#!/usr/bin/env python3
"""check.py ROOT: compares every declaration of an exported function under ROOT with the text of the Rattle source.

The header and the Rust wrapper declare exactly these functions; any other C or Rust file may declare none or some. Names, types and
order of the parameters and the type returned have to be the same. Header, wrapper and the packages that use it state one version, and
the names in the source carry its major number. Prints each difference; exits with 0 only if there is none.
"""
import re
import sys
from pathlib import Path

from prototypes import Unreadable, of_c, of_rattle, of_rust, shown

SOURCE = "crates/mpc106/src"
HEADER = "include/mpc106.h"
PACKAGE = "rust/Cargo.toml"
LOCKS = ("rust/Cargo.lock", "tests/compare/Cargo.lock", "bench/Cargo.lock")
COMPLETE = (HEADER, "rust/src/ffi.rs")
FOLDERS = ("include", "rust", "examples", "bench", "tests")
READERS = {".h": of_c, ".c": of_c, ".rs": of_rust}


def read(root, path):
    return (root / path).read_text(encoding="utf-8")


def header_version(root):
    parts = [re.findall(rf"^#define MPC106_VERSION_{part} (\d+)$", read(root, HEADER), flags=re.M) for part in ("MAJOR", "MINOR", "PATCH")]
    if [len(part) for part in parts] != [1, 1, 1]:
        raise Unreadable(f"{HEADER}: the version {parts}")
    return ".".join(part[0] for part in parts)


def package_version(root, path):
    """The version of package mpc106 that a Cargo file states."""
    found = re.search(r'^name = "mpc106"\nversion = "([\d.]+)"$', read(root, path), flags=re.M)
    if not found:
        raise Unreadable(f"{path}: no version")
    return found[1]


def version_differences(root):
    version = header_version(root)
    for path in (PACKAGE, *LOCKS):
        if package_version(root, path) != version:
            yield f"{path}: version {package_version(root, path)}, in the header {version}"


def prefix_of(version):
    """What stands before the name of a call in the archive, for C and Rust alike."""
    return f"mpc106_v{version.split('.')[0]}_"


def declarations(root):
    """Each file that may declare one of the functions, with what it declares."""
    prefixes = {of_c: prefix_of(header_version(root)), of_rust: prefix_of(package_version(root, PACKAGE))}
    for folder in FOLDERS:
        for path in sorted((root / folder).rglob("*")):
            reader = READERS.get(path.suffix)
            if reader and path.is_file() and "target" not in path.relative_to(root).parts:
                yield str(path.relative_to(root)), reader(path.read_text(encoding="utf-8"), prefixes[reader])


def differences(root):
    exported = {}
    for path in sorted((root / SOURCE).glob("*.rt")):
        exported.update(of_rattle(path.read_text(encoding="utf-8")))
    prefix = prefix_of(header_version(root))
    if not exported or not all(name.startswith(prefix) for name in exported):
        yield f"{SOURCE}: exports {sorted(exported)}, and not all begin with {prefix}"
    yield from version_differences(root)
    seen = set()
    for path, declared in declarations(root):
        seen.add(path)
        for name, prototype in sorted(declared.items()):
            if name not in exported:
                yield f"{path}: {name} is not exported"
            elif prototype != exported[name]:
                yield f"{path}: {name} is {shown(prototype)}, exported as {shown(exported[name])}"
        for name in sorted(set(exported) - set(declared)) if path in COMPLETE else ():
            yield f"{path}: {name} is not declared"
    for path in sorted(set(COMPLETE) - seen):
        yield f"{path}: there is no such file"


def main():
    try:
        found = list(differences(Path(sys.argv[1])))
    except Unreadable as error:
        found = [f"a declaration that can't be read: {error}"]
    print("\n".join(found) if found else "every declaration is the source's")
    return 1 if found else 0


if __name__ == "__main__":
    sys.exit(main())
