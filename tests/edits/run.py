"""Runs the check of the edits and its own tests, and counts what passed."""

import sys
from pathlib import Path

import check
import self_test

ROOT = Path(__file__).resolve().parents[2]


def report(results):
    """Prints each result (a label and its faults) and returns how many passed and failed."""
    failed = 0
    for label, faults in results:
        print(f"{'FAILED' if faults else 'ok'}: {label}")
        for fault in faults:
            print(f"    {fault}")
        failed += bool(faults)
    return len(results) - failed, failed


def main(arguments):
    what = arguments[0] if arguments else "both"
    root = Path(arguments[1]) if len(arguments) > 1 else ROOT
    if what == "--is-tried":
        return 0 if check.is_tried(root) else 1
    results = []
    if what in ("both", "--check"):
        results += check.results(root)
    if what in ("both", "--self-test"):
        results += self_test.results()
    passed, failed = report(results)
    print(f"{passed} passed, {failed} failed")
    return 0 if passed and not failed else 1


if __name__ == "__main__":
    sys.exit(main(sys.argv[1:]))
