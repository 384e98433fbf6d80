#!/usr/bin/env python3
"""Lists the mutants of each crate: what each one does, and the file that it changes.

Usage: bench/list_mutants.py [CRATE ...]

A mutant is an edit in crates/CRATE/must-fail/, which each full check tries, or in mutants/CRATE/,
which `bench/kill_mutants` tries by hand. Its name without the number before it is its sentence."""

import pathlib
import re
import sys

ROOT = pathlib.Path(__file__).resolve().parent.parent


def sentence_of(edit):
    """Returns what an edit does, as a sentence."""
    words = re.sub(r"^\d+_", "", edit.stem).replace("_", " ")
    return words[:1].upper() + words[1:] + "."


def file_of(edit):
    """Returns the name of the source file that an edit changes."""
    lines = edit.read_text(encoding="utf-8").splitlines()
    return next(line.removeprefix("file:").strip() for line in lines if line.startswith("file:"))


def is_by_hand(edit):
    """Returns whether the full check leaves an edit out."""
    return edit.is_relative_to(ROOT / "mutants")


def count(edits):
    """Returns how many edits these are, and how many of them the full check leaves out."""
    return f"{len(edits)}, {sum(map(is_by_hand, edits))} by hand"


def main():
    listed = {}
    for edit in sorted([*ROOT.glob("crates/*/must-fail/*.edit"), *ROOT.glob("mutants/*/*.edit")]):
        listed.setdefault(edit.relative_to(ROOT).parts[1], []).append(edit)
    unknown = [name for name in sys.argv[1:] if name not in listed]
    if unknown:
        sys.exit(f"list_mutants.py: no mutants of {', '.join(unknown)}")
    chosen = sys.argv[1:] or sorted(listed)
    for name in chosen:
        print(f"{name} ({count(listed[name])})")
        for edit in listed[name]:
            print(f"  {sentence_of(edit)} ({file_of(edit)}{', by hand' * is_by_hand(edit)})")
        print()
    print(f"all ({count([edit for name in chosen for edit in listed[name]])})")


if __name__ == "__main__":
    main()
