#!/usr/bin/env python3
"""Counts what each crate has: lines of code, of definitions and of proofs, mutants and tests.
Prints a table in Markdown, with the sums of each group of `crates.txt`.

Usage: bench/count_lines.py

A line counts unless it is blank or a comment alone. Code is `src/**/*.rt`, contracts among
it; definitions are `specs/*.antt`, and proofs `proofs/**/*.antt`. A mutant is an edit in
`must-fail/` or in `mutants/CRATE/`, and a test a function after `#[test]`."""

import pathlib

ROOT = pathlib.Path(__file__).resolve().parent.parent
COLUMNS = ("code", "definitions", "proofs", "mutants", "tests")


def lines_of(paths, comment):
    """How many lines of these files are neither blank nor a comment."""
    lines = (
        line.strip() for path in paths for line in path.read_text(encoding="utf-8").splitlines()
    )
    return sum(1 for line in lines if line and not line.startswith(comment))


def counts_of(crate):
    sources = list(crate.glob("src/**/*.rt"))
    return (
        lines_of(sources, "//"),
        lines_of(crate.glob("specs/*.antt"), "--"),
        lines_of(crate.glob("proofs/**/*.antt"), "--"),
        len([*crate.glob("must-fail/*.edit"), *ROOT.glob(f"mutants/{crate.name}/*.edit")]),
        sum(path.read_text(encoding="utf-8").count("#[test]") for path in sources),
    )


def groups_of(lines):
    """The crates of each group, by the first word of the comment above them; of `Product, the
    inspector`, the words after the comma."""
    groups, name = {}, None
    for line in lines:
        if line.startswith("# "):
            name = line[2:].rpartition("Product, ")[2].removeprefix("the ").split(",")[0].lower()
            groups.setdefault(name, [])
        elif ":" in line:
            groups[name].append(line.split(":")[0])
    return groups


def sums_of(rows):
    return tuple(map(sum, zip(*rows)))


def print_row(name, counts):
    print(f"| {name} | " + " | ".join(map(str, counts)) + " |")


def main(with_crates=True):
    """Prints rows for groups of crates and for all; before them, if asked, one for each crate."""
    groups = groups_of((ROOT / "crates.txt").read_text(encoding="utf-8").splitlines())
    print("| crates | " + " | ".join(COLUMNS) + " |")
    print("|---|" + "---:|" * len(COLUMNS))
    sums = {}
    for group, names in groups.items():
        rows = {name: counts_of(ROOT / "crates" / name) for name in names}
        if with_crates:
            for name, counts in rows.items():
                print_row(f"`{name}`", counts)
        sums[group] = sums_of(rows.values())
    for group, counts in sums.items():
        print_row(f"{len(groups[group])} crates: {group}", counts)
    print_row(f"all {sum(map(len, groups.values()))} crates", sums_of(sums.values()))


if __name__ == "__main__":
    main()
