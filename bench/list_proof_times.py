#!/usr/bin/env python3
"""Lists the functions whose proofs took longest: `bench/list_proof_times.py [CRATE ...]`.

A check keeps a file for each part of a proof in `out/` of the crate. The time from the end of one
part to that of the next counts for the latter. So the times are those of a crate that one process
proved from nothing, as `./build` proves most crates; of a crate that several processes proved at
once they are too short.
"""

import argparse
import collections
import itertools
import pathlib
import sys
import typing

CRATES = pathlib.Path(__file__).resolve().parent.parent / "crates"
MOST = 50
# What the files of the parts of a proof add to the name of a function.
PARTS = set(
    "Answers Code Given Invariants Key Kinds Layout Lts Met Mir Named Proof Reads Statement Symbol "
    "TheLink Tie decls".split()
)


class Function(typing.NamedTuple):
    """A function, or another module with a proof, of a crate."""

    crate: str
    name: str


def function_of(crate, file):
    """The function to whose proof a file belongs."""
    name = file.stem.removeprefix(f"Rattle-{crate}").partition(".")[2].removeprefix("contracts.")
    words = name.split(".")
    while len(words) > 1 and words[-1].partition("-")[0] in PARTS:
        words.pop()
    return Function(crate, ".".join(words))


def times_of(crate):
    """The seconds of each function of a crate."""
    files = (CRATES / crate / "out" / "incremental").rglob("Rattle-*.oantt")
    ended = sorted((file.stat().st_mtime, file) for file in files)
    seconds = collections.Counter()
    for (before, _), (end, file) in itertools.pairwise(ended):
        seconds[function_of(crate, file)] += end - before
    return seconds


def main():
    parser = argparse.ArgumentParser(description=__doc__.partition(":")[0])
    names = sorted(path.name for path in CRATES.iterdir())
    parser.add_argument("crates", nargs="*", metavar="CRATE", help="all crates if none is named")
    crates = parser.parse_args().crates or names
    if unknown := set(crates).difference(names):
        sys.exit(f"there is no crate {min(unknown)}")
    seconds = sum(map(times_of, crates), collections.Counter())
    most = seconds.most_common(MOST)
    for function, its in most:
        print(f"{its:8.1f} {function.crate} {function.name}")
    print(f"{sum(its for _, its in most):8.1f} these {len(most)}")
    print(f"{seconds.total():8.1f} all {len(seconds)}")


if __name__ == "__main__":
    main()
