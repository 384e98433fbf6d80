#!/usr/bin/env python3
"""Prints what it costs to prove a line of code without contracts: the processor seconds per line
of functions, each with a loop and a `?`, in a crate that uses only `std`."""

import os
import pathlib
import subprocess
import tempfile

FUNCTION = """\
/// Returns the bytes above {number}.
pub fn above_{number}(alloc: Global, bytes: &[u8]) -> Result<Vec<u8>, AllocError> {{
    let mut found = Vec::new(alloc);
    for byte in bytes {{
        if *byte > {number} {{
            found.push(*byte)?;
        }}
    }}
    Ok(found)
}}
"""
HEAD = """\
//! Functions without clauses.
#![tactic(auto)]

use std::alloc::{AllocError, Global};
"""
# Two crates differ in their functions alone, so the fixed cost of a crate does not count.
FEW, MANY = 2, 34
LINES = len(FUNCTION.splitlines()) - 1


def seconds_for(count):
    """The processor seconds to prove a crate of `count` functions in one process."""
    with tempfile.TemporaryDirectory() as folder:
        root = pathlib.Path(folder)
        crate = root / "crates" / "plain"
        for part in ("src", "specs", "proofs"):
            (crate / part).mkdir(parents=True)
        (root / "crates.txt").write_text("plain:\n", encoding="utf-8")
        (root / "HANDLES").write_text("Handles allowed: none.\n", encoding="utf-8")
        functions = [FUNCTION.format(number=number) for number in range(count)]
        (crate / "src" / "lib.rt").write_text("\n".join([HEAD, *functions]), encoding="utf-8")
        before = os.times()
        command = ["rt", "lib", "--jobs", "1"]
        subprocess.run(command, cwd=crate, check=True, stdout=subprocess.DEVNULL)
        after = os.times()
        spent = (after.children_user, after.children_system)
        return sum(spent) - before.children_user - before.children_system


def main():
    seconds = (seconds_for(MANY) - seconds_for(FEW)) / (MANY - FEW)
    print(f"{seconds:.2f} s for a function of {LINES} lines, {seconds / LINES:.2f} s per line")


if __name__ == "__main__":
    main()
