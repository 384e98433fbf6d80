"""Builds the program in `bench/stock/`: the algorithm of `sqzcompact` in stock Rust."""

import functools
import shutil
import subprocess

from tests.harness.programs import ROOT

FOLDER = ROOT / "bench" / "stock"
STOCK = FOLDER / "target" / "release" / "sqzstock"
OPTIONS = ("--release", "--offline", "--quiet", "--target-dir", "target")


def has_cargo():
    return shutil.which("cargo") is not None


def run_cargo(command, **how):
    """Runs a command of `cargo` on the program, and returns how it ended."""
    return subprocess.run(["cargo", command, *OPTIONS], cwd=FOLDER, check=False, **how)


@functools.cache
def build_stock():
    """Builds the program if its sources changed."""
    run_cargo("build").check_returncode()
