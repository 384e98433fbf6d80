"""The table of the tests: how many cases of each module of `tests/` pass."""

import itertools
import re
import subprocess
import sys

from bench.evaluation.markdown import print_table
from tests.harness.programs import ROOT

# What `python3 -m tests` prints last of a module.
MODULE = re.compile(r"^(test_\w+): (\d+) passed, 0 failed, (\d+) skipped, in \d+ seconds$", re.M)
TITLES = ("Module", "Passed", "Skipped")
# How many modules a row has.
ACROSS = 3


def side_by_side(rows):
    """These rows as few longer ones, which are read column by column."""
    height = -(-len(rows) // ACROSS)
    columns = [rows[at : at + height] for at in range(0, len(rows), height)]
    lines = itertools.zip_longest(*columns, fillvalue=[""] * len(TITLES))
    return [list(itertools.chain(*line)) for line in lines]


def print_tests(_options, _folder):
    """Runs all modules but those by hand, and prints the numbers of each. Ends the script if a case
    fails."""
    words = [sys.executable, "-m", "tests"]
    ended = subprocess.run(words, cwd=ROOT, stdout=subprocess.PIPE, text=True)
    if ended.returncode != 0:
        sys.exit(f"{ended.stdout}a test failed")
    modules = MODULE.findall(ended.stdout)
    sums = [str(sum(int(row[column]) for row in modules)) for column in (1, 2)]
    rows = [[f"`{name}`", passed, skipped] for name, passed, skipped in modules]
    print_table(list(TITLES) * ACROSS, side_by_side([*rows, ["all", *sums]]))
