"""Runs test modules: `python3 -m tests [MODULE ...]`, all but those by hand if none is named.

A module is named with its package, or without it: `look.test_diff` or `test_diff`. Several modules
run in parallel, each in a process of its own. A test counts once, or once for each of its subtests.
The last line is `N passed, M failed, K skipped`.
"""

import collections
import concurrent.futures
import pathlib
import re
import subprocess
import sys
import time
import unittest

FOLDER = pathlib.Path(__file__).resolve().parent
PACKAGES = {path.stem: path.parent.name for path in FOLDER.glob("*/test_*.py")}
BY_HAND = {"test_scale"}
KINDS = ("passed", "failed", "skipped")
LAST_LINE = re.compile(r"^(\d+) passed, (\d+) failed, (\d+) skipped$")


class CountingResult(unittest.TextTestResult):
    """Counts the subtests of a test, or the test itself if it has none."""

    def __init__(self, *args):
        super().__init__(*args)
        self.counts = collections.Counter()
        self.has_subtests = False

    def startTest(self, test):
        super().startTest(test)
        self.has_subtests = False

    def addSubTest(self, test, subtest, err):
        super().addSubTest(test, subtest, err)
        self.has_subtests = True
        self.counts["passed" if err is None else "failed"] += 1

    def addSuccess(self, test):
        super().addSuccess(test)
        self.counts["passed"] += not self.has_subtests

    def addError(self, test, err):
        super().addError(test, err)
        self.counts["failed"] += 1

    def addFailure(self, test, err):
        super().addFailure(test, err)
        self.counts["failed"] += 1

    def addSkip(self, test, reason):
        super().addSkip(test, reason)
        self.counts["skipped"] += 1
        print(f"skipped: {test}: {reason}")


def last_line(counts):
    return ", ".join(f"{counts[kind]} {kind}" for kind in KINDS)


def whole_name(name):
    """The name of a module, or of a test in it, with the packages that it leaves out."""
    name = name.removeprefix("tests.")
    package = PACKAGES.get(name.partition(".")[0])
    return f"tests.{package}.{name}" if package else f"tests.{name}"


def run_module(name):
    """Runs a module in this process, and returns its counts."""
    suite = unittest.defaultTestLoader.loadTestsFromName(whole_name(name))
    runner = unittest.TextTestRunner(sys.stdout, resultclass=CountingResult)
    return runner.run(suite).counts


def counts_of(text, status):
    """The counts in the last line of a module's output, or one failure without that line."""
    *_, last = text.splitlines() or [""]
    found = LAST_LINE.match(last)
    if not found or (status != 0) != (int(found[2]) > 0):
        return collections.Counter(failed=1)
    return collections.Counter(dict(zip(KINDS, map(int, found.groups()))))


def run_alone(name):
    """Runs a module in a process of its own. Returns its output, counts and seconds."""
    begin = time.monotonic()
    words = [sys.executable, "-m", "tests", name]
    ended = subprocess.run(
        words, cwd=FOLDER.parent, stdout=subprocess.PIPE, stderr=subprocess.STDOUT, text=True
    )
    counts = counts_of(ended.stdout, ended.returncode)
    return ended.stdout, counts, time.monotonic() - begin


def run_in_parallel(names):
    """Runs modules side by side, prints what each printed, and returns the sum of their counts."""
    total = collections.Counter()
    with concurrent.futures.ThreadPoolExecutor(len(names)) as pool:
        for name, (text, counts, seconds) in zip(names, pool.map(run_alone, names)):
            print(f"{text}{name}: {last_line(counts)}, in {seconds:.0f} seconds", flush=True)
            total += counts
    return total


def main():
    names = sys.argv[1:] or sorted(PACKAGES.keys() - BY_HAND)
    counts = run_module(*names) if len(names) == 1 else run_in_parallel(names)
    print(last_line(counts))
    return 1 if counts["failed"] else 0


if __name__ == "__main__":
    sys.exit(main())
