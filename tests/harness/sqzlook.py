"""Runs `sqzlook`."""

import concurrent.futures
import os

from tests.harness.programs import SQZLOOK, run

CLEAR = ("--clear-weak",)
COMMANDS = (
    "check",
    "mend",
    "info",
    "census",
    "digest",
    "list",
    "show",
    "why",
    "refs",
    "top",
    "diff",
    "code",
    "senders",
    "implementors",
    "stacks",
    "find",
    "dump",
    "explore",
)


def look(*words, folder=None, **how):
    """The outcome of `sqzlook` with these words, run in a folder."""
    return run(SQZLOOK, words, folder=folder, **how)


def look_at_all(lines, folder):
    """The outcomes of command lines, in their order. As many run at once as processors can."""
    with concurrent.futures.ThreadPoolExecutor(len(os.sched_getaffinity(0))) as pool:
        return list(pool.map(lambda words: look(*words, folder=folder), lines))
