"""Measures commands, each in turn."""

import functools
import pathlib
import statistics
import subprocess
import sys
import typing

LAUNCHER = pathlib.Path(__file__).with_name("launcher.py")


class Measured(typing.NamedTuple):
    """The seconds of a run, and its peak of memory in bytes."""

    seconds: float
    peak: int


def measure(words):
    """Runs a command, and measures it. Ends the script if the command fails."""
    launcher = [sys.executable, "-I", "-S", LAUNCHER]
    ended = subprocess.run([*launcher, *words], stdout=subprocess.PIPE, text=True, check=True)
    status, seconds, kib = ended.stdout.split()
    if status != "0":
        sys.exit(f"{' '.join(map(str, words))} ended with {status}")
    return Measured(float(seconds), 1024 * int(kib))


@functools.cache
def least_peak():
    """The least peak that can be measured: a process begins with the memory of its parent."""
    return measure(["true"]).peak


def medians_of(runs):
    """The median of each part of some runs."""
    return Measured(*(statistics.median(column) for column in zip(*runs)))


def in_turn(tasks, runs):
    """Does each of the named tasks `runs` times, in turn, and returns the medians of what they
    measured. Each turn begins with another task, so that noise of the machine falls on all."""
    names = list(tasks)
    measured = {name: [] for name in names}
    for run in range(runs):
        first = run % len(names)
        for name in names[first:] + names[:first]:
            measured[name].append(tasks[name]())
    return {name: medians_of(its) for name, its in measured.items()}
