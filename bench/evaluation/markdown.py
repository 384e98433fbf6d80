"""Prints tables in Markdown."""

from bench.evaluation.measuring import least_peak
from bench.images import MIB


def print_table(titles, rows):
    """Prints a table of numbers, but for the columns that have the title of the first one."""
    print(f"| {' | '.join(titles)} |")
    print("|" + "".join("---|" if title == titles[0] else "---:|" for title in titles))
    for row in rows:
        print(f"| {' | '.join(row)} |")
    print(flush=True)


def seconds_of(it):
    return f"{it.seconds:.3f}"


def peak_of(it):
    """The peak of memory in MiB, if it could be measured."""
    return f"{it.peak / MIB:.1f}" if it.peak > 1.1 * least_peak() else "-"
