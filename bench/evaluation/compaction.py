"""The tables of compaction: `cp`, `sqzcompact` and stock Rust over generated images."""

import filecmp
import sys
import typing

from bench.evaluation.markdown import peak_of, print_table, seconds_of
from bench.evaluation.measuring import in_turn, measure
from bench.evaluation.options import NAMES
from bench.evaluation.programs import WORKERS, compactors, title_of
from bench.images import MIB, PARTS


class Row(typing.NamedTuple):
    """An image: its name, its bytes, and the medians of each program by its title."""

    name: str
    size: int
    medians: dict


def writing_task(words, image, out):
    """A task that runs a command from an image to a new file, and measures it."""

    def task():
        out.unlink(missing_ok=True)
        return measure([*words, image, out])

    return task


def compacting_tasks(image, folder, programs):
    """The tasks of `cp` and of these programs over an image. Each writes the file of its title."""
    tasks = {"`cp`": writing_task(["cp"], image, folder / "copy")}
    for it in programs:
        tasks[it.title] = writing_task(it.words, image, folder / it.title)
    return tasks


def check_outputs(folder, programs):
    """Ends the script unless all programs wrote the same bytes."""
    first, *others = [folder / it.title for it in programs]
    for other in others:
        if not filecmp.cmp(first, other, shallow=False):
            sys.exit(f"{first.name} and {other.name} differ in what they wrote")


def quotient(medians, workers):
    """The seconds of `sqzcompact` divided by those of stock Rust."""
    proved, stock = (medians[title_of(name, workers)] for name in ("`sqzcompact`", "stock"))
    return f"{proved.seconds / stock.seconds:.2f}"


def print_seconds(rows):
    """Prints a row for each image with the seconds of each program, and the quotients."""
    titles = list(rows[0].medians)
    counts = [workers for workers in WORKERS if title_of("stock", workers) in titles]
    quotients = [title_of("quotient", workers) for workers in counts]
    lines = []
    for row in rows:
        seconds = map(seconds_of, row.medians.values())
        lines.append([row.name, *seconds, *(quotient(row.medians, it) for it in counts)])
    print_table(["Seconds", *titles, *quotients], lines)


def print_peaks(rows):
    """Prints a row for each image with its size and the peak of memory of each program."""
    titles = [title for title in rows[0].medians if title != "`cp`"]
    lines = []
    for row in rows:
        peaks = (peak_of(row.medians[title]) for title in titles)
        lines.append([row.name, f"{row.size / MIB:.1f}", *peaks])
    print_table(["Peak in MiB", "IN", *titles], lines)


def print_compaction(options, folder):
    """Prints the tables of generated images."""
    programs, rows = compactors(), []
    for part in PARTS:
        image = options.generated(part)
        medians = in_turn(compacting_tasks(image, folder, programs), options.runs)
        check_outputs(folder, programs)
        rows.append(Row(NAMES[part], image.stat().st_size, medians))
    print_seconds(rows)
    print_peaks(rows)
