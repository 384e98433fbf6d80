"""Times each stage of a run over a generated image, and `cp` next to it. Prints a table in
Markdown.

Usage: python3 -m bench.stages [--part PART] [--mib N] [--runs N] [--workers N ...] [--swapped]
                               [--beside PROGRAM]

The image is a part of `bench/images`, `mixed` if none is named; with `--swapped` it is big-endian.
The numbers are milliseconds, each the median of 3 N runs, since `sqz_dev_stage_times` makes three
at a time. Copies by `cp` alternate with the runs.

With `--beside` the program of another checkout that times stages makes runs over the same image,
and has a row below each of this one's. The two take turns in going first, so that noise of the
machine falls on both.
"""

import argparse
import pathlib
import statistics
import subprocess
import sys
import tempfile

from bench.images import MIB, PARTS, make_image
from tests.harness.programs import build, measured, program_path
from tests.reference.file_format import bytes_of, words_of

PROGRAM = program_path("sqz_dev_stage_times")


def timed(words, image, out):
    """What a command that times stages printed: their names, and the milliseconds of each run."""
    ended = subprocess.run([*words, image, out], capture_output=True, text=True, check=True)
    names, *runs = (line.split() for line in ended.stdout.splitlines())
    return names, [[float(word) for word in run] for run in runs]


def swap_words(path):
    """Puts each word of a file into the other byte order."""
    path.write_bytes(bytes_of(words_of(path.read_bytes(), "little"), "big"))


def copied(image, out):
    """The milliseconds of a copy to a new file."""
    out.unlink(missing_ok=True)
    return 1000 * measured(["cp", image, out]).seconds


def medians(runs):
    """The median of each stage, and that of a whole run."""
    each = [statistics.median(column) for column in zip(*runs)]
    return [*each, statistics.median(sum(run) for run in runs)]


def measure(programs, image, out, workers, count):
    """The names of the stages, for each program the medians, and the median of a copy."""
    names, runs, copies = None, {program: [] for program in programs}, []
    for turn in range(count):
        copies += [copied(image, out) for _ in range(3)]
        for program in programs if turn % 2 == 0 else reversed(programs):
            stages, three = timed([program, "--workers", str(workers)], image, out)
            if names not in (None, stages):
                sys.exit(f"{program} times other stages: {' '.join(stages)}")
            names = stages
            runs[program] += three
    return names, [medians(runs[program]) for program in programs], statistics.median(copies)


def print_table(options, programs, image, out):
    """Prints the rows of each number of workers."""
    for number, workers in enumerate(options.workers):
        names, rows, copy = measure(programs, image, out, workers, options.runs)
        if number == 0:
            print("| workers | " + " | ".join(names) + " | whole run | `cp` |")
            print("|---|" + "---:|" * (len(names) + 2))
        for row, label in zip(rows, (f"{workers}", f"{workers}, the other")):
            values = " | ".join(f"{value:.0f}" for value in [*row, copy])
            print(f"| {label} | {values} |", flush=True)


def main():
    parser = argparse.ArgumentParser("bench.stages", description=__doc__.splitlines()[0])
    parser.add_argument("--part", choices=PARTS, default="mixed")
    parser.add_argument("--mib", type=int, default=64)
    parser.add_argument("--runs", type=int, default=3)
    parser.add_argument("--workers", type=int, nargs="+", default=[1, 2, 4])
    parser.add_argument("--swapped", action="store_true")
    parser.add_argument("--beside", metavar="PROGRAM", type=pathlib.Path)
    options = parser.parse_args()
    build("sqz_dev_stage_times")
    programs = [PROGRAM, options.beside] if options.beside else [PROGRAM]
    with tempfile.TemporaryDirectory() as folder:
        image, out = (pathlib.Path(folder, name) for name in ("in.image", "out.image"))
        make_image(image, options.mib * MIB, options.part)
        if options.swapped:
            swap_words(image)
        print_table(options, programs, image, out)


if __name__ == "__main__":
    main()
