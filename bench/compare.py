"""Runs `sqzcompact` over generated images of 1, 16 and 64 MiB, and `cp` over the same files.

Usage: python3 -m bench.compare [--beside CHECKOUT | --census] [--runs N] [MIB ...]

Each line of the table is one run of the program and one of `cp`, each into a new file. The first
column has the part, of which `bench/images` says what its images hold. No time is asserted.

With `--beside` each line has also a run of the program of another checkout of this repository. The
two programs take turns in going first, so that noise of the machine falls on both. A second table
has for each image the median of this program's time less the other's, and in how many runs this one
was slower. The script ends with an error if the two write different bytes.

With `--census` each line has also a run of the same program that prints a class histogram, into a
file. A second table has for each image the median of what that adds, also in percent. There are two
more parts. The script ends with an error if the other image is written, or if the total of the
class histogram is not the sum of its rows, or not the objects and bytes of the image.

The peak of memory is that of `wait4`. A process begins with the memory of its parent, so `-` stands
for a peak that is not above that of this script. Most of a run of a few milliseconds is the start
of a process.
"""

import argparse
import concurrent.futures
import filecmp
import os
import pathlib
import resource
import statistics
import subprocess
import sys
import tempfile
import typing

from bench.images import CENSUS_PARTS, MIB, PARTS, make_image
from tests.harness.programs import ROOT, measured
from tests.reference.image import Image

# What builds the program of a checkout, and the program, in the folder of the checkout.
LAUNCHER = "sqzcompact"
PROGRAM = pathlib.Path("crates", "sqzcompact", "out", "sqzcompact")
CENSUS = "--census"
SIZES = [1, 16, 64]
RUNS = 3
TITLES = f"{'seconds':>9} {'peak MiB':>9} {'of file':>8}"


class Command(typing.NamedTuple):
    """A program with its options, and the files for what it writes and prints."""

    words: list
    answer: pathlib.Path
    printed: pathlib.Path


class Compared(typing.NamedTuple):
    """The seconds of each program, in each run over an image."""

    part: str
    mib: int
    seconds: list


def apart(function, *arguments):
    """The result of a function in a process of its own, so that the memory of this one stays."""
    with concurrent.futures.ProcessPoolExecutor(1) as pool:
        return pool.submit(function, *arguments).result()


def objects_and_bytes(path):
    """The number of objects of an image, and of bytes of its data."""
    image = Image.read(path.read_bytes())[0]
    return len(image.objects), image.header[2]


def measure(words, printed=os.devnull):
    """Runs a command that prints into a file. Ends the script if it fails."""
    with open(printed, "wb") as out:
        it = measured(words, stdout=out)
    if it.status != 0:
        sys.exit(f"{words[0]} ended with {it.status}")
    return it


def measure_in_turn(commands, image, run):
    """What is measured of each command over an image. In odd runs the last one goes first."""
    step = 1 if run % 2 == 0 else -1
    return [measure([*it.words, image, it.answer], it.printed) for it in commands[::step]][::step]


def check_census(command):
    """Ends the script unless the total of a class histogram is that of its rows and the image."""
    lines = command.printed.read_text().splitlines()
    *rows, total = [tuple(int(word) for word in line.split(None, 2)[:2]) for line in lines]
    sums = tuple(sum(column) for column in zip(*rows))
    wanted = apart(objects_and_bytes, command.answer)
    if not total == sums == wanted:
        sys.exit(f"the total is {total}, that of the rows {sums}, that of the image {wanted}")


def columns(size, it):
    """What was measured over a file of `size` bytes."""
    own = 1024 * resource.getrusage(resource.RUSAGE_SELF).ru_maxrss
    if it.peak <= own:
        return f"{it.seconds:9.3f} {'-':>9} {'-':>8}"
    return f"{it.seconds:9.3f} {it.peak / MIB:9.1f} {it.peak / size:8.2f}"


def print_titles(second):
    """Prints the two lines over the table, with the title of a second command if there is one."""
    titles = ["sqzcompact", *([second] if second else []), "cp"]
    print(f"{'':>24} " + "  ".join(f"{title:<28}" for title in titles).rstrip())
    print(f"{'part':>8} {'MiB':>5} {'MiB out':>9} " + "  ".join(TITLES for _ in titles))


def compare(mib, part, folder, commands, runs):
    """Generates an image, and prints a line for each run of the commands over it."""
    image, copy = folder / "image", folder / "copy"
    apart(make_image, image, mib * MIB, part)
    seconds = []
    for run in range(runs):
        each = measure_in_turn(commands, image, run)
        copied = measure(["cp", image, copy])
        out = commands[0].answer.stat().st_size / MIB
        if not all(filecmp.cmp(commands[0].answer, it.answer, False) for it in commands[1:]):
            sys.exit(f"the programs differ in what they write for {part}, {mib} MiB")
        if CENSUS in commands[-1].words:
            check_census(commands[-1])
        for path in (copy, *(it.answer for it in commands)):
            path.unlink()
        texts = "  ".join(columns(mib * MIB, it) for it in (*each, copied))
        print(f"{part:>8} {mib:5} {out:9.2f} {texts}", flush=True)
        seconds.append([it.seconds for it in each])
    return Compared(part, mib, seconds)


def print_differences(compared):
    """Prints by how much the first program was slower than the second."""
    print(
        "\nsqzcompact less beside, the median in milliseconds, and in how many runs it was slower"
    )
    print(f"{'part':>8} {'MiB':>5} {'ms':>9} {'slower':>8}")
    for part, mib, seconds in compared:
        differences = [this - other for this, other in seconds]
        slower = f"{sum(difference > 0 for difference in differences)} of {len(differences)}"
        print(f"{part:>8} {mib:5} {1000 * statistics.median(differences):+9.2f} {slower:>8}")


def print_added(compared):
    """Prints how much a class histogram added."""
    print(
        "\nwith a census less without, the median in milliseconds, and in percent of that without"
    )
    print(f"{'part':>8} {'MiB':>5} {'ms':>9} {'percent':>8}")
    for part, mib, seconds in compared:
        added = statistics.median(counted - plain for plain, counted in seconds)
        percent = 100 * added / statistics.median(plain for plain, _ in seconds)
        print(f"{part:>8} {mib:5} {1000 * added:+9.2f} {percent:+8.1f}")


def build(checkout):
    """Builds the program of a checkout if that is needed, and returns its path."""
    launcher = checkout / LAUNCHER
    if not launcher.is_file():
        sys.exit(f"{checkout} is no checkout of this repository")
    subprocess.run([launcher, "--help"], stdout=subprocess.DEVNULL, check=True)
    return checkout / PROGRAM


def programs_to_run(options):
    """The programs that the options ask for, each with its own options."""
    program = build(ROOT)
    if options.beside:
        return [[program], [build(options.beside)]]
    return [[program], [program, CENSUS]] if options.census else [[program]]


def positive(word):
    """The positive number that a word of the command line spells."""
    number = int(word)
    if number < 1:
        raise ValueError
    return number


def read_options():
    """What the command line asks for."""
    parser = argparse.ArgumentParser("bench.compare", description=__doc__.splitlines()[0])
    second = parser.add_mutually_exclusive_group()
    second.add_argument("--beside", metavar="CHECKOUT", type=pathlib.Path)
    second.add_argument(CENSUS, action="store_true")
    parser.add_argument("--runs", metavar="N", type=positive, default=RUNS)
    parser.add_argument("sizes", metavar="MIB", type=positive, nargs="*", default=SIZES)
    return parser.parse_args()


def main():
    options = read_options()
    programs = programs_to_run(options)
    print_titles("beside" if options.beside else "with a census" if options.census else None)
    with tempfile.TemporaryDirectory() as name:
        folder = pathlib.Path(name)
        commands = [
            Command(words, folder / f"answer{number}", folder / f"printed{number}")
            for number, words in enumerate(programs)
        ]
        compared = [
            compare(mib, part, folder, commands, options.runs)
            for part in (CENSUS_PARTS if options.census else PARTS)
            for mib in options.sizes
        ]
    if options.beside:
        print_differences(compared)
    if options.census:
        print_added(compared)


if __name__ == "__main__":
    main()
