"""Prints the tables of docs/FIGURES.md. `bench/evaluate` says how to use it."""

import argparse
import pathlib
import tempfile
import textwrap
import typing

from bench import count_lines, list_imports
from bench.compare import positive
from bench.evaluation.compaction import print_compaction
from bench.evaluation.machine import print_machine
from bench.evaluation.options import Options
from bench.evaluation.questions import print_questions
from bench.evaluation.real import print_real
from bench.evaluation.stages import print_stages
from bench.evaluation.testing import print_tests
from tests.harness.squeak_image import find_image

RUNS, SIZE = 9, 64


class Table(typing.NamedTuple):
    """What is printed over a table, and what prints it, given the options and a folder."""

    heading: str
    text: str
    print: typing.Callable


def print_lines(_options, _folder):
    """Prints the lines of each crate."""
    count_lines.main(with_crates=False)
    print(flush=True)


def print_definitions(_options, _folder):
    """Prints what each promise rests on."""
    list_imports.print_promises()
    print(flush=True)


TABLES = {
    "lines": Table(
        "Lines, mutants and tests", "Blank lines and comments do not count.", print_lines
    ),
    "definitions": Table(
        "Definitions to read",
        "The files of definitions behind each promise of `docs/GUARANTEES.md` and each answer of "
        "`sqzlook`: these modules, and all that they import. `types` are declared in Rust.",
        print_definitions,
    ),
    "tests": Table(
        "Tests",
        "What each module of `tests/` counts as passed and as skipped. `./check` runs them after "
        "`rt ci`, which proves all crates, tries the mutants in `crates/` and runs the tests in "
        "Rattle.",
        print_tests,
    ),
    "stages": Table(
        "Time by stage",
        "Images of {mib} MiB. Each program makes three runs in one process. The number after a "
        "program is that of its workers. The sum is without the class histogram (`census`).",
        print_stages,
    ),
    "compaction": Table(
        "Against stock Rust",
        "Images of {mib} MiB. The number after a program is that of its workers. A quotient is "
        "the time of `sqzcompact` divided by that of stock Rust.",
        print_compaction,
    ),
    "real": Table(
        "Against the Squeak machine",
        "`squeakvm` starts without a window, loads the image, collects garbage, saves the image "
        "and ends; `loads only` neither collects nor saves. The other programs compact the same "
        "file.",
        print_real,
    ),
    "questions": Table(
        "Questions",
        "A real image, and images of {mib} MiB. The object is the last one but nil to which the "
        "special objects array points. `diff` compares an image with itself. The first peak is the "
        "highest of `show`, `why` and `refs`.",
        print_questions,
    ),
}
# The width of the text over a table.
WIDTH = 100


def read_arguments():
    """What the command line asks for."""
    parser = argparse.ArgumentParser("bench/evaluate", description=__doc__.splitlines()[0])
    for name, default, text in (
        ("--runs", RUNS, "runs of each program, of which figures are medians"),
        ("--mib", SIZE, "size of generated images in MiB"),
    ):
        text = f"{text} ({default})"
        parser.add_argument(name, metavar="N", type=positive, default=default, help=text)
    text = f"a table to print: {', '.join(TABLES)}; may be given again"
    parser.add_argument("--only", metavar="TABLE", choices=TABLES, action="append", help=text)
    return parser.parse_args()


def print_one(name, options):
    """Prints a table, with what is over it."""
    table = TABLES[name]
    text = f"`bench/evaluate --only {name}`. {table.text.format(mib=options.mib)}"
    print(f"## {table.heading}\n\n{textwrap.fill(text, WIDTH)}\n", flush=True)
    with tempfile.TemporaryDirectory() as folder:
        table.print(options, pathlib.Path(folder))


def main():
    arguments = read_arguments()
    with tempfile.TemporaryDirectory() as name:
        folder = pathlib.Path(name)
        options = Options(arguments.runs, arguments.mib, find_image(folder), folder)
        print_machine(options.image)
        print(f"Figures are medians of {options.runs} runs.\n", flush=True)
        for chosen in arguments.only or TABLES:
            print_one(chosen, options)


if __name__ == "__main__":
    main()
