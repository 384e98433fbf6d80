"""The programs that are compared, and what is missing on this machine."""

import glob
import typing

from bench.stock_program import STOCK, build_stock, has_cargo
from tests.harness.programs import SQZCOMPACT, build
from tests.harness.squeak_image import PACKAGE, VARIABLE

MACHINES = "/usr/lib/squeak/*/squeakvm"
# The numbers of workers that are measured.
WORKERS = (1, 4)


class Program(typing.NamedTuple):
    """A program that takes the paths of two files: its name in a table, and its command."""

    title: str
    words: list


def title_of(name, workers):
    return f"{name}, {workers}"


def compactors():
    """The programs that compact an image, built."""
    build("sqzcompact")
    found = {"`sqzcompact`": SQZCOMPACT}
    if has_cargo():
        build_stock()
        found["stock"] = STOCK
    return [
        Program(title_of(name, workers), [path, "--workers", str(workers)])
        for workers in WORKERS
        for name, path in found.items()
    ]


def find_machine():
    """The path of the Squeak machine, if it is installed."""
    return next(iter(sorted(glob.glob(MACHINES))), None)


def missing_lines(image):
    """A line for each thing that is missing on this machine."""
    if not has_cargo():
        yield "`cargo` is not installed: the tables have no stock Rust."
    if find_machine() is None:
        yield "`squeak-vm` is not installed: the tables have no Squeak machine."
    if image is None:
        yield f"There is no real image: install `{PACKAGE}`, or set `{VARIABLE}` to a path."
