"""The table of stages: the milliseconds of each stage of a run, of `sqzcompact` and of stock Rust.

Each program makes three runs at a time in one process. `sqzcompact` also makes a class histogram in
these, which is not in the sum."""

import statistics

from bench.evaluation.markdown import print_table
from bench.evaluation.options import NAMES
from bench.evaluation.programs import WORKERS, Program
from bench.stages import PROGRAM, timed
from bench.stock_program import STOCK, build_stock, has_cargo
from tests.harness.programs import build

# The parts that are measured, and whether in the other byte order.
IMAGES = (("mixed", False), ("fitted", False), ("mixed", True))
CENSUS = "census"
RUNS_AT_A_TIME = 3


def stage_programs():
    """The programs that time their stages, built."""
    build(PROGRAM.name)
    found = [Program("`sqzcompact`", [PROGRAM])]
    if has_cargo():
        build_stock()
        found.append(Program("stock", [STOCK, "--times"]))
    return found


def runs_in_turn(programs, workers, image, out, count):
    """For each program, a dictionary of milliseconds by stage for each of its runs."""
    found = {it.title: [] for it in programs}
    for turn in range(-(-count // RUNS_AT_A_TIME)):
        for it in programs if turn % 2 == 0 else reversed(programs):
            names, runs = timed([*it.words, "--workers", str(workers)], image, out)
            found[it.title] += [dict(zip(names, run)) for run in runs]
    return found


def sum_of(run):
    """The milliseconds of a run without its class histogram."""
    return sum(time for name, time in run.items() if name != CENSUS)


def cells_of(runs, names):
    """The medians of these stages and of the sum. A program may lack a stage."""
    columns = [[run[name] for run in runs if name in run] for name in names]
    columns.append([sum_of(run) for run in runs])
    return [f"{statistics.median(column):.0f}" if column else "" for column in columns]


def rows_over(part, is_swapped, programs, options, out):
    """The names of the stages with each row of an image."""
    image = options.generated(part, is_swapped)
    name = f"{NAMES[part]}, other byte order" if is_swapped else NAMES[part]
    for workers in WORKERS:
        found = runs_in_turn(programs, workers, image, out, options.runs)
        names = list(found[programs[0].title][0])
        for title, runs in found.items():
            yield names, [f"{name}: {title}, {workers}", *cells_of(runs, names)]


def print_stages(options, folder):
    """Prints a row for each image, program and number of workers."""
    programs, out = stage_programs(), folder / "out"
    rows = [row for it in IMAGES for row in rows_over(*it, programs, options, out)]
    names = rows[0][0]
    print_table(["Milliseconds", *names, "sum"], [row for _, row in rows])
