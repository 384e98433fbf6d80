"""The tables of a real image: what programs take to compact it, and what a Squeak machine takes to
load it, collect garbage, save it and end.

All get the same files: the image of Debian's package `scratch`, made so that it saves itself as
soon as it is started (`bench/images/saving.py`), and copies of it in one image of the size of the
generated ones. The machine opens no window and no sound device. Its time goes from the start of its
process to the end, as for the other programs, and it saves to the file that it read. The image of
the last column ends without saving."""

import shutil
import sys

from bench.compare import apart
from bench.evaluation.compaction import (
    Row,
    check_outputs,
    compacting_tasks,
    print_peaks,
    print_seconds,
)
from bench.evaluation.measuring import in_turn, measure
from bench.evaluation.programs import compactors, find_machine
from bench.images import MIB
from bench.images.saving import QUIT, SAVE, dead_copies, saving_file

# The options with which a machine opens no window and no sound device.
HEADLESS = ("-vm-display-null", "-vm-sound-null")
# The file that the machine reads and saves to. It reads no file of a name without `.image`.
SAVED = "saved.image"


def write_saving(source, selectors, count, path):
    """Writes the file of copies of an image that sends these selectors when it is started."""
    path.write_bytes(saving_file(source.read_bytes(), selectors, count))


def starting_task(machine, image, place):
    """A task that starts a copy of an image, which ends by itself, and measures it."""

    def task():
        shutil.copyfile(image, place)
        return measure([machine, *HEADLESS, place])

    return task


def machine_tasks(source, count, image, folder):
    """The tasks of the machine, if it is installed: over the image, and over one that only ends."""
    machine = find_machine()
    if machine is None:
        return {}
    ending = folder / "ending"
    apart(write_saving, source, (QUIT,), count, ending)
    return {
        "`squeakvm`": starting_task(machine, image, folder / SAVED),
        "loads only": starting_task(machine, ending, folder / "loaded.image"),
    }


def check_saved(folder, program):
    """Ends the script unless the machine saved as many bytes as the program wrote."""
    saved, out = ((folder / name).stat().st_size for name in (SAVED, program.title))
    if saved != out:
        sys.exit(f"the machine saved {saved} bytes, and a compaction has {out}")


def name_of(count):
    """What the row of `count` copies is called."""
    return "real image" if count == 1 else f"{count} copies, {dead_copies(count)} of them garbage"


def row_over(count, options, folder):
    """Measures all programs and the machine over `count` copies of the real image."""
    image, programs = folder / "image", compactors()
    apart(write_saving, options.image, (SAVE, QUIT), count, image)
    machine = machine_tasks(options.image, count, image, folder)
    medians = in_turn({**compacting_tasks(image, folder, programs), **machine}, options.runs)
    check_outputs(folder, programs)
    if machine:
        check_saved(folder, programs[0])
    return Row(name_of(count), image.stat().st_size, medians)


def print_real(options, folder):
    """Prints the tables of the real image, if there is one."""
    if options.image is None:
        print("There is no real image.\n")
        return
    count = -(-options.mib * MIB // options.image.stat().st_size)
    rows = [row_over(it, options, folder) for it in sorted({1, count})]
    print_seconds(rows)
    print_peaks(rows)
