"""The table of questions: what `sqzlook` takes to answer about a real image and generated ones.

They are about the last object but nil to which the special objects array points. `diff` compares an
image with itself."""

import subprocess

from bench.evaluation.markdown import peak_of, print_table, seconds_of
from bench.evaluation.measuring import in_turn, measure
from bench.evaluation.options import NAMES
from tests.harness.json_rows import rows_of
from tests.harness.programs import SQZLOOK, build

# The commands that ask about an object.
COMMANDS = ("show", "why", "refs")
PARTS = ("mixed", "fitted")
# The kinds of slots that point to objects.
POINTERS = ("pointer", "weak")


def object_of(image):
    """The address of the object that the questions are about."""
    words = [SQZLOOK, "show", "--json", image, "special", "objects", "array"]
    ended = subprocess.run(words, stdout=subprocess.PIPE, check=True)
    (row,) = rows_of(ended.stdout)
    targets = [it["value"] for it in row["slots"] if it["kind"] in POINTERS]
    nil = next(it["value"] for it in row["slots"] if it["slot"] == 0)
    return [it for it in targets if it != nil][-1]


def asking_task(*words):
    """A task that asks a question, and measures the answer."""
    return lambda: measure([SQZLOOK, *words])


def row_over(name, image, runs):
    """The row of an image."""
    address = object_of(image)
    tasks = {it: asking_task(it, image, address) for it in COMMANDS}
    tasks["top"] = asking_task("top", image)
    tasks["diff"] = asking_task("diff", image, image)
    *asked, top, diff = in_turn(tasks, runs).values()
    most = max(asked, key=lambda it: it.peak)
    seconds = map(seconds_of, (*asked, top, diff))
    return [name, *seconds, *map(peak_of, (most, top, diff))]


def print_questions(options, _folder):
    """Prints a row for each image."""
    build("sqzlook")
    images = {"real image": options.image} if options.image else {}
    images.update({NAMES[part]: options.generated(part) for part in PARTS})
    titles = [f"`{it}`" for it in (*COMMANDS, "top", "diff")]
    print_table(
        ["Seconds", *titles, "Peak in MiB", "of `top`", "of `diff`"],
        [row_over(name, image, options.runs) for name, image in images.items()],
    )
