"""Runs every command of `sqzlook` over images that are small, but large for a search that looks at
shared parts again and again, and compares its answers about the smallest with a second
implementation.

At four times the size a command may take at most `SLOWER` times as long, and memory in proportion
to the images. Growth with the square of the size would take 16 times as long. A run that takes
longer is repeated, and the shortest one counts: on a busy machine one run tells little."""

import functools
import resource
import typing

from tests.harness.diff_checks import DiffTest, pairs_of
from tests.harness.look_checks import Asking
from tests.harness.program_checks import ProgramTest
from tests.harness.programs import SQZLOOK, Limits
from tests.harness.top_checks import Asked, Shape, TopTest
from tests.making.hostile_images import HOSTILE
from tests.making.named_image import NamedImage, named_file
from tests.reference.image import Image
from tests.reference.tree import Tree

# The size of the images that are compared with the second implementation, and of those that are
# measured: the larger one of these is `TIMES` as large.
TINY, SMALL, TIMES = 6, 1000, 4
# At most how many times as long a command may take, the seconds that count as the least, and how
# often a run that takes longer is repeated.
SLOWER, LEAST_SECONDS, REPEATS = 8, 0.2, 4
# A process may take `REST` bytes of memory, and `EACH` bytes for each byte of its images.
REST, EACH = 32 << 20, 20
# One arena, and not one for each thread: the address space is then what a run asks for.
ENV = {"MALLOC_ARENA_MAX": "1", "MALLOC_MMAP_THRESHOLD_": "131072"}
STACK = 256 << 10
NAME, OTHER = "it.image", "other.image"


class Run(typing.NamedTuple):
    """The exit of a run, and the seconds of its threads together."""

    status: int
    seconds: float


def lines_about(it):
    """The words of each command about an image at `NAME`, in the forms that differ most."""
    first, *others = it.objects
    lines = [("check", "--all"), ("check", "--strict"), ("info",), ("top", "--min", "0")]
    lines += [("code", "--all"), ("code", "--unsent"), ("code", "--unimplemented")]
    lines += [("stacks",), ("dump",), ("explore",)]
    lines += [("census", "--dead"), ("census", "--retained"), ("census", "--by", "category")]
    lines += [("top", *form) for form in (("--json",), ("--folded", "--min", "0"))]
    lines = [(*line, NAME) for line in lines]
    for form in ((), ("--all",), ("--json",)):
        lines.append(("list", *form, NAME, it.a_class))
        lines += [("refs", *form, NAME, first), ("why", *form, NAME, first)]
    for form in ((), ("--json",)):
        lines += [("diff", *form, OTHER, NAME), ("diff", *form, NAME, NAME)]
    lines += [(command, NAME, "go") for command in ("senders", "implementors")]
    lines += [("find", "--json", NAME, "."), ("code", NAME, it.a_class)]
    lines.append(("why", "--raw", NAME, first))
    of_one = ("show", "code") if ">>" in first else ("show",)
    lines += [(name, form, NAME, first) for name in of_one for form in ("--all", "--json")]
    for word in others:
        lines += [(command, NAME, word) for command in ("show", "why", "refs")]
    return lines


def seconds_of_children():
    usage = resource.getrusage(resource.RUSAGE_CHILDREN)
    return usage.ru_utime + usage.ru_stime


class GrowthTest(ProgramTest):
    """Time and memory of all commands."""

    def asked(self, name, size):
        """Writes an image. Returns the words of each command about it, and the limits of a run."""
        it = HOSTILE[name](size)
        self.write(NAME, it.file)
        self.write(OTHER, named_file())
        return lines_about(it), Limits(memory=REST + EACH * len(it.file), stack=STACK)

    def run_once(self, line, limits):
        before = seconds_of_children()
        with open(self.folder / "out", "wb") as out:
            outcome = self.run_here(SQZLOOK, *line, stdout=out, env=ENV, limits=limits)
        return Run(outcome.status, seconds_of_children() - before)

    def run_in(self, most, line, limits):
        """The first run that takes less than `most` seconds, or else the shortest one."""
        run = self.run_once(line, limits)
        for _ in range(REPEATS):
            if run.seconds < most:
                break
            run = min(run, self.run_once(line, limits), key=lambda it: it.seconds)
        return run

    def check_growth(self, name):
        lines, limits = self.asked(name, SMALL)
        seconds = [self.run_once(line, limits).seconds for line in lines]
        lines, limits = self.asked(name, TIMES * SMALL)
        for before, line in zip(seconds, lines):
            with self.subTest(" ".join(word[:40] for word in line)):
                most = SLOWER * max(LEAST_SECONDS, before)
                run = self.run_in(most, line, limits)
                self.assertLess(run.status, 2)  # 1 if the images differ
                self.assertLess(run.seconds, most)

    def test_chain(self):
        self.check_growth("chain")

    def test_doubly_linked(self):
        self.check_growth("doubly_linked")

    def test_links_to_list(self):
        self.check_growth("links_to_list")

    def test_shared_methods(self):
        self.check_growth("shared_methods")

    def test_shared_pool(self):
        self.check_growth("shared_pool")

    def test_shared_array(self):
        self.check_growth("shared_array")

    def test_own_superclass(self):
        self.check_growth("own_superclass")

    def test_many_variables(self):
        self.check_growth("many_variables")

    def test_long_selector(self):
        self.check_growth("long_selector")

    def test_long_selectors(self):
        self.check_growth("long_selectors")

    def test_shared_literals(self):
        self.check_growth("shared_literals")

    def test_nested_literals(self):
        self.check_growth("nested_literals")

    def test_one_method(self):
        self.check_growth("one_method")

    def test_long_method(self):
        self.check_growth("long_method")

    def test_shared_stack(self):
        self.check_growth("shared_stack")

    def test_stack_in_a_cycle(self):
        self.check_growth("stack_in_a_cycle")


@functools.cache
def tiny(name):
    """The file of a smallest image."""
    return HOSTILE[name](TINY).file


class TinyImagesTest(TopTest, DiffTest):
    """Answers about the smallest of these images."""

    def write_all(self):
        for name in HOSTILE:
            self.write(name, tiny(name))
        self.write(OTHER, named_file())

    def test_commands(self):
        self.write_all()
        questions = []
        for name in HOSTILE:
            image = Image.read(tiny(name))[0]
            asking, added = Asking(image, name), range(len(NamedImage().items), len(image.objects))
            questions += asking.of_image()
            questions += asking.of_groups(list(asking.answers.live_groups))
            questions += asking.of_objects(show=added, why=added, refs=added)
        self.check_questions(questions)

    def test_top(self):
        self.write_all()
        trees = [
            Asked(Tree(Asking(Image.read(tiny(name))[0], name).answers), name, ())
            for name in HOSTILE
        ]
        self.check_trees(trees, [Shape(), Shape(100, "0")])

    def test_diff(self):
        self.write_all()
        files = {OTHER: named_file(), **{name: tiny(name) for name in HOSTILE}}
        chosen = [(OTHER, name) for name in HOSTILE] + [(name, OTHER) for name in HOSTILE]
        self.check_pairs(pairs_of(files, [*chosen, *zip(HOSTILE, [*HOSTILE][1:])]))
