"""Fails one allocation, read or write of `sqzlook` at a time, until a run makes no more of them.

`sqzlook` prints its answer whole or not at all, or if a write failed, a prefix. `check` prints the
row of each image before it reads the next one. A run does without the memory that a thread's start
requested. If other code made the request, the run ends with the fault, with one exception:
`collect` reserves room for the words of the command line, and goes on without it. So does, once,
the library that compiles regular expressions.
"""

import collections
import errno
import re

from tests.harness.allocation_callers import OTHER, START, Functions
from tests.harness.outcomes import Outcome
from tests.harness.preload import PreloadTest
from tests.harness.programs import SQZLOOK
from tests.harness.sqzlook import look
from tests.harness.worked_images import IMAGES

CHECK = ("check", "accepted/dead_cycle.image")
QUESTIONS = (
    CHECK,
    ("info", "accepted/dead_cycle.image"),
    ("census", "accepted/class_names.image", "--json"),
    ("census", "accepted/class_names.image", "--by", "category"),
    ("list", "accepted/class_names.image", "00001004"),
    ("show", "accepted/context_stack.image", "0000101c"),
    ("show", "accepted/class_names.image", "00001024", "--json"),
    ("why", "weak/weak_fields.image", "00001020", "--clear-weak"),
    ("refs", "accepted/class_names.image", "00001004"),
    ("top", "accepted/dozen_classes.image", "--min", "0"),
    ("top", "accepted/class_names.image", "--json"),
    ("top", "accepted/class_names.image", "--folded"),
    ("code", "accepted/class_names.image"),
    ("code", "accepted/class_names.image", "--unsent"),
    ("senders", "accepted/class_names.image", "+"),
    ("stacks", "accepted/dead_cycle.image"),
    ("find", "accepted/class_names.image", "P"),
    ("dump", "accepted/dead_cycle.image"),
    ("explore", "accepted/dead_cycle.image"),
    ("mend", "--nil", "accepted/dead_cycle.image"),
    ("diff", "accepted/dozen_classes.image", "accepted/class_names.image"),
    ("diff", "accepted/metaclass.image", "accepted/class_names.image", "--json"),
)
# Commands whose answer has another exit than 0.
EXITS = {"diff": 1}
# Two images with different rows.
TWO_IMAGES = ("accepted/dead_cycle.image", "accepted/class_names.image")
# The number of allocations of `collect`, which a run does without, and of the library that compiles
# regular expressions.
RESERVATIONS, OF_EXPRESSIONS = 1, 1
# The end of a run that ran out of memory.
FAULT = "the fault"
NO_MEMORY, NOT_READ, NOT_WRITTEN = (
    "fault 15: out of memory",
    "fault 16: cannot read the image",
    "fault 17: cannot write the output",
)


def paths_in(args):
    """The paths of the images that a question is about."""
    return [str(IMAGES / word) for word in args if word.endswith(".image")]


def words_of(args):
    """The words of a question, with the whole paths of images."""
    return [str(IMAGES / word) if word.endswith(".image") else word for word in args]


class LookFaultsTest(PreloadTest):
    """`sqzlook` prints its whole answer, or ends with the fault."""

    def test_allocations(self):
        functions = Functions(SQZLOOK)
        for args in QUESTIONS:
            with self.subTest(args):
                self.check_allocations(functions, args)

    def test_allocations_of_two_images(self):
        """Each image has a row, even if memory runs out at one of them."""
        words = ("check", *(str(IMAGES / name) for name in TWO_IMAGES))
        whole = look(*words)
        self.assert_quiet(whole)
        first, second = whole.stdout.splitlines(keepends=True)
        self.assertNotEqual(first, second)
        large = [f"{path}: {NO_MEMORY}\n".encode() for path in words[1:]]
        printed = collections.Counter()
        for outcome in self.failing(self.fail_allocations, SQZLOOK, *words):
            if outcome != whole:
                self.assertEqual(outcome.status, 4)
                if outcome.stderr:
                    self.assertRegex(outcome.stderr.decode(), rf"\A(sqzlook: )?{NO_MEMORY}\n\Z")
                printed[outcome.stdout] += 1
        rows = {b"", large[0] + second, first + large[1]}
        self.assertEqual(set(printed), rows)
        self.assertGreater(min(printed.values()), 3)

    def test_failed_reads(self):
        for args in QUESTIONS:
            with self.subTest(args):
                outcomes = set(self.failing_looks(self.fail_calls, args, "failed_read"))
                self.assertEqual(outcomes, {self.not_read(args, it) for it in paths_in(args)})

    def test_failed_writes(self):
        for args in QUESTIONS:
            with self.subTest(args):
                answer = self.answer(args)
                outcomes = list(self.failing_looks(self.fail_calls, args, "failed_write"))
                self.assertGreater(len(outcomes), 0)
                for outcome in outcomes:
                    self.assert_ends_with(outcome, 3, NOT_WRITTEN, args)
                    self.assertTrue(answer.stdout.startswith(outcome.stdout))

    def check_allocations(self, functions, args):
        """Fails each allocation: only a start and the reservation of `collect` do without."""
        whole = self.answer(args)
        ends = collections.Counter()
        for outcome in self.failing_looks(self.fail_allocations, args, "first_failed"):
            if outcome == whole:
                ends[self.requester(functions)] += 1
            elif args == CHECK and outcome.stdout:
                self.assertEqual(outcome, self.too_large(args))
                ends[FAULT] += 1
            else:
                self.assert_ends_with(outcome, 4, NO_MEMORY, args)
                self.assertEqual(outcome.stdout, b"")
                ends[FAULT] += 1
        self.assertGreater(ends[FAULT], 10)
        others = RESERVATIONS + (OF_EXPRESSIONS if args[0] == "find" else 0)
        self.assertEqual(ends[OTHER], others)
        self.assertLessEqual(set(ends), {FAULT, OTHER, START})

    def too_large(self, args):
        """The end of a check of an image for which memory ran out."""
        (path,) = paths_in(args)
        return Outcome(4, stdout=f"{path}: {NO_MEMORY}\n".encode())

    def not_read(self, args, path):
        """The end of a run that cannot read an image. `check` has a line about it."""
        line = f"{path}: {NOT_READ}\n"
        if args == CHECK:
            return Outcome(3, stdout=line.encode())
        return Outcome(3, stderr=f"sqzlook: {line}".encode())

    def assert_ends_with(self, outcome, status, fault, args):
        """Checks for an exit and a fault.

        The name of the program is before it once the command line is known, and the path of an
        image once this is read."""
        paths = "|".join(map(re.escape, paths_in(args)))
        line = rf"\A(sqzlook: (({paths}): )?)?{fault}\n\Z"
        self.assertRegex(outcome.stderr.decode(), line)
        self.assertEqual(outcome.status, status)

    def answer(self, args):
        """The end of a run about a question if nothing fails."""
        outcome = look(*words_of(args))
        self.assertEqual((outcome.status, outcome.stderr), (EXITS.get(args[0], 0), b""))
        return outcome

    def failing_looks(self, library, args, failure):
        options = {"failure": failure, "failed_error": errno.EIO}
        return self.failing(library, SQZLOOK, *words_of(args), **options)
