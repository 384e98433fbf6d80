"""Fails one allocation, read or write of a run at a time, until a run makes no more of them.

No failure may change OUT or what is printed: a run ends with the fault and has written nothing, or
if a write failed, a prefix of OUT. A run does without the memory that a deque's push or a thread's
start requested. If other code made the request, the run ends with the fault, with one exception:
`collect` reserves room for the words of the command line, and goes on without it.

The tests of the crate `sqz_test_allocation` run in the same way: each public call that ran out of
memory is repeated there, and its name printed. So does the test of `sqz_test_marks` that closes a
mark table again.
"""

import collections
import dataclasses
import errno
import itertools
import re

from tests.harness.allocation_callers import OTHER, PUSH, START, Functions
from tests.harness.outcomes import NOT_READ, NOT_WRITTEN, NO_MEMORY, Outcome
from tests.harness.preload import PreloadTest
from tests.harness.programs import SQZCOMPACT, tests_path
from tests.harness.worked_images import worked_image
from tests.making.large_images import zigzag_chain

# A dead array, dead objects in a cycle, class names in both byte orders, and weak objects after 512
# bytes.
NAMES = (
    "dead_array",
    "dead_cycle",
    "class_names",
    "big_endian_class_names",
    "weak_array_behind_512_bytes",
)
# One worker starts no thread over these images.
WORKERS = ("1", "2")
# The number of allocations of `collect`, which a run does without.
RESERVATIONS = 1
# The objects of a chain: to go over all of them for each of them takes longer than a run may.
CHAIN = 500_000

CALLS_AGAIN = tests_path("sqz_test_allocation")
TESTS_AGAIN = (
    "reading::reading_serves_again",
    "stages::stages_serve_again",
    "tables::mark_table_serves_again",
    "runs::run_serves_again",
    "runs::run_serves_over_new_devices",
)
# What a test prints there if its own request for memory failed.
TEST_ASKED = "the test asks again"
# The public calls that can run out of memory, except those of the program itself.
CALLS = set(
    """
    read_all read_image_bytes MemorySink::new read_image mark_plain Regions::of live_words bases
    Forward::build mark_locked mark slide census print MarkTable::new MarkTable::close run
    """.split()
)
CLOSES_AGAIN = tests_path("sqz_test_marks")
TEST_OF_CLOSING = "steps::one_pass"
# What that test ends with if another of its calls runs out of memory.
OUT_OF_MEMORY = (b"error: OutOfMemory\n", b"error: AllocError\n")

# The end of a run that ran out of memory.
FAULT = "the fault"


@dataclasses.dataclass(frozen=True)
class Run:
    """A run of `sqzcompact`: IN, what it must write and print, and its options."""

    image: bytes
    answer: bytes
    census: bytes
    options: tuple

    @property
    def whole(self):
        """The outcome if nothing fails."""
        return Outcome(0, stdout=self.census)


def runs_over(name):
    """Runs over a worked image: weak references kept and cleared, by one worker and by two."""
    for clear_weak, workers in itertools.product((False, True), WORKERS):
        it = worked_image(name, clear_weak)
        options = ("--workers", workers, "--region-words", "8", "--census")
        weak = ("--clear-weak",) if clear_weak else ()
        yield Run(it.image, it.answer, it.census, (*weak, *options))


class CompactionTest(PreloadTest):
    """A test that runs `sqzcompact` again and again, with the next failure in each run."""

    def compact(self, it, library, **variables):
        """The outcome of a run with a library."""
        self.write("in", it.image)
        self.put_old()
        return self.run_with(library, SQZCOMPACT, *it.options, "in", "out", **variables)

    def failing_compactions(self, it, library, failure, **variables):
        """As `failing`, over a run of `sqzcompact`. The run without a failure must do all."""
        for number in itertools.count(1):
            outcome = self.compact(it, library, **{failure: number}, **variables)
            if not self.has_failed():
                self.assert_whole(outcome, it)
                return
            yield outcome

    def assert_whole(self, outcome, it):
        self.assert_ends(outcome, it.whole)
        self.assert_holds("out", it.answer)


class AllocationsTest(CompactionTest):
    """A run ends with the fault, or does without the memory for a push or a start."""

    @classmethod
    def setUpClass(cls):
        super().setUpClass()
        cls.functions = Functions(SQZCOMPACT)

    def test_worked_images(self):
        ends = {workers: collections.Counter() for workers in WORKERS}
        for name in NAMES:
            for it, workers in zip(runs_over(name), itertools.cycle(WORKERS)):
                with self.subTest(image=name, options=it.options):
                    ends[workers] += self.check_allocations(it)
        one, two = ends.values()
        with self.subTest("only two workers start threads"):
            self.assertEqual(set(one), {FAULT, OTHER, PUSH})
            self.assertEqual(set(two), {FAULT, OTHER, PUSH, START})

    def test_long_chain(self):
        image = zigzag_chain(CHAIN)
        for workers in WORKERS:
            with self.subTest(workers=workers):
                self.check_allocations(Run(image, image, b"", ("--workers", workers)))

    def check_allocations(self, it):
        """Fails each allocation. Counts the runs that end with the fault, and by whose allocation
        failed, those that do all."""
        ends = collections.Counter()
        for outcome in self.failing_compactions(it, self.fail_allocations, "first_failed"):
            if outcome.status == 0:
                self.assert_whole(outcome, it)
                ends[self.requester(self.functions)] += 1
            else:
                self.assert_ends(outcome, NO_MEMORY)
                self.assert_untouched()
                ends[FAULT] += 1
        self.assertGreaterEqual(ends[FAULT], 20)
        self.assertEqual(ends[OTHER], RESERVATIONS)
        return ends


class DevicesTest(CompactionTest):
    """A run ends with the fault of a read or a write that failed."""

    def test_failed_reads(self):
        self.check_runs(self.check_reads, failed_error=errno.EIO)

    def test_failed_writes(self):
        self.check_runs(self.check_writes, failed_error=errno.EIO)

    def test_interrupted_reads(self):
        self.check_runs(self.check_reads, failed_error=errno.EINTR)

    def test_interrupted_writes(self):
        self.check_runs(self.check_writes, failed_error=errno.EINTR)

    def test_failed_reads_of_one_byte(self):
        for name in NAMES:
            it = next(runs_over(name))
            with self.subTest(image=name):
                self.check_reads(it, len(it.image), failed_error=errno.EIO, most_bytes=1)

    def test_failed_writes_of_one_byte(self):
        for name in NAMES:
            it = next(runs_over(name))
            with self.subTest(image=name):
                least = len(it.answer + it.census)
                self.check_writes(it, least, failed_error=errno.EIO, most_bytes=1)

    def check_runs(self, check, **variables):
        for name in NAMES:
            for it in runs_over(name):
                with self.subTest(image=name, options=it.options):
                    check(it, 2, **variables)

    def check_reads(self, it, least, **variables):
        """Fails each read. There are at least `least`."""
        faults = 0
        for outcome in self.failing_compactions(it, self.fail_calls, "failed_read", **variables):
            self.assert_ends(outcome, NOT_READ)
            self.assert_untouched()
            faults += 1
        self.assertGreaterEqual(faults, least)

    def check_writes(self, it, least, **variables):
        """Fails each write. There are at least `least`."""
        faults = 0
        for outcome in self.failing_compactions(it, self.fail_calls, "failed_write", **variables):
            self.assert_cut(outcome, it)
            faults += 1
        self.assertGreaterEqual(faults, least)

    def assert_cut(self, outcome, it):
        """Checks that a prefix of OUT was written, or all of it and a prefix of the census."""
        written = self.read("out")
        ended = Outcome(outcome.status, stderr=outcome.stderr)
        self.assert_ends(ended, NOT_WRITTEN)
        self.assertTrue(it.answer.startswith(written), "OUT is no prefix of the answer")
        self.assertTrue(it.census.startswith(outcome.stdout), "no prefix of the census is printed")
        if outcome.stdout:
            self.assert_holds("out", it.answer)


class CallsAgainTest(PreloadTest):
    """A call that ran out of memory serves when it is repeated."""

    def test_each_call_serves_again(self):
        self.require(CALLS_AGAIN)
        functions, refused = Functions(CALLS_AGAIN), set()
        for test in TESTS_AGAIN:
            with self.subTest(test):
                for outcome in self.failing(self.fail_allocations, CALLS_AGAIN, test):
                    refused.update(self.refused_calls(outcome, functions))
        with self.subTest("each call ran out of memory"):
            self.assertEqual(refused, CALLS)

    def refused_calls(self, outcome, functions):
        """The calls that ran out of memory in a run, and succeeded when they were repeated. If
        there are none, and the test itself did not ask again, the memory was requested by a
        deque's push or a thread's start."""
        self.assertEqual(outcome.status, 0, outcome.stderr)
        text = outcome.stdout.decode()
        calls = re.findall("^refused: (.*)$", text, re.MULTILINE)
        if not calls and TEST_ASKED not in text:
            self.assertIn(self.requester(functions), (PUSH, START))
        return calls

    def test_mark_table_closes_again(self):
        self.require(CLOSES_AGAIN)
        outcomes = list(self.failing(self.fail_allocations, CLOSES_AGAIN, TEST_OF_CLOSING))
        self.assertIn(0, {outcome.status for outcome in outcomes})
        for outcome in outcomes:
            if outcome.status != 0:
                self.assertTrue(outcome.stderr.startswith(OUT_OF_MEMORY), outcome.stderr)

    def require(self, program):
        self.assertTrue(program.exists(), f"{program} is missing: run `rt test` in its crate")
