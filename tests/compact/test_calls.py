"""Counts the calls of `sqzcompact`, lets each transfer little, and gives its workers' lists no
room.

A million calls of one byte do all that one call does. If calls transfer all that they are asked to,
there is one for each 64 KiB of a file, and one for each region of OUT.

Workers that cannot grow their lists leave objects to the caller's thread. If that looked through
all objects for each of these, a run would not end in its time.
"""

from tests.harness.outcomes import NO_MEMORY, SUCCESS
from tests.harness.preload import PreloadTest
from tests.harness.programs import SQZCOMPACT
from tests.making.large_images import blocks, made, pairs, varied
from tests.reference.file_format import PREFIX

# The size in bytes of a read or write of the program, and of a region.
PIECE = 1 << 16
REGION = 4 << 16
# Further calls: one that finds the end, one for each part before the data, and a few more.
FEW = 8
# A run makes fewer allocations than these before it begins to mark.
MOST_REQUESTS = 1_000


def pieces(count, size):
    return (count + size - 1) // size


class CountsTest(PreloadTest):
    """The number of reads and writes is that of the pieces of IN and OUT, and a few more."""

    def test_calls_of_one_byte(self):
        small = made(varied(22_000), order="big", prefix=PREFIX)
        with self.subTest("a million calls"):
            self.assertGreater(min(len(small.image), len(small.answer)), 1 << 20)
        self.check_counts(small, 1)

    def test_calls_of_64_kib(self):
        large = made(blocks(285_000))
        with self.subTest("64 MiB"):
            self.assertGreater(len(large.image), 64 << 20)
        self.check_counts(large, PIECE)

    def check_counts(self, it, most):
        """Runs the program with calls of at most `most` bytes, and checks how many there are."""
        self.write("in", it.image)
        outcome = self.run_with(self.fail_calls, SQZCOMPACT, "in", "out", most_bytes=most)
        reads, writes = self.counts("counted")
        with self.subTest("compacts"):
            self.assert_ends(outcome, SUCCESS)
            self.assert_holds("out", it.answer)
        with self.subTest("reads"):
            least = pieces(len(it.image), most)
            self.assertIn(reads, range(least, least + FEW + 1))
        with self.subTest("writes"):
            least = pieces(len(it.answer), most)
            regions = pieces(len(it.image), REGION)
            cuts = (regions + FEW) * pieces(PIECE, most) if most > 1 else FEW
            self.assertIn(writes, range(least, least + cuts + 1))


class ListsTest(PreloadTest):
    """Nearly all growth of the workers' lists fails, over an array of 500,000 objects that each
    point to another one."""

    @classmethod
    def setUpClass(cls):
        super().setUpClass()
        cls.made = made(pairs(500_000))

    def test_one_worker(self):
        self.check_lists("1", 450_000)

    def test_four_workers(self):
        # some take what others list, which leaves room, so fewer allocations fail
        self.check_lists("4", 100_000)

    def check_lists(self, workers, most):
        """Fails `most` allocations from the first one on, from the second, and so on.

        A run ends with the fault, or without it once the failed allocations are those of lists."""
        self.write("in", self.made.image)
        for first in range(1, MOST_REQUESTS):
            self.put_old()
            words = ("--workers", workers, "in", "out")
            numbers = {"first_failed": first, "most_failed": most}
            outcome = self.run_with(self.fail_allocations, SQZCOMPACT, *words, **numbers)
            if outcome == SUCCESS:
                self.assert_holds("out", self.made.answer)
                self.assertEqual(self.counts("failures"), [most])
                return
            self.assert_ends(outcome, NO_MEMORY)
            self.assert_untouched()
        self.fail("each run ended with the fault")
