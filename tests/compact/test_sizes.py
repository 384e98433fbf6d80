"""Runs `sqzcompact` over large images, and with little memory.

The images have more objects, words, regions and classes than a table of 12 to 22 bits takes, bases
up to the end of the address space, and long chains and arrays. A run needs a second or two: one
that looks through all objects for each of them does not end in its time.
"""

import itertools

from tests.harness.outcomes import NO_MEMORY
from tests.harness.program_checks import ProgramTest
from tests.harness.programs import SQZCOMPACT, Limits
from tests.harness.worked_images import worked_image
from tests.making.large_images import blocks, byte_object, chain, classes, made, varied, wide
from tests.reference.file_format import HEADER_WORDS, PREFIX

CENSUS = ("--census",)
BY_ONE = ("--workers", "1")
BY_FOUR = ("--workers", "4")
# The default plan, one worker, and many workers with one region for each word.
PLANS = ((), BY_ONE, ("--workers", "64", "--region-words", "1"))
ORDERS = ("little", "big")
# The words of a dead array of two SmallIntegers.
DEAD_ARRAY = (0x320F, 1, 1)

KIB = 1 << 10
MIB = 1 << 20


class LargeTest(ProgramTest):
    """A test that runs the program over a large image by several plans."""

    def check_plan(self, it, plan, **how):
        """Compacts an image. The census is printed if the plan has that option."""
        census = it.census if "--census" in plan else b""
        self.check_compaction(it.image, it.answer, *plan, census=census, **how)

    def check_plans(self, it, *plans, **how):
        """Compacts an image by each of these plans."""
        for plan in plans:
            with self.subTest(plan=plan):
                self.check_plan(it, plan, **how)


class ManyObjectsTest(LargeTest):
    def test_three_objects(self):
        it = worked_image("dead_array")
        self.check_plans(it, *PLANS)

    def test_4200000_objects_in_an_array(self):
        self.check_plans(made(wide(4_200_000)), CENSUS, BY_ONE)

    def test_1000000_objects_in_a_chain(self):
        self.check_plans(made(chain(1_000_000)), CENSUS, BY_ONE)

    def test_20100_classes(self):
        self.check_plans(classes(20_100), CENSUS, (*BY_ONE, *CENSUS))

    def test_5000_classes_in_either_order(self):
        for order, plan in itertools.product(ORDERS, PLANS):
            with self.subTest(order=order, plan=plan):
                self.check_plan(classes(5_000, order=order), (*CENSUS, *plan))

    def test_24_mib_in_either_order(self):
        for order, plan in itertools.product(ORDERS, PLANS):
            with self.subTest(order=order, plan=plan):
                self.check_plan(byte_object(24 * MIB, *DEAD_ARRAY, order=order), plan)


class PlacesTest(LargeTest):
    """Images in both byte orders at high bases, and after other bytes."""

    def test_more_than_4_mib_after_512_bytes(self):
        frames = varied(90_000)
        for order in ORDERS:
            it = made(frames, order=order, prefix=PREFIX)
            with self.subTest("more than 4 MiB", order=order):
                self.assertGreater(min(len(it.image), len(it.answer)), 4 * MIB)
            with self.subTest(order=order):
                self.check_plan(it, CENSUS)

    def test_bases_around_2_to_the_31_and_at_the_end(self):
        frames = varied(60_000)
        size = len(made(frames).image) - 4 * HEADER_WORDS
        bases = ((1 << 31) - MIB, 1 << 31, 0xF0000000, (1 << 32) - size)
        for order, base in itertools.product(ORDERS, bases):
            with self.subTest(order=order, base=f"{base:08x}"):
                self.check_plan(made(frames, base, order), CENSUS)


class MemoryTest(LargeTest):
    """A test that limits the address space of a run."""

    def least_memory(self, answer, *options, step, limits, **how):
        """The least address space in which the file `in` is compacted, in steps of `step` bytes.

        Over a small image, that is the program, the C library, the stack and the first room for IN.
        """
        for memory in range(step, 256 * MIB, step):
            outcome = self.run_here(SQZCOMPACT, *options, "in", "new", limits=limits(memory), **how)
            if outcome.status == 0 and self.read("new") == answer:
                return memory
        self.fail("no limit suffices")


class LargeObjectTest(MemoryTest):
    """An image of few objects, so that no thread is started, takes memory for its words alone."""

    def setUp(self):
        super().setUp()
        it = worked_image("dead_array")
        self.write("in", it.image)
        self.at_rest = self.least_memory(it.answer, step=256 * KIB, limits=Limits)

    def test_half_of_the_image_more_is_too_little(self):
        for size in (2 * MIB, 16 * MIB):
            with self.subTest(size=size):
                image = byte_object(size).image
                self.write("in", image)
                self.put_old()
                limits = Limits(memory=self.at_rest + len(image) // 2)
                self.assert_ends(self.run_here(SQZCOMPACT, "in", "out", limits=limits), NO_MEMORY)
                self.assert_untouched()

    def test_four_times_the_image_more_suffices(self):
        for size in (2 * MIB, 16 * MIB):
            with self.subTest(size=size):
                image = byte_object(size).image
                limits = Limits(memory=self.at_rest + 4 * len(image))
                self.check_compaction(image, image, limits=limits)


class ComputedMemoryTest(MemoryTest):
    """Runs in 15 percent more memory than is computed from objects, words and classes.

    The address space of a run is then what it asks for: threads have small stacks, there is one
    arena and not one for each thread, and large blocks go back to the system when they are
    freed."""

    ENV = {"MALLOC_ARENA_MAX": "1", "MALLOC_MMAP_THRESHOLD_": "131072"}
    STACK = 256 * KIB
    # The threads that exist at one time on four processors.
    THREADS = 8

    # There are somewhat fewer objects than a power of two, since lists that grow double their room.
    # The small objects point to two others at most: with a wide array, the workers' lists take what
    # memory there is, and less is left for the rest.

    def test_chain(self):
        self.check_limit(made(chain(500_000)), 1_000_003, 1)

    def test_blocks(self):
        self.check_limit(made(blocks(100_000)), 150_003, 1)

    def test_classes(self):
        self.check_limit(classes(20_100), 4 * 20_100 + 20_100 + 3, 20_101)

    def check_limit(self, it, objects, classes_of_them):
        """Runs in little more memory than an image with these objects and classes needs."""
        small = made(chain(2))
        self.write("in", small.image)
        how = {"env": self.ENV}
        at_rest = self.least_memory(
            small.answer, *CENSUS, step=128 * KIB, limits=self.limits, **how
        )
        need = self.need_of(it, objects, classes_of_them)
        limits = self.limits(at_rest + need * 115 // 100)
        self.check_plans(it, (*BY_ONE, *CENSUS), (*BY_FOUR, *CENSUS), limits=limits, **how)

    def limits(self, memory):
        return Limits(memory=memory, stack=self.STACK, processors=4)

    def need_of(self, it, objects, classes_of_them):
        """The bytes that a run with a census needs besides those at rest, at one of two times.

        While IN is read: its bytes, and the heap. The heap is 4 bytes and the quarter of one in the
        table of addresses for each word, and 4 bytes for each object, where it begins.

        At the end, while the entries of the census are put together: the heap; for each object 1
        byte for its shade, 4 for its new address, and 16 for two entries; 4 bytes for each word of
        OUT; for each class 220 bytes for its share, row, name and line; and the threads.

        More than that is a new address for each word, room for all objects in each range of them,
        or room for a census beyond its lines."""
        words = len(it.image) // 4
        heap = words * 17 // 4 + 4 * objects
        end = heap + 21 * objects + len(it.answer) + 220 * classes_of_them
        return max(room_for(len(it.image)) + heap, end + self.THREADS * self.STACK)


def room_for(size):
    """The room for the bytes of a file, which grows by a MiB or a quarter until it suffices."""
    room = 0
    while room < size:
        room += max(room // 4, MIB)
    return room
