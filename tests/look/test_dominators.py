"""Compares the dominators in images with a brute force.

`sqz_dev_check_dominators` compares them, with weak slots kept and cleared, from passes alone and
from a candidate, which the check must accept. The images are those of images/, `COUNT` random ones
and `GRAPHS` images of small graphs that `SQZ_SEED` chooses."""

import collections
import random
import unittest

from tests.harness.outcomes import Outcome
from tests.harness.preload import PreloadTest
from tests.harness.program_checks import ProgramTest
from tests.harness.programs import build, program_path
from tests.harness.worked_images import readable_paths, unreadable_paths
from tests.making.graph_shapes import SHAPES, graph_file, list_with_both_ends, list_with_owner
from tests.making.random_images import random_files
from tests.making.seed import SEED
from tests.reference.file_format import BASE
from tests.reference.image import Image

CHECK_DOMINATORS = program_path("sqz_dev_check_dominators")
COUNT = 100
# The images of small graphs, and how many of them a process compares.
GRAPHS = 4200
GRAPHS_AT_ONCE = 300
# The address of the first node of such an image.
FIRST = BASE + 4
# The nodes of a list that a few passes settle, and of one for which passes take minutes.
SHORT, LONG = 8, 300_000


def objects_line(file):
    """What the program prints about the image of a file that has no difference."""
    image, _ = Image.read(file)
    return line_of(len(image.objects))


def line_of(count):
    return f"{count} objects, 2 of 2 trees certified"


class DominatorsTest(ProgramTest):
    """Each object has the immediate dominator that the brute force finds."""

    @classmethod
    def setUpClass(cls):
        build("sqz_dev_check_dominators")  # the other programs are not run

    def check_image(self, path, line):
        outcome = self.run_here(CHECK_DOMINATORS, path)
        self.assert_ends(outcome, Outcome(0, stdout=f"{path}: {line}\n".encode()))

    def test_readable_images(self):
        for path in readable_paths():
            with self.subTest(image=path.name):
                self.check_image(path, objects_line(path.read_bytes()))

    def test_unreadable_images(self):
        for path in unreadable_paths():
            with self.subTest(image=path.name):
                self.check_image(path, "unreadable")

    def test_random_images(self):
        for name, file in random_files(COUNT).items():
            with self.subTest(name):
                self.write("in", file)
                self.check_image("in", objects_line(file))

    def test_graphs(self):
        generator = random.Random(SEED)
        for start in range(0, GRAPHS, GRAPHS_AT_ONCE):
            lines = []
            for number in range(GRAPHS_AT_ONCE):
                shape = SHAPES[number % len(SHAPES)](generator)
                self.write(f"{number}", graph_file(shape))
                lines.append(f"{number}: {line_of(len(shape.successors) + 2)}\n")
            with self.subTest(start=start):
                outcome = self.run_here(CHECK_DOMINATORS, *map(str, range(GRAPHS_AT_ONCE)))
                self.assert_ends(outcome, Outcome(0, stdout="".join(lines).encode()))

    def check_list(self, shape, retained):
        """Passes settle a short list. For a long one a candidate is made in time."""
        way = "Settled" if len(shape.successors) == SHORT else "Certified"
        self.write("in", graph_file(shape))
        outcome = self.run_here(CHECK_DOMINATORS, "--retained", f"{FIRST:x}", "in")
        self.assert_ends(outcome, Outcome(0, stdout=f"{retained}, {way}\n".encode()))

    def test_lists(self):
        for count in (SHORT, LONG):
            with self.subTest(count=count, ends="both"):
                self.check_list(list_with_both_ends(count), "1 objects, 8 bytes")
            with self.subTest(count=count, owner=True):
                retained = f"{count} objects, {12 * count - 4} bytes"
                self.check_list(list_with_owner(count), retained)


class AllocationsTest(PreloadTest):
    """Running out of memory while a candidate is made or checked ends the run. It does without the
    memory that `collect` reserves for the words of the command line."""

    @classmethod
    def setUpClass(cls):
        super().setUpClass()
        build("sqz_dev_check_dominators")

    def test_candidate(self):
        self.write("in", graph_file(list_with_both_ends(SHORT)))
        args = (CHECK_DOMINATORS, "--candidate", f"{FIRST:x}", "in")
        whole = self.run_here(*args)
        self.assert_ends(whole, Outcome(0, stdout=b"1 objects, 8 bytes, Certified\n"))
        ends = collections.Counter(
            "whole" if outcome == whole else outcome.status
            for outcome in self.failing(self.fail_allocations, *args)
        )
        self.assertGreaterEqual(ends.pop(1), 50)
        self.assertEqual(ends, {"whole": 1})


class RandomImagesTest(unittest.TestCase):
    """The random images have what dominators depend on."""

    def test_have_unreachable_and_weakly_held_objects(self):
        images = [Image.read(file)[0] for file in random_files(COUNT).values()]
        self.assertTrue(any(not all(it.live()) for it in images))
        self.assertTrue(any(it.live() != it.live(clear_weak=True) for it in images))
