"""Asks `sqzlook` about an image that Squeak saved, and compares its rows with a second
implementation.

The image is asked about as it is, in the other byte order, and with dead objects and free chunks
between its objects, some of them held weakly. `SQZ_SEED` chooses the objects that are asked about.
"""

import typing

from tests.harness.look_checks import Asking, LookTest
from tests.harness.saved_image import SavedImageTest
from tests.harness.sqzlook import CLEAR
from tests.making import garbage
from tests.reference.reachability import Reachability

LITTER = 5000
# What is compared with a search of the whole image for each object.
SEARCHED = 60
NAME = "it.image"


class Counts(typing.NamedTuple):
    """How many objects are asked about by each command, and how many classes by `list`.

    All classes if it is None."""

    show: int
    why: int
    refs: int
    classes: int | None


ALL_CLASSES = Counts(show=200, why=60, refs=60, classes=None)
SOME_CLASSES = Counts(show=50, why=20, refs=40, classes=20)


class RowsTest(SavedImageTest, LookTest):
    """The rows of each command."""

    def test_as_it_is(self):
        self.check_image(self.image, ALL_CLASSES)

    def test_in_the_other_order(self):
        self.check_image(self.image.in_other_order(), SOME_CLASSES)

    def test_with_garbage(self):
        kinds = (*garbage.SOUND, garbage.dead_anything)
        image = garbage.littered(self.image, self.generator, kinds, LITTER)
        self.check_image(image, SOME_CLASSES)

    def test_with_garbage_held_weakly_and_kept(self):
        self.check_image(self.held_weakly(), SOME_CLASSES)

    def test_with_garbage_held_weakly_and_cleared(self):
        self.check_image(self.held_weakly(), SOME_CLASSES, CLEAR)

    def held_weakly(self):
        """The image with dead objects, some of which a weak array holds."""
        sound = garbage.littered(self.image, self.generator, garbage.SOUND, LITTER, is_wild=False)
        return garbage.held_weakly(sound)

    def check_image(self, image, counts, options=()):
        """Asks about an image, and about some of its objects and classes."""
        self.write(NAME, image.file())
        asking = Asking(image, NAME, options)
        every, groups = range(len(image.objects)), list(asking.answers.live_groups)
        if counts.classes is not None:
            groups = self.sample(groups, counts.classes)
        numbers = {
            command: self.sample(every, getattr(counts, command))
            for command in ("show", "why", "refs")
        }
        questions = asking.of_image() + asking.of_dump()
        questions += asking.of_objects(**numbers) + asking.of_groups(groups)
        self.check_questions(questions)


class RetainedTest(SavedImageTest):
    """The second implementation finds what objects retain as a search of all paths does."""

    def test_retained_by_an_object(self):
        reach = Reachability(self.image)
        for number in self.sample(sorted(reach.found), SEARCHED):
            self.check_retained(reach, [number])

    def test_retained_by_a_class(self):
        reach, members = Reachability(self.image), {}
        for number in reach.found:
            members.setdefault(self.image.class_of(number), []).append(number)
        for a_class in self.sample(sorted(members, key=str), SEARCHED):
            self.check_retained(reach, members[a_class])

    def check_retained(self, reach, numbers):
        """Compares what objects retain with what is not reached without them."""
        lost = set(reach.found) - reach.reached_without(numbers)
        self.assertTrue(reach.retained_by(numbers) == lost, numbers)
