"""Runs `sqzcompact` over an image that Squeak saved: that of Debian's package `scratch`.

Squeak saved the image compacted, so it must come back byte for byte, in each of its forms: alone
and after 512 bytes, in both byte orders. Then dead objects and free chunks are put between its
objects, and it must come back again. Last, a weak array holds dead objects. The parser of images
counts the class histogram. `SQZ_SEED` chooses what is put in.
"""

import functools
import itertools

from tests.harness.saved_image import SavedImageTest
from tests.making import garbage
from tests.reference.file_format import PREFIX

CENSUS = ("--census",)
CLEAR = ("--clear-weak",)
WORKERS = (1, 2, 4, 64)
REGIONS = (1, 7, 4099, 65536, 1 << 30)
# The kinds of what is put between the objects, some with random words, and how many of them.
LITTERS = {
    "arrays and cycles": ((garbage.dead_array,), 5000),
    "bytes and copies": ((garbage.dead_bytes, garbage.dead_copy), 5000),
    "any formats": ((garbage.dead_anything,), 5000),
    "free chunks": ((garbage.free_chunk,), 5000),
    "a few": ((*garbage.SOUND, garbage.dead_anything), 20),
}
# The objects of the known image, the bytes of its data, and some rows of its class histogram.
OBJECTS, BYTES = 83459, 5682480
CLASSES = {
    "ByteArray": (645, 1925740),
    "CompiledMethod": (16255, 1076868),
    "Array": (10375, 1059896),
    "Symbol": (13368, 282204),
    "String": (11119, 245312),
    "MethodDictionary": (1208, 168508),
    "Float": (2591, 31092),
    "Metaclass": (604, 19328),
    "Point": (1083, 12996),
    "Character": (256, 3072),
    "MethodContext": (49, 4508),
    "Object class": (1, 48),
    "UndefinedObject": (1, 8),
}


def plan_of(workers, region_words):
    """The options of a run with a census."""
    return (*CENSUS, "--workers", str(workers), "--region-words", str(region_words))


def forms_of(image):
    """The files of an image in both byte orders, alone and after 512 bytes, by form."""
    other = image.in_other_order()
    return {
        "as it is": image.file(b""),
        "after 512 bytes": image.file(PREFIX),
        "in the other order": other.file(b""),
        "in the other order after 512 bytes": other.file(PREFIX),
    }


@functools.cache
def answers_about(image):
    """The class histogram of an image without dead objects, and its files by form."""
    return image.census(), forms_of(image)


class RealImageTest(SavedImageTest):
    """A test on the image, with its class histogram and its files by form."""

    @classmethod
    def setUpClass(cls):
        super().setUpClass()
        if cls.path is not None:
            cls.census, cls.answers = answers_about(cls.image)

    def random_plan(self):
        return plan_of(self.generator.choice(WORKERS), self.generator.choice(REGIONS))

    def check_plan(self, file, answer, census, plan):
        """Compacts a file over an old OUT. The census is printed if the plan has that option."""
        self.write("in", file)
        self.put_old()
        self.check_run(answer, *plan, census=census if "--census" in plan else b"")


class KnownImageTest(RealImageTest):
    """What is known of the image of the package."""

    def setUp(self):
        super().setUp()
        self.require_known()

    def test_was_saved_compacted(self):
        self.assertTrue(self.saved.image.file() == self.image.file())
        self.assertEqual(self.saved.rest, b"")

    def test_objects_and_bytes(self):
        image = self.saved.image
        self.assertEqual((len(image.objects), image.header[2]), (OBJECTS, BYTES))

    def test_rows_of_its_class_histogram(self):
        lines = [line.split(maxsplit=3) for line in self.census.decode().splitlines()]
        rows = {line[3]: (int(line[0]), int(line[1])) for line in lines if len(line) == 4}
        for name, sums in CLASSES.items():
            with self.subTest(name):
                self.assertEqual(rows.get(name), sums)

    def test_two_weak_arrays_hold_five_objects(self):
        image = self.saved.image
        weak = [it for it in range(len(image.objects)) if image.first_weak(it) is not None]
        nil = image.field(image.special, 0)
        pointers = [it for it in image.pointers if it.owner in weak and it.target != nil]
        classes = {image.class_of(number) for number in weak}
        held = {it.target for it in pointers} - classes
        self.assertEqual((len(weak), len(held)), (2, 5))

    def test_other_objects_point_to_what_is_held_weakly(self):
        cleared = self.image.compacted(clear_weak=True)
        self.assertTrue(cleared.file() == self.image.file())


class FormsTest(RealImageTest):
    """The image in each form, and with other bytes after its data."""

    def test_with_other_bytes_after_its_data(self):
        file = self.saved.image.file()
        answer = self.image.file()
        for name, after in {
            "as it is": self.saved.rest,
            "cut after its data": b"",
            "with a byte more": b"\x01",
            "twice": file,
        }.items():
            for plan in (CENSUS, ()):
                with self.subTest(name, plan=plan):
                    self.check_plan(file + after, answer, self.census, plan)

    def test_each_form(self):
        for form, file in forms_of(self.saved.image).items():
            for plan in (self.random_plan(), plan_of(1, 65536)):
                with self.subTest(form, plan=plan):
                    self.check_plan(file, self.answers[form], self.census, plan)

    def test_each_compacted_form(self):
        for form, answer in self.answers.items():
            plan = self.random_plan()
            with self.subTest(form, plan=plan):
                self.check_plan(answer, answer, self.census, plan)


class GarbageTest(RealImageTest):
    """The image comes back if dead objects and free chunks are put between its objects."""

    def test_each_kind_in_each_form(self):
        for name, (kinds, count) in LITTERS.items():
            image = garbage.littered(self.image, self.generator, kinds, count)
            for form, file in forms_of(image).items():
                plan = self.random_plan()
                with self.subTest(name, form=form, plan=plan):
                    self.check_plan(file, self.answers[form], self.census, plan)

    def test_all_kinds_by_each_plan(self):
        kinds = (*garbage.SOUND, garbage.dead_anything)
        file = garbage.littered(self.image, self.generator, kinds, 40_000).file()
        plans = (plan_of(*numbers) for numbers in itertools.product(WORKERS, REGIONS))
        for plan in (*plans, ()):
            with self.subTest(plan=plan):
                self.check_plan(file, self.image.file(), self.census, plan)


class WeakTest(RealImageTest):
    """What a weak array holds stays, unless weak references are cleared."""

    def test_cleared(self):
        cleared = self.image.compacted(clear_weak=True)
        answer, census = cleared.file(), cleared.census()
        for plan in ((*CLEAR, *CENSUS), (*CLEAR, *self.random_plan())):
            with self.subTest(plan=plan):
                self.check_plan(self.image.file(), answer, census, plan)
        with self.subTest("again"):
            self.check_plan(answer, answer, census, (*CLEAR, *CENSUS))

    def test_garbage_held_weakly_and_kept(self):
        self.check_held(())

    def test_garbage_held_weakly_and_cleared(self):
        self.check_held(CLEAR)

    def check_held(self, options):
        """Compacts the image with a weak array that holds garbage, in each form and again."""
        numbers = range(len(self.image.objects))
        if all(self.image.first_weak(number) is None for number in numbers):
            self.skipTest("no weak object in the image")
        sound = garbage.littered(self.image, self.generator, garbage.SOUND, 10_000, is_wild=False)
        image = garbage.held_weakly(sound)
        answer = image.compacted(clear_weak=options == CLEAR)
        self.assertGreater(len(answer.objects), len(self.image.objects))
        answers, census = forms_of(answer), answer.census()
        for form, file in forms_of(image).items():
            plan = (*options, *self.random_plan())
            with self.subTest(form, plan=plan):
                self.check_plan(file, answers[form], census, plan)
        with self.subTest("again"):
            self.check_plan(answer.file(), answer.file(), census, (*options, *CENSUS))
