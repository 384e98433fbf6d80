"""Runs `sqzlook check --strict`, and compares its warnings with those of the second
implementation."""

import random

from tests.harness.json_rows import rows_of
from tests.harness.look_checks import LookTest
from tests.harness.saved_image import SavedImageTest
from tests.harness.sqzlook import CLEAR, look
from tests.harness.worked_images import readable_files
from tests.making.changed_images import named_image
from tests.making.random_images import random_files
from tests.making.seed import SEED
from tests.reference.damage import gaps_of
from tests.reference.faults import Defects
from tests.reference.fields import ClassField, SpecialField
from tests.reference.image import Image
from tests.reference.names import Names
from tests.reference.strict import Strict

KINDS = {
    "no class": "no_class",
    "shape": "shape",
    "no method dictionary": "no_method_dictionary",
    "method dictionary": "method_dictionary",
    "no key": "no_key",
}
# Changes of the words of a small image.
CHANGES = 60


def expected_rows(image, clear_weak):
    """The kind and the address of each warning about an image, and the gaps of its best reading.
    One about an object without a class has what is near its class word."""
    strict = Strict(image, clear_weak)
    defects = Defects(Names(image, set(strict.live), clear_weak))
    warnings = []
    for it in strict.warnings():
        word = image.class_word(it.object) if it.kind == "no class" else None
        near = None if word is None else defects.neighbour(word, is_class_word=True)
        warnings.append((KINDS[it.kind], f"{image.address(image.objects[it.object]):08x}", near))
    return warnings + [("gap", gap.first, None) for gap in gaps_of(image.base, image.words)]


class StrictTest(LookTest):
    """Small images, and changes of one."""

    def assert_warnings(self, file, options=()):
        """Checks the warnings about an image that can be read, and the exit."""
        self.write("in.image", file)
        image, _ = Image.read(file)
        outcome = look("check", "--strict", "--json", *options, "in.image", folder=self.folder)
        (row,) = rows_of(outcome.stdout)
        found = [
            (it["kind"], it.get("address", it.get("word")), it.get("near"))
            for it in row["warnings"]
        ]
        expected = expected_rows(image, options == CLEAR)
        self.assertEqual(found, expected)
        self.assertEqual(outcome.status, 0 if row["sound"] and not expected else 1)
        text = look("check", "--strict", *options, "in.image", folder=self.folder)
        self.assertEqual(text.status, outcome.status)
        self.assertEqual(text.stdout.count(b": warning: "), len(expected))

    def test_small_images(self):
        for name, file in (readable_files() | random_files()).items():
            for options in ((), CLEAR):
                with self.subTest(name, options=options):
                    self.assert_warnings(file, options)

    def test_changed_words(self):
        image, generator = named_image(), random.Random(SEED)
        for number in range(CHANGES):
            it = generator.choice(image.objects)
            place = generator.randrange(it.base, it.end)
            words = image.words[:]
            words[place] ^= 1 << generator.randrange(2, 17)
            changed = Image(image.header, words, image.order)
            with self.subTest(number=number):
                self.write("in.image", changed.file())
                if look("check", "in.image", folder=self.folder).status == 0:
                    self.assert_warnings(changed.file())


class SavedStrictTest(SavedImageTest):
    """The image that Squeak saved has no warning."""

    def test_no_false_alarm(self):
        self.write("in.image", self.image.file())
        outcome = look("check", "--strict", "in.image", folder=self.folder)
        self.assert_quiet(outcome)
        self.assertEqual(len(outcome.stdout.splitlines()), 1)

    def test_short_object(self):
        # a class whose instances have one field more than it says
        words = self.image.words[:]
        number = next(
            it.class_of(one)
            for it in [self.image]
            for one in range(len(it.objects))
            if it.class_of(one) is not None
        )
        it = self.image.objects[number]
        words[it.base + 1 + ClassField.FORMAT] += 4
        changed = Image(self.image.header, words, self.image.order)
        self.write("in.image", changed.file())
        outcome = look("check", "--strict", "--json", "in.image", folder=self.folder)
        (row,) = rows_of(outcome.stdout)
        self.assertEqual((outcome.status, row["sound"]), (1, True))
        kinds = {it["kind"] for it in row["warnings"]}
        self.assertEqual(kinds, {"shape"})

    def warned(self, words):
        """The warnings about the image with other words."""
        self.write("in.image", Image(self.image.header, words, self.image.order).file())
        outcome = look("check", "--strict", "--json", "in.image", folder=self.folder)
        (row,) = rows_of(outcome.stdout)
        self.assertEqual((outcome.status, row["sound"]), (1, True))
        return row["warnings"]

    def with_class_word(self, address):
        """An object that is no class and has a class word, and the words in which that leads
        elsewhere."""
        image, words = self.image, self.image.words[:]
        number = next(
            number
            for number, it in enumerate(image.objects)
            if it.base > it.first and not image.can_be_class(number)
        )
        place = image.objects[number].base - 1
        words[place] = address | words[place] & 3
        return number, words

    def test_object_without_class(self):
        nil = self.image.field(self.image.special, SpecialField.NIL)
        address = self.image.address(self.image.objects[nil])
        number, words = self.with_class_word(address)
        (warning,) = self.warned(words)
        self.assertEqual(warning["kind"], "no_class")
        self.assertEqual(warning["address"], f"{self.image.address(self.image.objects[number]):08x}")
        self.assertEqual(warning["class"], f"{address:08x}")

    def test_class_without_method_dictionary(self):
        words, nil = self.image.words[:], self.image.field(self.image.special, SpecialField.NIL)
        number = next(
            self.image.class_of(one)
            for one in range(len(self.image.objects))
            if self.image.class_of(one) is not None
        )
        it = self.image.objects[number]
        words[it.base + 1 + ClassField.METHODS] = self.image.address(self.image.objects[nil])
        kinds = {(it["kind"], it["address"]) for it in self.warned(words)}
        expected = ("no_method_dictionary", f"{self.image.address(it):08x}")
        self.assertIn(expected, kinds)
