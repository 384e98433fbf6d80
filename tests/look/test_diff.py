"""Asks `sqzlook diff` about pairs of worked, random, made and real images, and compares its rows
and its text with a second implementation."""

import functools
import random
import re
import unittest

from tests.harness.diff_checks import FORMS, DiffTest, Pair, pairs_of, side_of
from tests.harness.failed_outputs import FailedOutputs
from tests.harness.json_rows import rows_of
from tests.harness.known_image import NAME, KnownImageTest
from tests.harness.outcomes import Outcome
from tests.harness.sqzlook import CLEAR, look, look_at_all
from tests.harness.worked_images import (
    IMAGES,
    DeadArrayTest,
    name_of,
    readable_files,
    unreadable_paths,
)
from tests.making.changed_images import (
    COPIES,
    at_another_base,
    changed_word,
    in_reverse,
    named_image,
    with_changed_word,
    with_flipped_bit,
    with_other_hashes,
    with_random_words,
)
from tests.making.held_image import (
    CLASSES,
    HELD_BYTES,
    HOLDER,
    held_by_class,
    held_image,
    held_twice,
)
from tests.making.method_images import (
    CODE,
    EQUAL_LITERALS,
    METHOD_NAME,
    OTHER_LITERALS,
    TRAILERS,
    MethodImage,
    method_file,
)
from tests.making.named_image import NIL
from tests.making.random_images import random_files
from tests.making.seed import SEED
from tests.reference.changes import Changes
from tests.reference.differences import without_trailer
from tests.reference.fields import ClassField, SpecialField
from tests.reference.file_format import PREFIX
from tests.reference.image import Image
from tests.reference.objects import ZERO, traced_end
from tests.reference.sides import Side

OLD, NEW = "old.image", "new.image"
# Methods of the known image: a bytecode of one is changed, and the selector of the other.
CHANGED = "Point>>+"
OLD_METHOD, NEW_METHOD = "ChangeSet>>superclasses", "ChangeSet>>ruperclasses"
# The depth and the number of elements of arrays, each element of which is the array one level
# below: a comparison of all elements in turn would take minutes.
DEEP, WIDTHS = 4, (1000, 1001)
# The copies in which one word was changed, and the random images that are compacted.
CHANGED_COPIES, COMPACTED = 300, 300
# How many copies of the known image are compared at once.
AT_ONCE = 10


class TrailerTest(unittest.TestCase):
    """The second implementation cuts the trailers that Squeak writes."""

    def test_trailers(self):
        for trailer in TRAILERS:
            with self.subTest(trailer):
                self.assertEqual(without_trailer(CODE + trailer), CODE)

    def test_others(self):
        for data, expected in {
            b"": b"",
            b"\xfc": b"",
            b"\x01\xff": b"",
            b"\x09": b"",
            b"\x00": b"",
            b"\x7c\x01": b"",
            b"\x10\x7c\x00\x01": b"\x10\x7c",
            b"\x7c\x00\x00\x00\x00\x00": b"\x7c\x00\x00\x00\x00",
            b"\xfb": b"",
        }.items():
            with self.subTest(data):
                self.assertEqual(without_trailer(data), expected)


class SmallImagesTest(DiffTest):
    """Pairs of worked and random images: each with itself, and with the next."""

    def check_files(self, files, folder=None):
        paths = list(files)
        chosen = [*zip(paths, paths), *zip(paths, paths[1:])]
        self.check_pairs(pairs_of(files, chosen), folder)

    def test_worked_images(self):
        self.check_files(readable_files(), IMAGES)

    def test_random_images(self):
        files = random_files()
        for name, file in files.items():
            self.write(name, file)
        self.check_files(files)

    def test_unreadable_images(self):
        """An image that cannot be read is rejected as by other commands, old or new."""
        paths = [name_of(path) for path in unreadable_paths()]
        expected = look_at_all([("census", path) for path in paths], IMAGES)
        other = "accepted/dead_cycle.image"
        for at, order in (("old", slice(None)), ("new", slice(None, None, -1))):
            found = look_at_all([("diff", *(path, other)[order]) for path in paths], IMAGES)
            for path, outcome, wanted in zip(paths, found, expected):
                with self.subTest(at, path=path):
                    self.assert_ends(outcome, wanted)


class MadeImagesTest(DiffTest):
    """Images with names of all kinds, which differ in what is compared or in what is not."""

    def changes(self, old, new):
        """Asks about two files, checks each form, and returns the rows but the first."""
        self.write(OLD, old)
        self.write(NEW, new)
        sides = side_of(old), side_of(new)
        self.check_pairs([Pair(*sides, (OLD, NEW))])
        return Changes(*sides).rows()[1:]

    def names(self, kind, old, new):
        """The names of the rows of a kind, after both files were asked about."""
        return [row["name"] for row in self.changes(old, new) if row["kind"] == kind]

    def assert_method(self, is_changed, old, new):
        names = self.names("method", old, new)
        self.assertEqual(names, [METHOD_NAME] if is_changed else [])

    def test_where_objects_are(self):
        """Addresses, their order and byte order make no difference."""
        image = named_image()
        for name, other in {
            "reverse": in_reverse(image),
            "base": at_another_base(image),
            "order": image.in_other_order(),
            "reverse in the other order": in_reverse(image).in_other_order(),
            "offset": Image(image.header, image.words, image.order, PREFIX),
            "without garbage": image.compacted(),
        }.items():
            with self.subTest(name):
                self.assertEqual(self.changes(image.file(), other.file()), [])

    def test_hashes(self):
        """Objects with other hashes differ: dictionaries find their keys by them. No row says so
        but that of the first difference."""
        image = named_image()
        (row,) = self.changes(image.file(), with_other_hashes(image).file())
        self.assertEqual((row["kind"], row["slots"][-1]), ("object", "hash"))
        self.assertNotEqual(row["old_value"], row["new_value"])

    def test_changed_words(self):
        """A change of any word of a live object makes a difference."""
        image, generator, files = named_image(), random.Random(SEED), {}
        for number in range(CHANGED_COPIES):
            files[f"{number}.image"] = with_changed_word(image, generator).file()
        files[OLD] = image.file()
        for name, file in files.items():
            self.write(name, file)
        chosen = ((OLD, name) for name in files if name != OLD)
        # a weak reference that is cleared can be changed without a difference
        pairs = [pair for pair in pairs_of(files, chosen) if pair.options != CLEAR]
        for pair in pairs:
            self.assertEqual(Changes(pair.old, pair.new).status, 1)
        self.check_pairs(pairs)

    def test_compactions(self):
        """Random images and their compactions are alike."""
        files, pairs = {}, []
        for name, file in random_files(COMPACTED).items():
            image = Image.read(file)[0]
            for options in ((), CLEAR):
                compacted = f"{options}{name}".replace("/", "")
                files[name], files[compacted] = file, image.compacted(options == CLEAR).file()
                pairs.append((*options, name, compacted))
        for name, file in files.items():
            self.write(name, file)
        outcomes = look_at_all([("diff", *pair) for pair in pairs], self.folder)
        for pair, outcome in zip(pairs, outcomes):
            with self.subTest(pair):
                last = outcome.stdout.decode().splitlines()[-1]
                self.assertEqual((outcome.status, last), (0, "the images are alike"))

    def test_equal_literals(self):
        for name, (old, new) in EQUAL_LITERALS.items():
            with self.subTest(name):
                self.assert_method(False, method_file(old), method_file(new))

    def test_other_literals(self):
        for name, (old, new) in OTHER_LITERALS.items():
            with self.subTest(name):
                self.assert_method(True, method_file(old), method_file(new))

    def test_number_of_literals(self):
        self.assert_method(True, method_file(), method_file(lambda _: ZERO))

    def test_header(self):
        self.assert_method(True, method_file(), method_file(header=1 << 18))

    def test_trailers(self):
        for trailer in TRAILERS:
            with self.subTest(trailer):
                files = (method_file(code=CODE + it) for it in (TRAILERS[0], trailer))
                self.assert_method(False, *files)

    def test_bytecodes(self):
        for trailer in TRAILERS:
            with self.subTest(trailer):
                other = b"\x11" + CODE[1:]
                self.assert_method(True, *(method_file(code=it + trailer) for it in (CODE, other)))

    def test_zeros_before_a_trailer(self):
        self.assert_method(True, *(method_file(code=CODE + bytes(it)) for it in (5, 6)))

    def test_classes_with_one_name(self):
        """They are added up. A method whose name another one has is found through its class."""
        images = [MethodImage() for _ in range(3)]
        for image in images[1:]:
            image.rename("Pixel", "Point")
            image.rename("Object", "Point")
        images[2].set_method(code=b"\x11" + CODE[1:] + TRAILERS[0])
        files = [image.file() for image in images]
        self.assertEqual(self.changes(files[1], files[1]), [])
        self.assertIn("Pixel>>+", self.names("method", *files[:2]))
        self.assertEqual(self.names("method", files[1], files[2]), ["Point>>yourself"])

    def line(self, old, new, start):
        """The only line of the text that begins so, after both files were asked about."""
        self.changes(old, new)
        text = look("diff", OLD, NEW, folder=self.folder).stdout.decode()
        (line,) = (it for it in text.splitlines() if it.startswith(start))
        return line

    def test_behind_the_40th(self):
        """Long strings are compared whole, and cut where they differ."""
        long = b"x" * 47
        files = [self.with_global(long + end) for end in (b"a", b"b")]
        name = "  Smalltalk at: #Some: "
        self.assertEqual(self.line(*files, name), f"{name}..a' -> ..b'")
        row = next(it for it in self.changes(*files) if it["kind"] == "value")
        self.assertEqual(row["old"], f"'{long.decode()}a'")

    def test_literal_that_moved(self):
        """A literal is another global variable, the first 40 characters of which are the same."""
        images = [self.long_variables(), self.long_variables()]
        for image, at in zip(images, (0, 1)):
            image.set_method([image.long[at]])
        line = self.line(*(it.file() for it in images), "  changed  Object>>yourself literal 1: ")
        one, other = (f"Smalltalk at: #{'y' * 60}{end}" for end in "ab")
        self.assertTrue(line.endswith(": ..a -> ..b"), line)
        rows = self.changes(*(it.file() for it in images))
        row = next(it for it in rows if it["kind"] == "method")
        self.assertEqual((row["old_value"], row["new_value"]), (one, other))

    def long_variables(self):
        """An image with two global variables with long names."""
        image = MethodImage()
        image.long = [image.association(0), image.association(1)]
        pairs = {f"{'y' * 60}{end}": it for end, it in zip("ab", (image.nil, image.false))}
        smalltalk = image.add_smalltalk({"Point": "Point", **pairs})
        image.fields_of(image.special)[SpecialField.SMALLTALK] = smalltalk
        found = [number for number, it in enumerate(image.items) if it.a_class == "Association"]
        image.long = [type(image.long[0])(number) for number in found[-2:]]
        return image

    def test_definition(self):
        """Another superclass, and an instance variable with another name."""
        for field, path, old, new in (
            (ClassField.SUPERCLASS, "superclass", "Object", "Point"),
        ):
            images = [MethodImage() for _ in range(2)]
            for image, value in zip(images, (old, new)):
                image.fields_of(image.classes["Pixel"])[field] = value
            start = "  changed  Pixel "
            line = self.line(*(it.file() for it in images), start)
            self.assertRegex(line, rf"\A{start}\S+ ?\S*: class {old} -> class {new}")
            rows = self.changes(*(it.file() for it in images))
            (row,) = (it for it in rows if it["kind"] == "definition" and it["name"] == "Pixel")
            self.assertEqual(row["part"], path)

    def test_recompiled_method(self):
        """A method that was compiled again without a change has another hash and another source
        pointer, and so have its literals: no row says so."""
        images = [MethodImage() for _ in range(2)]
        for image, trailer in zip(images, TRAILERS):
            image.set_method([image.add_string(b"a literal")], code=CODE + trailer)
        (row,) = self.changes(*(it.file() for it in images))
        self.assertEqual((row["kind"], row["name"]), ("object", METHOD_NAME))


    def test_random_words(self):
        """Copies in which random words make names wrong."""
        generator, files = random.Random(SEED), {}
        for number in range(COPIES):
            files[f"{number}.image"] = with_random_words(generator).file()
        for name, file in files.items():
            self.write(name, file)
        paths = list(files)
        self.check_pairs(pairs_of(files, zip(paths, paths[1:])))

    def test_wide_arrays(self):
        """Arrays that are reached in many ways are compared once."""
        files = (method_file(lambda it, width=width: it.add_wide(DEEP, width)) for width in WIDTHS)
        for name, file in zip((OLD, NEW), files):
            self.write(name, file)
        for path, status in ((OLD, 0), (NEW, 1)):
            outcome = look("diff", "--json", OLD, path, folder=self.folder)
            names = [row["name"] for row in rows_of(outcome.stdout) if row["kind"] == "method"]
            self.assertEqual((outcome.status, names), (status, [METHOD_NAME] * status))

    def test_values_of_variables(self):
        """The text says which variables came and went, and whose value was or is nil."""
        text = b"a string of a length that changes what is retained"
        for old, new, note in (
            (NIL, text, " (was nil)"),
            (text, NIL, " (now nil)"),
            (text, text + b"more", ""),
            (ZERO, text, ""),
            (None, text, " (new)"),
            (NIL, None, " (gone)"),
        ):
            with self.subTest(old=old, new=new):
                self.changes(self.with_global(old), self.with_global(new))
                outcome = look("diff", OLD, NEW, folder=self.folder)
                share = r"(\(\w+ new\) +)?"
                line = rf"(?m)^ +[-+]\d+ bytes +{share}Smalltalk at: #Some{re.escape(note)}$"
                self.assertRegex(outcome.stdout.decode(), line)

    def test_other_value(self):
        """A variable that holds something else as large has a row of its own."""
        self.changes(self.with_global(NIL), self.with_global(ZERO))
        text = look("diff", OLD, NEW, folder=self.folder).stdout.decode()
        self.assertIn("\nvalues    1 changed\n  Smalltalk at: #Some: nil -> 0\n", text)

    def with_global(self, value):
        """The file of an image with a global variable of this value, if it has one."""
        image = MethodImage()
        if isinstance(value, bytes):
            value = image.add_string(value)
        others = {} if value is None else {"Some": value}
        pairs = {"Point": "Point", "Other": image.association(0), **others}
        image.fields_of(image.special)[SpecialField.SMALLTALK] = image.add_smalltalk(pairs)
        return image.file()


class KnownDiffTest(DiffTest, KnownImageTest):
    """The known image, and copies of it in which something was changed."""

    def setUp(self):
        super().setUp()
        self.side = side_of_answers(self.answers)

    def check_copy(self, image):
        """Writes a changed copy, compares it with the original, and returns the rows."""
        self.write(NEW, image.file())
        self.check_pairs([Pair(self.side, side_of(image.file()), (NAME, NEW))])
        return rows_of(self.printed_by(look("diff", "--json", NAME, NEW, folder=self.folder), 1))

    def test_with_itself(self):
        self.check_pairs([Pair(self.side, self.side, (NAME, NAME))])
        outcome = look("diff", NAME, NAME, folder=self.folder)
        self.assert_quiet(outcome)

    def test_with_another_image(self):
        """Thousands of rows. The text shows 20 of each kind."""
        self.check_copy(named_image())

    def test_variable_that_holds_4_mb(self):
        rows = self.check_copy(held_image(self.names).image)
        (row,) = (row for row in rows if row["kind"] == "retained")
        self.assertEqual(row["name"], HOLDER)
        self.assertGreater(row["new"], HELD_BYTES)
        self.assertEqual({row["name"] for row in rows if row["kind"] == "class"}, set(CLASSES))
        self.assertEqual([row for row in rows if row["kind"] == "method"], [])
        text = look("diff", NAME, NEW, folder=self.folder).stdout.decode()
        self.assertRegex(text, rf" bytes \({row['new_bytes']} new\) +{HOLDER} \(was nil\)\n")
        self.assertGreater(row["new_bytes"], HELD_BYTES)

    def test_4_mb_that_no_variable_retains(self):
        """They hang in two class variables, or in an instance variable of a class."""
        for make in (held_twice, held_by_class):
            with self.subTest(make.__name__):
                held = make(self.names)
                rows = self.check_copy(held.image)
                holders = [row for row in rows if row["kind"] == "holder"]
                (place,) = (
                    place
                    for place, row in enumerate(holders)
                    if row["address"] == f"{held.array:08x}"
                )
                self.assertLess(place, 10)
                self.assertIsNone(holders[place]["old"])
                self.assertGreater(holders[place]["new"], HELD_BYTES)

    def test_changed_words(self):
        """Each change of a word of a live object has a row of what owns the object."""
        changes, generator, found = Changes(self.side, self.side), random.Random(SEED), []
        for _ in range(CHANGED_COPIES // AT_ONCE):
            names, numbers = [f"{at}.image" for at in range(AT_ONCE)], []
            for name in names:
                image, number = changed_word(self.image, generator)
                self.write(name, image.file())
                numbers.append(number)
            lines = [("diff", "--json", NAME, name) for name in names]
            for number, outcome in zip(numbers, look_at_all(lines, self.folder)):
                self.assertEqual(outcome.status, 1)
                total, *rows = rows_of(outcome.stdout)
                self.assertTrue(rows or total["old"] != total["new"])
                # symbols are names, and what only holds methods or variables has no rows
                if not self.side.is_symbol(number) and number not in self.side.quiet:
                    owner = changes.owner_text(changes.differences.owner_of(number))
                    found.append(owner in {row.get("name") for row in rows if "differences" in row})
        # the other words are where something else has its name
        self.assertGreater(found.count(True), len(found) * 19 // 20)

    def test_flipped_bytecode(self):
        number = self.names.method_named(CHANGED)
        place = traced_end(self.image.words, self.image.objects[number])
        total, row = self.check_copy(with_flipped_bit(self.image, place))
        self.assertEqual((row["kind"], row["name"]), ("method", CHANGED))
        self.assertEqual((total["old"], row["old"]), (total["new"], row["new"]))

    def test_flipped_selector(self):
        numbers, selector = range(len(self.image.objects)), OLD_METHOD.partition(">>")[2].encode()
        (symbol,) = (
            number
            for number in numbers
            if self.image.text(number) == selector and self.names.class_name(number) == "Symbol"
        )
        place = self.image.objects[symbol].base + 1
        rows = self.check_copy(with_flipped_bit(self.image, place))
        found = {row["name"]: row for row in rows if row["kind"] == "method"}
        self.assertIsNone(found[OLD_METHOD]["new"])
        self.assertIsNone(found[NEW_METHOD]["old"])
        self.assertEqual(found[OLD_METHOD]["old"], found[NEW_METHOD]["new"])


@functools.cache
def side_of_answers(answers):
    """What an image has under each name, which takes seconds to find if it is large."""
    return Side.of(answers)


class CommandLineTest(FailedOutputs, DeadArrayTest):
    """Options, exits and outputs of `diff`."""

    command_lines = [("diff", *form, "in", "in") for form in FORMS]

    def diff(self, *words):
        return look("diff", *words, folder=self.folder)

    def test_wrong_words(self):
        for words in (
            (),
            ("in",),
            ("in", "in", "in"),
            ("--depth", "2", "in", "in"),
            ("--all=1", "in", "in"),
        ):
            with self.subTest(words=words):
                self.assert_explained(self.diff(*words))

    def test_missing_file(self):
        """The message has the path of the file that cannot be read, the old one first."""
        message = "sqzlook: {}: fault 16: cannot read the image: no such file\n"
        for words, path in (
            (("none", "in"), "none"),
            (("in", "none"), "none"),
            (("none", "other"), "none"),
        ):
            with self.subTest(words=words):
                outcome = self.diff(*words)
                self.assert_ends(outcome, Outcome(3, stderr=message.format(path).encode()))
