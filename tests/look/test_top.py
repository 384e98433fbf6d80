"""Asks `sqzlook top` about worked, random and real images, and compares its rows and its folded
stacks with a second implementation."""

import functools
import random
import re
import unittest

from tests.harness.failed_outputs import FailedOutputs
from tests.harness.json_rows import rows_of
from tests.harness.known_image import NAME, KnownImageTest, answers_about
from tests.harness.look_checks import warning_about
from tests.harness.saved_image import SavedImageTest
from tests.harness.sqzlook import CLEAR, look, look_at_all
from tests.harness.top_checks import USUAL, Asked, Shape, TopTest
from tests.harness.worked_images import (
    IMAGES,
    OUT,
    DeadArrayTest,
    name_of,
    readable_files,
    unreadable_paths,
)
from tests.making.held_image import HELD_BYTES, HELD_OBJECTS, HOLDER, held_image
from tests.making.named_image import NamedImage
from tests.making.random_images import random_files
from tests.making.seed import SEED
from tests.reference.answers import Answers
from tests.reference.image import Image
from tests.reference.tree import Tree, percent

SHAPES = (
    USUAL,
    Shape(0),
    Shape(1, "0"),
    Shape(least="0"),
    Shape(100, "0"),
    Shape(least="12.5"),
    Shape(3, "100"),
    Shape(100, "0.000001"),
)
# The shape that prints all rows of a small image.
WHOLE = Shape(100, "0")
# The shapes of trees from other objects, and how many objects they are asked about.
OBJECT_SHAPES = (USUAL, Shape(1, "0"), Shape(least="12.5"))
SMALL_OBJECTS, REAL_OBJECTS = 4, 20
REAL_SHAPES = (USUAL, Shape(least="5"), Shape(3, "0"), Shape(12, "0.05"))
FORMS = ((), ("--json",), ("--folded",))
# Texts that mean something to the readers of folded stacks.
TEXTS = (b"one;two", b"<b title=\"x\">&amp;'", b"]]>", b"a\nb;c\x00", b"\xff\xfe")
# A line of text: retained bytes, percent, objects, and a label that is two spaces deeper a level.
LINE = re.compile(r" *(\d+) +(\d+\.\d) +(\d+)   ((?:  )*)(\S.*)")
VARIABLE = re.compile(r"class variable (\S+)")


def worked_files():
    """The files of the worked images that can be read, by name. Their compactions, which have the
    same rows at other addresses, are left out."""
    return {name: it for name, it in readable_files().items() if not name.endswith(OUT)}


def what_is_printed(asked):
    """All rows of a tree, and the warning about its image."""
    return asked.tree.rows(**WHOLE.bounds), warning_about(asked.tree.answers, asked.path)


def trees_of(files):
    """The trees of these files by path. The tree with weak references cleared is one of them if it
    has other rows or another warning."""
    trees = []
    for path, file in files.items():
        image = Image.read(file)[0]
        kept, cleared = (
            Asked(Tree(Answers(image, options == CLEAR)), path, options) for options in ((), CLEAR)
        )
        is_same = what_is_printed(kept) == what_is_printed(cleared)
        trees += [kept] if is_same else [kept, cleared]
    return trees


def is_telling(tree, shapes, place):
    """Whether a tree has other rows in the shape at this place than in each shape before it."""
    rows = tree.rows(**shapes[place].bounds)
    return all(tree.rows(**shape.bounds) != rows for shape in shapes[:place])


def sample_of(generator, numbers, count):
    """Some of these, at most a number of them."""
    return generator.sample(numbers, min(count, len(numbers)))


def objects_of(generator, tree):
    """Some live objects of an image that dominate others, and one that does not."""
    inner = [it for it in tree.answers.live if tree.children[it]]
    leaves = [it for it in tree.answers.live if not tree.children[it]]
    return [*sample_of(generator, inner, SMALL_OBJECTS), *sample_of(generator, leaves, 1)]


@functools.cache
def tree_of(answers):
    """The tree of an image, which takes seconds to find if it is large."""
    return Tree(answers)


def named_file():
    """The file of an image with names of all kinds, which also holds `TEXTS`."""
    image = NamedImage()
    texts = [image.add_bytes(name, text) for text in TEXTS for name in ("String", "Symbol")]
    image.fields_of(image.special).append(image.add_array(*texts))
    return image.file()


class TreeTest(unittest.TestCase):
    """The second implementation agrees with a search of all paths, and rows share out the bytes."""

    def check_files(self, files):
        for tree, path, options, _ in trees_of(files):
            with self.subTest(path, options=options):
                for number in tree.answers.live:
                    lost = tree.reach.retained_by([number])
                    found = (tree.retained[number], tree.objects[number])
                    self.assertEqual(found, (tree.reach.bytes_of(lost), len(lost)))
                for shape in SHAPES:
                    rows = tree.rows(**shape.bounds)
                    self.assertEqual(sum(row.apart for row in rows), tree.whole)

    def test_worked_images(self):
        self.check_files(worked_files())

    def test_random_images(self):
        self.check_files(random_files())

    def test_image_with_names(self):
        self.check_files({NAME: named_file()})

    def test_rows_of_variables(self):
        """Class variables are rows below their class, and globals below the first row."""
        tree = Tree(Answers(Image.read(named_file())[0]))
        paths = {tuple(row.path[1:]) for row in tree.rows(2, "0")}
        self.assertIn(("Smalltalk at: #Kept",), paths)
        self.assertIn(("class Point", "class variable Origin"), paths)
        self.assertNotIn(("Smalltalk",), paths)


class SmallImagesTest(TopTest):
    """The trees of worked and random images, and of an image with names of all kinds."""

    def write_all(self, files):
        for name, file in files.items():
            self.write(name, file)
        return trees_of(files)

    def check_telling(self, trees, shapes, folder=None):
        """Asks for each tree in those shapes in which it has rows of its own."""
        for place, shape in enumerate(shapes):
            telling = [it for it in trees if is_telling(it.tree, shapes, place)]
            self.check_trees(telling, [shape], folder)

    def test_worked_images(self):
        self.check_telling(trees_of(worked_files()), SHAPES, folder=IMAGES)

    def test_random_images(self):
        self.check_telling(self.write_all(random_files()), SHAPES)

    def test_image_with_names(self):
        """Each shape is asked for, also if its rows are those of another one."""
        self.check_trees(self.write_all({NAME: named_file()}), SHAPES)

    def check_objects(self, trees, folder=None):
        """Asks for the trees from some live objects of each image."""
        generator = random.Random(SEED)
        asked = [it.below(number) for it in trees for number in objects_of(generator, it.tree)]
        self.check_telling(asked, OBJECT_SHAPES, folder)

    def test_objects_of_worked_images(self):
        self.check_objects(trees_of(worked_files()), folder=IMAGES)

    def test_objects_of_random_images(self):
        self.check_objects(self.write_all(random_files()))

    def test_objects_of_the_image_with_names(self):
        self.check_objects(self.write_all({NAME: named_file()}))

    def test_other_objects(self):
        """An object that is not live, and words for nothing, have the answer of `why`."""
        lines = [("accepted/dead_cycle.image", "0000100c"), ("accepted/dead_cycle.image", "Nobody")]
        lines += [("--json", *line) for line in lines]
        found = look_at_all([("top", *line) for line in lines], IMAGES)
        expected = look_at_all([("why", *line) for line in lines], IMAGES)
        for line, outcome, other in zip(lines, found, expected):
            with self.subTest(line):
                self.assert_ends(outcome, other)

    def test_unreadable_images(self):
        """An image that cannot be read is rejected as by other commands."""
        paths = [name_of(path) for path in unreadable_paths()]
        found = look_at_all([("top", path) for path in paths], IMAGES)
        expected = look_at_all([("census", path) for path in paths], IMAGES)
        for path, outcome, other in zip(paths, found, expected):
            with self.subTest(path):
                self.assert_ends(outcome, other)


class RealTreeTest(TopTest, SavedImageTest):
    """The trees of an image that Squeak saved."""

    def check_image(self, answers, options):
        self.write(NAME, self.image.file())
        self.check_trees([Asked(tree_of(answers), NAME, options)], REAL_SHAPES)

    def test_kept(self):
        self.check_image(answers_about(self.image), ())

    def test_objects(self):
        """The trees from some objects, half of which retain much."""
        self.write(NAME, self.image.file())
        answers = answers_about(self.image)
        tree = tree_of(answers)
        most = sorted(tree.retained, key=lambda it: -tree.retained[it])[: 10 * REAL_OBJECTS]
        chosen = [*self.sample(most, REAL_OBJECTS), *self.sample(answers.live, REAL_OBJECTS)]
        asked = Asked(tree, NAME, ())
        self.check_trees([asked.below(number) for number in chosen], (USUAL, Shape(2, "0")))

    def test_cleared(self):
        self.check_image(Answers(self.image, clear_weak=True), CLEAR)


class TextTest(KnownImageTest):
    """The text about the known image."""

    def test_first_class_variables(self):
        text = self.printed("top", "--min", "5").decode()
        self.assertEqual(VARIABLE.findall(text)[:2], ["AllFonts", "ScratchSkin"])
        for line in (
            r"1535516 +27\.0 +519 +.*StrikeFont\n +1527464 +26\.9 +393 +class variable AllFonts\n",
            r"654344 +11\.5 +14984 +.*ScratchFrameMorph\n"
            r" +574852 +10\.1 +13469 +class variable ScratchSkin\n",
        ):
            self.assertRegex(text, line)

    def test_lines(self):
        tree = tree_of(self.answers)
        for shape in (USUAL, Shape(least="5"), Shape(12, "0.2")):
            with self.subTest(shape=shape):
                first, *lines = self.printed("top", *shape.words).decode().splitlines()
                self.assertEqual(first.split(), ["retained", "%", "objects"])
                rows = tree.rows(**shape.bounds)
                found = [LINE.fullmatch(line).groups() for line in lines]
                self.assertEqual(found, [self.columns(tree, row) for row in rows])

    def columns(self, tree, row):
        share = percent(row.retained, tree.whole)
        return str(row.retained), share, str(row.objects), "  " * row.depth, tree.text_label(row)


class HeldTest(TopTest, KnownImageTest):
    """The known image, in which a class variable was made to hold 4 MB."""

    def setUp(self):
        super().setUp()
        self.held = held_image(self.names)
        self.write("held.image", self.held.image.file())

    def asked(self, *words):
        return self.printed_by(look(*words, folder=self.folder))

    def test_is_first(self):
        text = self.asked("top", "held.image").decode()
        self.assertEqual(VARIABLE.findall(text)[:2], ["PasteBuffer", "AllFonts"])
        rows = rows_of(self.asked("top", "--json", "held.image"))
        (row,) = (row for row in rows if row["address"] == f"{self.held.holder:08x}")
        self.assertEqual(row["path"][1:], ["class HandMorph", "class variable PasteBuffer"])
        self.assertGreater(row["retained"], HELD_BYTES)
        # its association is the same row
        self.assertGreater(row["objects"], HELD_OBJECTS)
        self.assertEqual(rows[1]["address"], row["parent"])

    def test_rows(self):
        tree = Tree(Answers(self.held.image))
        self.check_trees([Asked(tree, "held.image", ())], [USUAL, Shape(least="5")])

    def test_path_to_an_object(self):
        address = f"{self.held.last_form:08x}"
        self.assertIn(b"class variable PasteBuffer", self.asked("why", "held.image", address))
        (row,) = rows_of(self.asked("why", "--json", "held.image", address))
        self.assertIn(HOLDER, [step["label"] for step in row["path"]])


class CommandLineTest(FailedOutputs, DeadArrayTest):
    """Wrong arguments end with exit 2, and failed outputs as those of other commands."""

    command_lines = [("top", *form, "in") for form in FORMS]

    def top(self, *words):
        return look("top", *words, folder=self.folder)

    def test_wrong_values(self):
        depths = ("", "x", "-1", "101", "1.5", "4294967296", "99999999999999999999")
        shares = ("", "x", "-1", "101", "100.000001", "1%", ".", "5.", ".5", "1e1", "nan", "1,5")
        for option, values in (("--depth", depths), ("--min", shares)):
            for value in values:
                with self.subTest(option, value=value):
                    self.assert_explained(self.top(f"{option}={value}", "in"))
            self.assert_explained(self.top("in", option))

    def test_one_form(self):
        self.assert_explained(self.top("--folded", "--json", "in"))

    def test_help(self):
        outcome = self.top("--help")
        self.assert_quiet(outcome)
        text = outcome.stdout.decode()
        self.assertRegex(text, r"(?m)^ *(\$ )?sqzlook top .*\.image")
        for option in ("--depth <N>", "--min <PERCENT>", "--folded", "--json"):
            with self.subTest(option):
                self.assertIn(option, text)
