"""Asks `sqzlook census` for the categories of classes, and compares its rows with a second
implementation and with rows that were worked out by hand."""

import collections
import random
import typing

from tests.harness.json_rows import rows_of
from tests.harness.known_image import KnownImageTest
from tests.harness.look_checks import Asking, LookTest
from tests.harness.outcomes import Outcome
from tests.harness.sqzlook import CLEAR, look
from tests.harness.worked_images import DeadArrayTest
from tests.making.builder import Ref
from tests.making.named_image import NIL, NamedImage
from tests.making.organized_image import ORGANIZATION, OrganizedImage, TinyOrganizedImage
from tests.making.seed import SEED
from tests.reference.image import Image
from tests.reference.objects import ZERO

NAME = "it.image"
BY = ("--by", "category")
# The images whose organizers are random.
COPIES = 60
# The rows of the text form, unless all are asked for, and the categories of a larger image.
SHOWN, MANY = 20, 25
TINY = """\
   objects        bytes   classes  category
        22          500         2  no category
         3           44         2  Animals
         1           28         1  Stones
        26          572         5  total
"""
TINY_HUMAN = """\
   objects        bytes   classes  category
        22        500 B         2  no category
         3         44 B         2  Animals
         1         28 B         1  Stones
        26        572 B         5  total
"""
TINY_DEAD = """\
   objects        bytes   classes  category
         1           12         1  Animals
         1           12         1  total
"""
TINY_JSON = """\
{"image":"it.image","category":"no category","classes":2,"objects":22,"bytes":500}
{"image":"it.image","category":"Animals","classes":2,"objects":3,"bytes":44}
{"image":"it.image","category":"Stones","classes":1,"objects":1,"bytes":28}
{"image":"it.image","category":null,"classes":5,"objects":26,"bytes":572}
"""
TINY_CLASSES = """\
{"image":"it.image","class":"Object","address":"00001048","category":null,"objects":20,"bytes":468}
{"image":"it.image","class":"String","address":"0000106c","category":null,"objects":2,"bytes":32}
{"image":"it.image","class":"Cat","address":"00001090","category":"Animals","objects":2,"bytes":32}
{"image":"it.image","class":"Rock","address":"000010d8","category":"Stones","objects":1,"bytes":28}
{"image":"it.image","class":"Dog","address":"000010b4","category":"Animals","objects":1,"bytes":12}
{"image":"it.image","class":null,"address":null,"category":null,"objects":26,"bytes":572}
"""


class Case(typing.NamedTuple):
    """The arrays of an organizer, and the categories of the listed classes that have one."""

    categories: list | tuple | int
    ends: list | tuple | int
    listed: list | tuple | int
    expected: dict


ONE, TWO, THREE = b"Graphics", b"Collections-Text", b"Kernel"
LISTED = ["Point", "Pixel", "String", "Symbol"]
# The words of the SmallIntegers 1 and 2.
WORDS = b"\x03\0\0\0\x05\0\0\0"


def placed(*categories):
    """The categories of the listed classes, without those that have none."""
    pairs = zip(LISTED, categories)
    return {name: it.decode() for name, it in pairs if it is not None}


CASES = {
    "two categories": Case([ONE, TWO], [2, 4], LISTED, placed(ONE, ONE, TWO, TWO)),
    "an empty category": Case([ONE, TWO, THREE], [2, 2, 4], LISTED, placed(ONE, ONE, THREE, THREE)),
    "an end that is no SmallInteger": Case([ONE, TWO, THREE], [1, NIL, 4], LISTED, placed(ONE)),
    "a first end that is none": Case([ONE, TWO], [NIL, 4], LISTED, {}),
    "a negative end": Case([ONE, TWO], [-1, 4], LISTED, placed(TWO, TWO, TWO, TWO)),
    "the least end": Case([ONE, TWO], [-(2**30), 1], LISTED, placed(TWO)),
    "ends that decrease": Case([ONE, TWO, THREE], [3, 1, 4], LISTED, placed(ONE, ONE, ONE, THREE)),
    "an end that is too large": Case([ONE, TWO], [5, 6], LISTED, placed(ONE, ONE, ONE, ONE)),
    "the largest end": Case([ONE, TWO], [1, 2**30 - 1], LISTED, placed(ONE, TWO, TWO, TWO)),
    "classes after the last end": Case([ONE], [1], LISTED, placed(ONE)),
    "no ends": Case([ONE], [], LISTED, {}),
    "ends without a category": Case([ONE], [2, 4], LISTED, placed(ONE, ONE)),
    "a category that is nil": Case([NIL, TWO], [2, 4], LISTED, placed(None, None, TWO, TWO)),
    "a category of another class": Case(
        [("Array", b"Graphics"), TWO], [2, 4], LISTED, placed(None, None, TWO, TWO)
    ),
    "a symbol": Case([("Symbol", ONE), TWO], [2, 4], LISTED, placed(ONE, ONE, TWO, TWO)),
    "an empty text": Case([b"", TWO], [2, 4], LISTED, placed(b"", b"", TWO, TWO)),
    "a name twice": Case(
        [ONE, TWO], [2, 4], ["Point", "Pixel", "Point", "String"], placed(ONE, ONE, TWO)
    ),
    "nil among the names": Case(
        [ONE, TWO], [2, 4], ["Point", NIL, "String", NIL], placed(ONE, None, TWO)
    ),
    "another symbol of the name": Case(
        [ONE, TWO], [1, 2], [("Symbol", b"Point"), "Pixel"], placed(None, TWO)
    ),
    "two categories of one text": Case([ONE, ONE], [2, 4], LISTED, placed(ONE, ONE, ONE, ONE)),
    "bytes that are no text": Case([b"a\nb\\\xff"], [1], LISTED, placed(rb"a\x0ab\\\xff")),
    "a long text": Case([b"x" * 41], [1], LISTED, placed(b"x" * 40 + b"..")),
    "no array of categories": Case(ZERO, [2, 4], LISTED, {}),
    "no array of ends": Case([ONE, TWO], ZERO, LISTED, {}),
    "no array of names": Case([ONE, TWO], [2, 4], ZERO, {}),
    "arrays without fields": Case(NIL, NIL, NIL, {}),
    "ends that are bytes": Case([ONE, TWO], ("String", WORDS), LISTED, placed(ONE, TWO)),
    "names that are bytes": Case([ONE, TWO], [2, 4], ("String", WORDS), {}),
}


def random_case(generator):
    """The arrays of an organizer with random fields."""

    def some(*choices):
        return [generator.choice(choices)() for _ in range(generator.randint(1, 6))]

    def an_object():
        return Ref(generator.randrange(len(NamedImage().items)))

    def a_text():
        return generator.choice((ONE, TWO, THREE))

    classes = [name for name in NamedImage().classes if not name.endswith(" class")]
    arrays = (
        some(a_text, a_text, a_text, an_object),
        some(*[lambda: generator.randint(-2, 8)] * 6, an_object),
        some(*[lambda: generator.choice(classes)] * 6, an_object),
    )
    return [an_object() if generator.random() < 0.05 else it for it in arrays]


class CategoriesTest(LookTest):
    """The categories that organizers of all kinds state."""

    def ask(self, image, options=()):
        """Compares the answers about an image, and returns the categories of classes by name. Those
        of metaclasses have to be the same, and are left out."""
        file = image.file()
        self.write(NAME, file)
        asking = Asking(Image.read(file)[0], NAME, options)
        self.check_questions(asking.of_image() + asking.of_retained())
        rows = rows_of(look("census", "--json", *options, NAME, folder=self.folder).stdout)
        found = {row["class"]: it for row in rows if (it := row["category"]) is not None}
        metaclasses = {name for name in found if name and name.endswith(" class")}
        for name in metaclasses:
            self.assertEqual(found[name], found.get(name.removesuffix(" class"), found[name]))
        return {name: it for name, it in found.items() if name not in metaclasses}

    def test_organizers(self):
        for name, it in CASES.items():
            for options in ((), CLEAR):
                with self.subTest(name, options=options):
                    image = OrganizedImage(it.categories, it.ends, it.listed)
                    self.assertEqual(self.ask(image, options), it.expected)

    def test_random_organizers(self):
        generator = random.Random(SEED)
        for number in range(COPIES):
            with self.subTest(number=number):
                self.ask(OrganizedImage(*random_case(generator)))

    def organized(self):
        """An image in which all listed classes have a category."""
        return OrganizedImage([ONE], [4], LISTED)

    def test_no_organizer(self):
        self.assertEqual(self.ask(NamedImage()), {})
        for value in (NIL, ZERO, "Point"):
            with self.subTest(value=value):
                image = self.organized()
                image.set_global(ORGANIZATION, value)
                self.assertEqual(self.ask(image), {})

    def test_other_variables(self):
        """A global variable of another name, and a class variable."""
        for name in (ORGANIZATION[:-1], f"{ORGANIZATION}s", ORGANIZATION.lower()):
            with self.subTest(name):
                image = self.organized()
                image.set_global(name, image.organizer)
                self.assertEqual(self.ask(image), {})
        image = self.organized()
        image.set_global("Kept", NIL)
        image.add_class("Holder", "Object", pool={ORGANIZATION: image.organizer})
        image.fields_of(image.special).append(image.classes["Holder"])
        self.assertEqual(self.ask(image), {})

    def test_two_variables(self):
        """The one whose association has the lower address counts."""
        image = self.organized()
        image.globals.insert(0, image.add_global(ORGANIZATION, NIL))
        self.assertEqual(self.ask(image), placed(ONE, ONE, ONE, ONE))
        image = self.organized()
        image.set_global(ORGANIZATION, NIL)
        image.globals.insert(0, image.add_global(ORGANIZATION, image.organizer))
        self.assertEqual(self.ask(image), {})

    def test_rows_of_categories(self):
        """Categories of one text have one row, and those of several texts a row each. Each class
        has its metaclass with it."""
        for texts, expected in (
            ([ONE, ONE], {"Graphics": 8}),
            ([ONE, TWO], {"Graphics": 4, "Collections-Text": 4}),
        ):
            self.ask(OrganizedImage(texts, [2, 4], LISTED))
            outcome = look("census", "--json", *BY, NAME, folder=self.folder)
            *rows, total = rows_of(self.printed_by(outcome))
            found = {row["category"]: row["classes"] for row in rows}
            rest = {"no category": total["classes"] - 8}
            self.assertEqual(found, {**expected, **rest})


class TextTest(LookTest):
    """Rows that were worked out by hand."""

    def setUp(self):
        super().setUp()
        self.write(NAME, TinyOrganizedImage().file())

    def assert_printed(self, text, *words):
        outcome = look("census", *words, folder=self.folder)
        self.assert_ends(outcome, Outcome(0, stdout=text.encode()))

    def test_forms(self):
        for options, text in (
            ((), TINY),
            (("--all",), TINY),
            (("--human",), TINY_HUMAN),
            (("--dead",), TINY_DEAD),
            (("--json",), TINY_JSON),
            (("--json", "--human"), TINY_JSON),
        ):
            with self.subTest(options=options):
                self.assert_printed(text, *BY, *options, NAME)

    def test_classes(self):
        for words in ((), ("--by", "class")):
            self.assert_printed(TINY_CLASSES, "--json", *words, NAME)

    def test_several_images(self):
        self.write("other.image", TinyOrganizedImage().file())
        text = f"{NAME}:\n{TINY}other.image:\n{TINY}"
        self.assert_printed(text, *BY, NAME, "other.image")

    def test_many_categories(self):
        """The text has 20 rows. On a tie, categories come in the order of their texts."""
        names = [f"{number:02}" for number in reversed(range(MANY))]
        its = [(f"Group {name}", (f"Kind{name}",)) for name in names]
        image = TinyOrganizedImage(its, [(f"Kind{name}", 0) for name in names])
        self.write(NAME, image.file())
        for options, shown in (((), SHOWN), (("--all",), MANY + 1)):
            with self.subTest(options=options):
                words = ("census", *BY, *options, NAME)
                text = self.printed_by(look(*words, folder=self.folder)).decode()
                _, first, *lines = text.splitlines()
                self.assertTrue(first.endswith("  no category"))
                groups = [line for line in lines if "Group" in line]
                expected = [
                    f"{1:>10} {8:>12} {1:>9}  Group {number:02}" for number in range(shown - 1)
                ]
                self.assertEqual(groups, expected)
                rest = f"... {MANY + 1 - shown} more rows; --all prints all"
                self.assertEqual(lines[len(groups) : -1], [] if options else [rest])
                self.assertRegex(lines[-1], rf"^ +\d+ +\d+ +{MANY + 2}  total$")
        rows = rows_of(self.printed_by(look("census", "--json", *BY, NAME, folder=self.folder)))
        self.assertEqual(len(rows), MANY + 2)


class ArgumentsTest(DeadArrayTest):
    """Wrong words."""

    def test_bad_word(self):
        for word in ("size", "", "Class", "categories"):
            with self.subTest(word):
                line = f"sqzlook: --by takes class or category: {word}\n"
                outcome = look("census", "--by", word, "in", folder=self.folder)
                self.assert_ends(outcome, Outcome(2, stderr=line.encode()))

    def test_conflict(self):
        for word in ("class", "category"):
            for words in (("--retained", "--by", word), ("--by", word, "--retained")):
                with self.subTest(words=words):
                    outcome = look("census", *words, "in", folder=self.folder)
                    self.assert_explained(outcome)

    def test_help(self):
        text = self.printed_by(look("census", "--help")).decode()
        self.assertIn("--by <GROUP>", text)


class KnownCategoriesTest(KnownImageTest):
    """The categories of the known image."""

    def test_text(self):
        first, *lines = self.printed("census", *BY).decode().splitlines()
        self.assertEqual(first, TINY.splitlines()[0])
        self.assertEqual(lines[0], "     11060      2998836        10  Collections-Arrayed")
        self.assertEqual(lines[-1], "     83459      5682480       757  total")
        self.assertEqual(len(lines), SHOWN + 2)

    def test_sums(self):
        """The rows by category are sums of those by class."""
        for options in ((), ("--dead",)):
            with self.subTest(options=options):
                *classes, whole = self.rows("census", *options)
                sums = collections.defaultdict(lambda: [0, 0, 0])
                for row in classes:
                    category = row["category"]
                    it = sums["no category" if category is None else category]
                    for place, size in enumerate((1, row["objects"], row["bytes"])):
                        it[place] += size
                *rows, total = self.rows("census", *BY, *options)
                found = {it["category"]: [it["classes"], it["objects"], it["bytes"]] for it in rows}
                self.assertEqual(found, sums)
                order = [(-it["bytes"], it["category"]) for it in rows]
                self.assertEqual(order, sorted(order))
                expected = {"category": None, "classes": len(classes)}
                self.assertEqual(total, {**expected, **self.sizes(whole)})

    def sizes(self, row):
        return {name: row[name] for name in ("image", "objects", "bytes")}

    def test_category_of_a_class(self):
        """A class has the category that `code` prints, and so has its metaclass."""
        categories = {row["class"]: row["category"] for row in self.rows("census")}
        tree = {row["class"]: row["category"] for row in self.rows("code", "--classes")}
        for name in ("Point", "SoundBuffer", "OrderedCollection"):
            with self.subTest(name):
                row, *_ = self.rows("code", name)
                self.assertIsNotNone(row["category"])
                found = categories[name], categories[f"{name} class"], tree[name]
                self.assertEqual(found, (row["category"],) * 3)
                metaclass, *_ = self.rows("code", f"{name} class")
                self.assertEqual(metaclass["category"], row["category"])
