"""Asks `sqzlook` about a small image with names of all kinds, by name and by address, and about
copies of it in which random words make names wrong."""

import collections
import random
import unittest

from tests.harness.json_rows import rows_of
from tests.harness.look_checks import Asking, LookTest
from tests.harness.sqzlook import CLEAR, look, look_at_all
from tests.harness.worked_images import IMAGES
from tests.making.changed_images import COPIES, named_image, with_random_words
from tests.making.named_image import NamedImage
from tests.making.seed import SEED
from tests.reference.fields import ClassField
from tests.reference.image import Image
from tests.reference.objects import ZERO, Format
from tests.reference.sites import site_text
from tests.reference.tree import Tree

FILE = "it.image"
# The objects that are asked about in a copy with random words.
OBJECTS = 8
# Some labels of the image, written by hand.
LABELS = {
    "special objects array",
    "nil",
    "false",
    "true",
    "Smalltalk",
    "class Point",
    "Point class",
    "Point>>x:y:",
    "Pixel>>+",
    "Object>>from:to:by:with:and:or:not:until:always:..",
    "Smalltalk at: #Point",
    "Smalltalk at: #Kept",
    "Point class variable Origin",
    "''",
    "'it''s'",
    r"'a\\b\x0a\x7f'",
    "'" + "x" * 40 + "'",
    "'" + "y" * 40 + "'..",
    "'" + "''" * 40 + "'..",
    "#",
    "#it's",
    "#" + "y" * 40 + "..",
}
VARIABLES = {
    "Pixel": ["x", "y", "color", "aVariableWithANameOfMoreThanFortyBytesIn.."],
    "Miscounted": None,
    "Point": ["x", "y"],
    "SystemDictionary": ["tally", "array"],
    "Symbol": [],
}


def set_field(image, number, field, word):
    """Sets a field of an object to a word."""
    image.words[image.objects[number].base + 1 + field] = word


class LabelsTest(unittest.TestCase):
    """The second implementation finds the names that were put in."""

    def test_labels(self):
        names = Asking(named_image(), FILE).answers.names
        labels = {names.label(number) for number in range(len(names.image.objects))}
        self.assertEqual(LABELS - labels, set())

    def test_instance_variables(self):
        names = Asking(named_image(), FILE).answers.names
        for name, variables in VARIABLES.items():
            with self.subTest(name):
                self.assertEqual(names.variables_of(names.class_named(name)), variables)


class NamedImageTest(LookTest):
    """Each command about each object of the image."""

    def check_image(self, image, options=()):
        self.write(FILE, image.file())
        asking, every = Asking(image, FILE, options), range(len(image.objects))
        groups = list(asking.answers.live_groups)
        questions = asking.of_objects(show=every, why=every, refs=every)
        questions += asking.of_image() + asking.of_dump() + asking.of_groups(groups)
        self.check_questions(questions)

    def test_as_it_is(self):
        self.check_image(named_image())

    def test_in_the_other_order(self):
        self.check_image(named_image().in_other_order())

    def test_cleared(self):
        self.check_image(named_image(), CLEAR)


class WrongNamesTest(LookTest):
    """Copies of the image in which fields and class words are random."""

    def test_answers_each_question(self):
        generator, questions = random.Random(SEED), []
        for number in range(COPIES):
            image, name = with_random_words(generator), f"{number}.image"
            self.write(name, image.file())
            for options in ((), CLEAR):
                asking, count = Asking(image, name, options), len(image.objects)
                some = generator.sample(range(count), OBJECTS)
                questions += asking.of_image()
                questions += asking.of_objects(show=self.largest(image), why=some, refs=some)
        self.check_questions(questions)

    def largest(self, image):
        """The objects with the most fields, which point to most others."""
        sizes = {number: it.end - it.base for number, it in enumerate(image.objects)}
        return sorted(sizes, key=sizes.get)[-OBJECTS:]


class ArgumentsTest(LookTest):
    """Objects and classes by name and by address."""

    def setUp(self):
        super().setUp()
        self.image = named_image()
        self.names = Asking(self.image, FILE).answers.names
        self.write(FILE, self.image.file())

    def class_address(self, name):
        return self.names.address(self.names.class_named(name))

    def write_changed(self, **words):
        """Writes the image with the names of classes, given by their own, changed to these."""
        for name, other in words.items():
            symbol = self.image.field(self.names.class_named(other), ClassField.NAME)
            word = self.image.address(self.image.objects[symbol])
            set_field(self.image, self.names.class_named(name), ClassField.NAME, word)
        self.write(FILE, self.image.file())

    def drop_class(self, name):
        """Takes a class out of the array that keeps it."""
        number = self.names.class_named(name)
        address = self.image.address(self.image.objects[number])
        meta = self.names.class_of(number)
        for place, owner, target in self.image.pointers:
            if target == number and owner != meta:
                self.assertEqual(self.image.words[place], address)
                self.image.words[place] = ZERO

    def assert_shown(self, address, *words):
        outcome = look("show", "--json", FILE, *words, folder=self.folder)
        (row,) = rows_of(self.printed_by(outcome))
        self.assertEqual(row["address"], address)

    def test_names_of_classes(self):
        self.assert_shown(self.class_address("Point"), "Point")
        self.assert_shown(self.class_address("Point class"), "Point class")
        self.assert_shown(self.class_address("Point class"), "Point", "class")

    def test_names_of_methods(self):
        for name in ("Point>>+", "Pixel>>+", "Point>>x:y:"):
            with self.subTest(name):
                self.assert_shown(self.names.address(self.names.method_named(name)), name)

    def test_labels(self):
        """Each label that one object has stands for it."""
        names, count = self.names, len(self.image.objects)
        found = collections.Counter(map(names.label, range(count)))
        alone = [it for it in range(count) if found[names.label(it)] == 1]
        lines = [("show", "--json", FILE, "--", names.label(it)) for it in alone]
        for number, line, outcome in zip(alone, lines, look_at_all(lines, self.folder)):
            with self.subTest(line[-1]):
                (row,) = rows_of(self.printed_by(outcome))
                self.assertEqual(row["address"], names.address(number))

    def test_special_objects(self):
        nil = self.names.address(self.names.target(self.image.special, 0))
        for words in (("special", "object", "0"), ("special object 0, nil",)):
            with self.subTest(words):
                self.assert_shown(nil, *words)

    def test_addresses(self):
        address = self.class_address("Point")
        short = address.lstrip("0")
        for word in (address, short, f"0x{short}", f"0X{address}", short.upper()):
            with self.subTest(word):
                self.assert_shown(address, word)

    def test_classes_of_a_list(self):
        addresses = []
        for words in (("Point",), (self.class_address("Point"),)):
            outcome = look("list", "--json", FILE, *words, folder=self.folder)
            self.assert_quiet(outcome)
            addresses.append([row.get("address") for row in rows_of(outcome.stdout)])
        self.assertEqual(addresses[0], addresses[1])
        self.assertEqual(len(addresses[0]), 2)

    def test_class_without_instances(self):
        outcome = look("list", "--json", FILE, "Spare", folder=self.folder)
        expected = {"objects": 0, "bytes": 0, "retained_together": 0}
        self.assertEqual((outcome.status, rows_of(outcome.stdout)), (0, [expected]))

    def test_wrong_names(self):
        for command, words, message in (
            ("show", ("Nowhere",), "no object is named Nowhere"),
            ("why", ("Nowhere", "class"), "no object is named Nowhere class"),
            ("refs", ("Point>>-",), "no object is named Point>>-; near: Point>>+, Point>>x"),
            ("show", ("123456789",), "no object is named 123456789"),
            ("show", ("+1000",), "no object is named +1000"),
            ("show", ("special object 1x",), "no object is named special object 1x"),
            ("show", ("special object 999",), "there is no special object 999"),
            ("show", ("origin",), "no object is named origin; near: Point class variable Origin"),
            ("list", ("Nowhere",), "no class is named Nowhere"),
            ("list", ("pint",), "no class is named pint; near: Point"),
        ):
            with self.subTest(command, words=words):
                outcome = look(command, FILE, *words, folder=self.folder)
                self.assert_refused(outcome, FILE, message)

    def test_list_of_no_class(self):
        address = f"{self.image.header[4]:08x}"
        outcome = look("list", FILE, address, folder=self.folder)
        self.assert_refused(outcome, FILE, f"{address} is not a class")

    def test_two_live_classes_of_a_name(self):
        both = ", ".join(sorted(map(self.class_address, ("Point", "Pixel"))))
        metaclasses = ", ".join(sorted(map(self.class_address, ("Point class", "Pixel class"))))
        self.write_changed(Pixel="Point")
        for command in ("show", "list"):
            with self.subTest(command):
                outcome = look(command, FILE, "Point", folder=self.folder)
                self.assert_refused(outcome, FILE, f"Point is ambiguous: {both}")
        outcome = look("why", FILE, "Point class", folder=self.folder)
        self.assert_refused(outcome, FILE, f"Point class is ambiguous: {metaclasses}")

    def test_live_class_before_a_dead_one_of_its_name(self):
        address = self.class_address("Point")
        self.drop_class("Spare")
        self.write_changed(Spare="Point")
        self.assert_shown(address, "Point")

    def test_dead_class(self):
        address = self.class_address("Spare")
        self.drop_class("Spare")
        self.write(FILE, self.image.file())
        self.assert_shown(address, "Spare")


class ArrowsTest(LookTest):
    """The first `>>` of a name ends the name of the class; a label may have more of them."""

    def asked(self, *methods):
        """How it ends to ask about a name with two `>>`, and the addresses of these methods, by
        class."""
        image = NamedImage()
        for a_class, selector in methods:
            image.add_class(a_class, "Object", selectors=(selector,))
        data = image.file()
        self.write(FILE, data)
        names = Asking(Image.read(data)[0], FILE).answers.names
        outcome = look("show", "--json", FILE, "Odd>>at>>put:", folder=self.folder)
        its = {names.name(a_class): it for it, (a_class, _) in names.methods.items()}
        return outcome, {name: names.address(it) for name, it in its.items()}

    def assert_found(self, outcome, address):
        (row,) = rows_of(self.printed_by(outcome))
        self.assertEqual(row["address"], address)

    def test_the_class_before_the_first_arrows(self):
        outcome, methods = self.asked(("Odd", "at>>put:"))
        self.assert_found(outcome, methods["Odd"])

    def test_only_a_label(self):
        outcome, methods = self.asked(("Odd>>at", "put:"))
        self.assert_found(outcome, methods["Odd>>at"])

    def test_a_name_that_is_another_label(self):
        outcome, methods = self.asked(("Odd>>at", "put:"), ("Odd", "at>>put:"))
        both = ", ".join(sorted((methods["Odd"], methods["Odd>>at"])))
        self.assert_refused(outcome, FILE, f"Odd>>at>>put: is ambiguous: {both}")


class SpellingsTest(LookTest):
    """What words stand for if several objects are named by them; how names are spelled."""

    def write_with(self, *classes, strings=()):
        """Writes the image with live classes and live strings, and returns its names."""
        image = NamedImage()
        for name in classes:
            image.add_class(name, "Object")
        its = [image.classes[name] for name in classes]
        its += [image.add_bytes("String", text) for text in strings]
        image.fields_of(image.special).append(image.add_array(*its))
        data = image.file()
        self.write(FILE, data)
        return Asking(Image.read(data)[0], FILE).answers.names

    def labelled(self, names, label):
        """The addresses of the objects with a label, sorted."""
        every = range(len(names.image.objects))
        return sorted(names.address(it) for it in every if names.label(it) == label)

    def assert_stands_for(self, words, *addresses, commands=("show", "why")):
        """These words stand for the object with an address, or for several, in text and JSON."""
        for command in commands:
            for form in ((), ("--json",)):
                with self.subTest(command, words=words, form=form):
                    outcome = look(command, *form, FILE, "--", words, folder=self.folder)
                    if len(addresses) > 1:
                        message = f"{words} is ambiguous: {', '.join(addresses)}"
                        self.assert_refused(outcome, FILE, message)
                    else:
                        self.assertIn(addresses[0], self.printed_by(outcome).decode())

    def test_classes_named_as_labels(self):
        for name in ("nil", "false", "true", "Smalltalk"):
            names = self.write_with(name)
            (a_class,) = self.labelled(names, f"class {name}")
            (known,) = self.labelled(names, name)
            self.assert_stands_for(name, *sorted((a_class, known)))
            self.assert_stands_for(f"class {name}", a_class)

    def test_a_class_named_class(self):
        names = self.write_with("class")
        both = self.labelled(names, "class class")
        self.assertEqual(len(both), 2)
        self.assert_stands_for("class class", *both)
        self.assert_stands_for("class class class", both[1])

    def test_long_names(self):
        """Names are compared as a whole, and cut where they are printed."""
        front = "ALongNameOfAClassThatHasMoreThanFortyByt"
        names = self.write_with(f"{front}es", f"{front}esInAll")
        both = self.labelled(names, f"class {front}..")
        self.assertEqual(len(both), 2)
        for name in (f"{front}es", f"{front}esInAll"):
            self.assert_stands_for(name, names.address(names.class_named(name)))
            outcome = look("code", "--json", FILE, name, folder=self.folder)
            (row,) = rows_of(self.printed_by(outcome))
            self.assertEqual(row["class"], f"{front}..")
        self.assert_stands_for(f"class {front}..", *both)

    def test_odd_bytes(self):
        """The bytes of a name are spelled as those of all texts, and the spelling is accepted."""
        spelled = r"Gr\xc3\xb6\xc3\x9fe\\"
        names = self.write_with("Größe\\")
        (address,) = self.labelled(names, f"class {spelled}")
        for words in (spelled, f"class {spelled}", f"class {spelled} {address}"):
            self.assert_stands_for(words, address)
        outcome = look("census", "--all", FILE, folder=self.folder)
        self.assertIn(f" {spelled} class\n", self.printed_by(outcome).decode())

    def test_labels_of_several_objects(self):
        names = self.write_with(strings=(b"twice", b"once", b"twice"))
        self.assert_stands_for("'twice'", *self.labelled(names, "'twice'"))
        self.assert_stands_for("'once'", *self.labelled(names, "'once'"))

    def test_labels_with_addresses(self):
        """A label stands for its object also with the address after it."""
        names = self.write_with(strings=(b"twice", b"twice"))
        tree = Tree(Asking(names.image, FILE).answers)
        for number in range(len(names.image.objects)):
            address = names.address(number)
            words = f"{tree.short_label(number)} {address}"
            self.assert_stands_for(words, address, commands=["show"])


def integer(number):
    """The word of a SmallInteger."""
    return number << 1 & 0xFFFFFFFF | 1


class CollectionsTest(LookTest):
    """What a list says of collections, by the names of their instance variables."""

    def previews(self, a_class, variables, *collections, kind=Format.FIXED):
        """What a list says of these instances of a class with these variables: their fields."""
        image = NamedImage()
        image.add_class(a_class, "Object", variables, len(variables))
        its = [
            image.add(
                kind,
                a_class,
                *(image.add_bytes("String", it) if isinstance(it, bytes) else it for it in fields),
            )
            for fields in collections
        ]
        image.fields_of(image.special).append(image.add_array(*its))
        self.write(FILE, image.file())
        outcome = look("list", "--json", "--by", "size", FILE, a_class, folder=self.folder)
        self.assert_quiet(outcome)
        *rows, _ = sorted(rows_of(outcome.stdout), key=lambda it: it.get("address", "z"))
        return [row["preview"] for row in rows]

    def test_tally(self):
        tallies = [(integer(it), ZERO) for it in (0, 1, 30, -1)]
        found = self.previews("Bunch", ("tally", "array"), *tallies, ("Object", ZERO))
        self.assertEqual(found, ["0 elements", "1 element", "30 elements", None, None])

    def test_first_and_last_index(self):
        ends = [(ZERO, integer(first), integer(last)) for first, last in ((3, 2), (1, 4), (5, 1))]
        variables = ("array", "firstIndex", "lastIndex")
        found = self.previews("Queue", variables, *ends, (ZERO, "Object", ZERO))
        self.assertEqual(found, ["0 elements", "4 elements", None, None])

    def test_tally_beside_indexed_fields(self):
        its = [(word, ZERO, ZERO, ZERO, ZERO) for word in (integer(2), "Object")]
        found = self.previews("Table", ("tally", "array"), *its, kind=Format.FIXED_AND_INDEXED)
        self.assertEqual(found, ["2 elements", "3 elements"])

    def test_no_collections(self):
        ends = (integer(3), integer(9))
        self.assertEqual(self.previews("Line", ("firstIndex", "lastIndex"), ends), [None])
        self.assertEqual(self.previews("Count", ("tally",), (integer(7),)), [None])
        its = [(integer(7), ZERO)]
        found = self.previews("Row", ("tally",), *its, kind=Format.FIXED_AND_INDEXED)
        self.assertEqual(found, ["1 element"])


    def test_extent(self):
        """A form states how large it is."""
        extents = [(integer(640), integer(-480), integer(8)), (ZERO, ZERO, "Object")]
        found = self.previews("Picture", ("width", "height", "depth"), *extents)
        self.assertEqual(found, ["640x-480, depth 8", None])

    def test_name(self):
        """A font states what it is called."""
        names = [(ZERO, b"Arial"), (ZERO, "Object"), (ZERO, integer(3))]
        found = self.previews("Face", ("size", "name"), *names)
        self.assertEqual(found, ["'Arial'", None, None])


class MatchesTest(LookTest):
    """What `find` prints of a string: the first bytes, or those around a match after these."""

    def test_text(self):
        image, long = NamedImage(), b"x" * 60
        texts = {
            b"needle" + long: "'needle" + "x" * 34 + "'..",
            b"y" * 39 + b"needle": "'" + "y" * 39 + "n'..",
            b"y" * 40 + b"needle": "..'" + "y" * 10 + "needle'",
            long + b"needle" + long: "..'" + "x" * 10 + "needle" + "x" * 24 + "'..",
            long + b"\\needle": "..'" + "x" * 9 + "\\\\needle'",
        }
        strings = [image.add_bytes("String", text) for text in texts]
        symbol = image.add_bytes("Symbol", long + b"needle")
        image.fields_of(image.special).append(image.add_array(*strings, symbol))
        self.write(FILE, image.file())
        lines = self.printed_by(look("find", FILE, "needle", folder=self.folder)).decode()
        found = [line.split("  ")[1] for line in lines.splitlines()[1:]]
        self.assertEqual(found, [*texts.values(), "#.." + "x" * 10 + "needle"])


class SitesTest(LookTest):
    """Addresses at which no object begins."""

    def test_each_byte_of_small_images(self):
        for name in ("free_chunk", "class_edge_of_three_words", "untraced_formats"):
            path = f"accepted/{name}.image"
            image = Image.read((IMAGES / path).read_bytes())[0]
            names = Asking(image, path).answers.names
            end = image.base + 4 * len(image.words)
            addresses = [at for at in range(image.base - 4, end + 5) if at not in image.numbers]
            lines = [("show", path, f"{at:08x}") for at in addresses]
            for at, outcome in zip(addresses, look_at_all(lines, IMAGES)):
                with self.subTest(name, at=f"{at:08x}"):
                    message = f"no object at {at:08x}: {site_text(names, at)}"
                    self.assert_refused(outcome, path, message)

    def test_each_command(self):
        path = "accepted/free_chunk.image"
        for command in ("show", "why", "refs"):
            with self.subTest(command):
                message = "no object at 00000000: outside the data"
                self.assert_refused(look(command, path, "0", folder=IMAGES), path, message)
