"""Asks `sqzlook` about the image of Debian's package `scratch`, as its users do, and about its
help and its outputs."""

import random
import re
import subprocess

from tests.harness.failed_outputs import FailedOutputs
from tests.harness.json_rows import rows_of
from tests.harness.known_image import NAME, KnownImageTest
from tests.harness.programs import SQZLOOK
from tests.harness.sqzlook import COMMANDS, look, look_at_all
from tests.harness.worked_images import DeadArrayTest
from tests.making.seed import SEED
from tests.reference.fields import ClassField, DictionaryField

# A sound buffer that a class variable keeps alive, and the bytes that it retains.
BUFFER, RETAINED = "1546cbd8", 97580
METHODS, NAMED_METHODS, COMPARED_METHODS = 16255, 16000, 200
# The classes whose retained bytes are compared with lists.
COMPARED_CLASSES = 100
# The maximum number of rows of a list in the text form.
SHOWN = 20
# The bytes that a pipe holds.
PIPE = 65536


class KeptBufferTest(KnownImageTest):
    """A path names the class variable that keeps a sound buffer alive."""

    def test_text_names_the_class_variable(self):
        self.assertIn(b"class variable Recorder", self.printed("why", BUFFER))

    def test_row_names_the_class_variable(self):
        (row,) = self.rows("why", BUFFER)
        labels = [step["label"] for step in row["path"]]
        self.assertIn("ScriptableScratchMorph class variable Recorder", labels)
        self.assertEqual(row["retained"], RETAINED)


class RetainedCensusTest(KnownImageTest):
    """The instances of a class retain at most what `list` says that they retain together: it also
    counts what only several of them hold. One instance retains just that."""

    def test_compared_with_lists(self):
        *rows, total = self.rows("census", "--retained")
        self.assertEqual(total["retained"], total["bytes"])
        rows = self.sample(rows, COMPARED_CLASSES)
        words = [[row["address"]] if row["address"] else row["class"].split() for row in rows]
        lines = [("list", "--json", NAME, *word) for word in words]
        for row, outcome in zip(rows, look_at_all(lines, self.folder)):
            with self.subTest(row["class"]):
                *instances, last = rows_of(self.printed_by(outcome))
                self.assertLessEqual(row["retained"], last["retained_together"])
                self.assertGreaterEqual(row["retained"], max(it["retained"] for it in instances))
                if row["objects"] == 1:
                    self.assertEqual(row["retained"], last["retained_together"])


class MethodsTest(KnownImageTest):
    """Nearly all methods have the name of a class and a selector."""

    def test_nearly_all_have_a_name(self):
        methods = self.methods()
        named = [number for number in methods if ">>" in self.names.label(number)]
        self.assertEqual(len(methods), METHODS)
        self.assertGreaterEqual(len(named), NAMED_METHODS)

    def test_labels_of_a_sample(self):
        """`show` prints the labels of all methods of a class for the array that holds them."""
        expected = {self.names.address(it): self.names.label(it) for it in self.methods()}
        fields = ClassField.METHODS, DictionaryField.ARRAY
        arrays = [self.names.target(it, *fields) for it in self.names.classes]
        random.Random(SEED).shuffle(arrays)
        found = {}
        while len(found) < COMPARED_METHODS:
            (row,) = self.rows("show", self.names.address(arrays.pop()))
            its = ((slot["value"], slot["label"]) for slot in row["slots"])
            found.update((address, label) for address, label in its if address in expected)
        self.assertEqual(found, {address: expected[address] for address in found})


class NamesTest(KnownImageTest):
    """Classes and methods are found by their names."""

    def test_class_and_metaclass(self):
        for name, label in (
            ("SoundBuffer", "class SoundBuffer"),
            ("SoundBuffer class", "SoundBuffer class"),
        ):
            with self.subTest(name):
                (row,) = self.rows("show", name)
                address = self.names.address(self.names.class_named(name))
                self.assertEqual((row["address"], row["label"]), (address, label))

    def test_a_name_of_two_words(self):
        one, two = ("SoundBuffer class",), ("SoundBuffer", "class")
        self.assertEqual(self.rows("show", *one), self.rows("show", *two))

    def test_method(self):
        (row,) = self.rows("show", "Point>>+")
        expected = (self.names.address(self.names.method_named("Point>>+")), "Point>>+")
        self.assertEqual((row["address"], row["label"]), expected)

    def test_members_of_a_class(self):
        address = self.names.address(self.names.class_named("SoundBuffer"))
        self.assertEqual(self.rows("list", "SoundBuffer"), self.rows("list", address))


class TextsTest(KnownImageTest):
    """A list stops after 20 rows and says how many there are, unless all are asked for."""

    def check_rows(self, command, word, count):
        """Checks the lines with an address. One more may be about the object itself."""
        for options, shown in (((), SHOWN), (("--all",), count)):
            with self.subTest(command, options=options):
                text = self.printed(command, *options, word).decode()
                rows = re.findall(r"(?m)^.*\b[0-9a-f]{8}\b.*$", text)
                self.assertIn(len(rows), (shown, shown + 1))
                if not options:
                    self.assertRegex(text, rf"\b{count}\b")

    def test_refs(self):
        number, count = self.first_with_many(self.answers.references)
        self.check_rows("refs", self.names.address(number), count)

    def test_list(self):
        group, count = self.first_with_many(self.answers.live_groups)
        self.check_rows("list", self.names.address(group.a_class), count)

    def first_with_many(self, lists):
        """The first key whose list is cut, but not long, and the length of the list."""
        return next((key, len(it)) for key, it in lists.items() if SHOWN + 5 < len(it) < 100)


class LongAnswerTest(KnownImageTest):
    """A pipe that closes within an answer ends the program quietly."""

    def test_closed_within_an_answer(self):
        number = max(self.answers.live, key=lambda number: len(self.image.text(number) or b""))
        self.assertGreater(len(self.image.text(number)), PIPE)
        words = [SQZLOOK, "show", "--json", NAME, self.names.address(number)]
        pipes = {"stdout": subprocess.PIPE, "stderr": subprocess.PIPE}
        with subprocess.Popen(words, cwd=self.folder, **pipes) as process:
            process.stdout.read(1)
            process.stdout.close()
            self.assertEqual(process.stderr.read(), b"")
        self.assertEqual(process.returncode, 0)


class OutputsTest(FailedOutputs, DeadArrayTest):
    """Outputs that cannot be written."""

    command_lines = (("check", "in"), ("info", "in"), ("census", "in"), ("--help",))


class HelpTest(DeadArrayTest):
    """The help lists the commands, and that of each command has an example."""

    def help_of(self, *words):
        return self.printed_by(look(*words, "--help")).decode()

    def test_lists_the_commands(self):
        text = self.help_of()
        for command in COMMANDS:
            with self.subTest(command):
                self.assertRegex(text, rf"(?m)^ *{command} ")

    def test_examples(self):
        for command in COMMANDS:
            with self.subTest(command):
                example = rf"(?m)^ *(\$ )?sqzlook {command} .*\.image"
                self.assertRegex(self.help_of(command), example)
