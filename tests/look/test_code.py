"""Asks `sqzlook` about the code, the stacks and the strings of an image."""

import functools
import json
import re
import typing

from tests.harness.json_rows import difference, rows_of
from tests.harness.outcomes import Outcome
from tests.harness.look_checks import LookTest
from tests.harness.saved_image import SavedImageTest
from tests.harness.sqzlook import look
from tests.harness.worked_images import DeadArrayTest
from tests.making.builder import Ref
from tests.making.garbage import SOUND, littered
from tests.making.method_images import METHOD_NAME, TRAILERS, MethodImage
from tests.reference.bytecodes import instructions, method_parts
from tests.reference.fields import SpecialField
from tests.reference.file_format import HEADER_WORDS, PREFIX, words_of
from tests.reference.names import SYMBOLS, Names
from tests.reference.objects import ZERO, Format, format_of, has_bytes, is_method
from tests.reference.senders import Senders
from tests.reference.values import method_of

# The number of methods whose instructions are compared, and of selectors that nobody implements.
METHODS, SELECTORS = 200, 20
# The bytes that a damaged disk loses at once.
SECTOR = 512


class Mentions(typing.NamedTuple):
    """The names of an image, its live symbols by their bytes, and what its live methods mention."""

    names: Names
    symbols: dict
    senders: Senders


@functools.cache
def mentions_in(image):
    """What the methods of an image mention, which takes seconds to find."""
    live = {number for number, it in enumerate(image.live(False)) if it}
    names, symbols = Names(image, live), {}
    for number in live:
        if has_bytes(image.header_of(number)) and names.class_name(number) in SYMBOLS:
            symbols.setdefault(image.text(number), set()).add(number)
    return Mentions(names, symbols, Senders(image, live & names.methods.keys()))


class CodeTest(SavedImageTest):
    """The image that Squeak saved."""

    def setUp(self):
        super().setUp()
        self.require_known()
        self.write("in.image", self.image.file())

    def look(self, *words):
        return look(*words, folder=self.folder)

    def rows(self, command, *words):
        """The rows of a command about the image."""
        outcome = self.look(command, "--json", "in.image", *words)
        self.assert_quiet(outcome)
        return rows_of(outcome.stdout)

    def assert_decoded(self, number):
        """Checks the instructions of a method."""
        address = f"{self.image.address(self.image.objects[number]):08x}"
        (row,) = self.rows("code", f"0x{address}")
        literals, code = method_parts(self.image, number)
        start = 4 * (literals + 1) + 1
        self.assertEqual((row["address"], len(row["literals"])), (address, literals))
        self.assertIsNone(difference(row["header"], method_of(self.image, number)))
        wanted, found = list(instructions(code)), row["instructions"]
        self.assertEqual(len(found), len(wanted))
        for one, it in zip(found, wanted):
            target = None if it.jumps_to is None else it.jumps_to + start
            self.assertEqual((one["pc"], one["bytes"]), (it.start + start, it.code.hex(" ")))
            self.assertEqual((one["operation"], one["jumps_to"]), (it.operation, target))
            self.assertEqual(one["arguments"], it.arguments)
            match it.operand:
                case ("literal" | "variable", index):
                    self.assertEqual(one["operand"], row["literals"][index])
                case ("temporary", index):
                    self.assertEqual(one["operand"], f"temp {index}")
                case str() as word:
                    self.assertEqual(one["operand"], word)

    def test_instructions(self):
        image = self.image
        methods = [it for it in range(len(image.objects)) if is_method(image.header_of(it))]
        for number in self.sample(methods, METHODS):
            with self.subTest(number=number):
                self.assert_decoded(number)

    def test_method(self):
        text = self.look("code", "in.image", "Point>>+").stdout.decode()
        self.assertTrue(text.startswith("Point>>+ "))
        said = r"\n\d+ temporar(y|ies), 1 of them arguments, \d+ literals?, primitive \d+\n"
        self.assertRegex(text, said)
        self.assertIn("push temp 0", text)
        self.assertIn("send #", text)

    def test_class(self):
        row, *methods = self.rows("code", "Point")
        self.assertEqual((row["class"], row["superclass"]), ("Point", "Object"))
        self.assertEqual(row["instance_variables"], ["x", "y"])
        self.assertEqual(row["methods"], len(methods))
        self.assertIn(("arithmetic", "+"), {(it["category"], it["selector"]) for it in methods})
        keys = [(it["category"], it["selector"]) for it in methods]
        self.assertEqual(keys, sorted(keys))

    def test_class_tree(self):
        rows = self.rows("code", "--classes")
        by_name = {row["class"]: row for row in rows}
        self.assertEqual(rows, self.rows("code"))
        self.assertEqual(by_name["Object"]["depth"] + 1, by_name["Point"]["depth"])
        self.assertGreater(by_name["Point"]["methods"], 50)
        # the numbers of instances are those of the class histogram
        objects = {row["address"]: row["objects"] for row in self.rows("census")}
        found = {row["address"]: row["instances"] for row in rows}
        self.assertEqual(found, {address: objects.get(address, 0) for address in found})

    def test_implementors(self):
        rows = self.rows("implementors", "startUp")
        self.assertEqual(len(rows), 18)
        self.assertTrue(all(it["method"].endswith(">>startUp") for it in rows))
        self.assertEqual(rows, self.rows("implementors", "#startUp"))

    def test_senders(self):
        """Selectors that are literals, that are sent by special codes, and that nobody sends."""
        names, symbols, senders = mentions_in(self.image)
        for word in ("at:put:", "+", "x", "value", "uniformWindowColors", "nobodySendsThis"):
            with self.subTest(word):
                found = [it["address"] for it in self.rows("senders", word)]
                wanted = senders.of(symbols.get(word.encode(), ()))
                self.assertEqual(sorted(found), sorted(map(names.address, wanted)))

    def test_unimplemented(self):
        rows = {it["selector"]: it for it in self.rows("code", "--unimplemented")}
        self.assertIn("uniformWindowColors", rows)
        self.assertTrue(rows["uniformWindowColors"]["senders"])
        for selector in self.sample(sorted(rows), SELECTORS):
            with self.subTest(selector):
                self.assertEqual(self.rows("implementors", selector), [])

    def test_unsent(self):
        """All methods whose selectors no method mentions."""
        names, symbols, senders = mentions_in(self.image)
        mentioned = set().union(*senders.mentioned.values())
        wanted = [
            names.address(number)
            for number in senders.mentioned
            if mentioned.isdisjoint(symbols.get(names.methods[number][1], ()))
        ]
        found = [it["address"] for it in self.rows("code", "--unsent")]
        self.assertGreater(len(found), 10)
        self.assertEqual(sorted(found), sorted(wanted))

    def test_stacks(self):
        rows = self.rows("stacks")
        self.assertEqual(len(rows), 7)
        (active,) = [it for it in rows if it["state"] == "active"]
        methods = [it["method"] for it in active["contexts"]]
        self.assertIn("SystemDictionary>>snapshot:andQuit:", methods)
        self.assertIn("ScratchFrameMorph>>saveImageForEndUser", methods)
        addresses = [it["address"] for row in rows for it in row["contexts"]]
        self.assertEqual(len(addresses), len(set(addresses)))
        text = self.look("stacks", "in.image").stdout.decode()
        self.assertIn("active\n", text)

    def test_find(self):
        rows = self.rows("find", "/Users/|/Volumes/|@")
        self.assertTrue(any("jmaloney" in it["text"] for it in rows))
        self.assertTrue(all(re.search("/Users/|/Volumes/|@", it["text"]) for it in rows))
        self.assertTrue(all(it["holder"] for it in rows))
        text = self.look("find", "in.image", "jmaloney").stdout.decode()
        self.assertIn(" in ", text)

    def test_dump(self):
        outcome = self.look("dump", "in.image")
        self.assert_quiet(outcome)
        rows = [json.loads(line) for line in outcome.stdout.splitlines()]
        self.assertEqual(len(rows), len(self.image.objects))
        special = next(it for it in rows if it["label"] == "special objects array")
        shown = self.rows("show", "special objects array")[0]
        slots = [(it["slot"], it["kind"], it["value"]) for it in shown["slots"]]
        found = [(it["slot"], it["kind"], it["value"]) for it in special["slots"]]
        self.assertEqual(found, slots)
        self.assertEqual((special["retained"], special["dominator"]), (shown["retained"], None))

    def answers_about(self, *options):
        """The answers of all commands about an image, without addresses."""

        def rows(command, *words):
            outcome = self.look(command, "--json", *options, *words)
            self.assertEqual(outcome.status, 0)
            return [row for row in rows_of(outcome.stdout) if "skipped" not in row]

        def methods(rows):
            # a method without a name is named by its address
            return sorted(re.sub(" [0-9a-f]{8}$", "", it["method"]) for it in rows)

        (method,) = rows("code", "Point>>+")
        return {
            "code": [(it["operation"], it["bytes"]) for it in method["instructions"]],
            "class": [(it["category"], it["selector"]) for it in rows("code", "Point")[1:]],
            "implementors": methods(rows("implementors", "startUp")),
            "senders": methods(rows("senders", "at:put:")),
            "unsent": methods(rows("code", "--unsent")),
            "unimplemented": [
                (it["selector"], methods(it["senders"])) for it in rows("code", "--unimplemented")
            ],
            "stacks": sorted(methods(it["contexts"]) for it in rows("stacks")),
            "find": sorted(it["text"] for it in rows("find", "/Users/|/Volumes/|@")),
        }

    def damaged(self):
        """The file of the image, with a sector of zeros where its longest sound begins."""
        words = self.image.words
        sound = max(
            (it for it in self.image.objects if format_of(words[it.base]) == Format.WORDS),
            key=lambda it: it.end - it.first,
        )
        file, at = self.image.file(b""), 4 * (HEADER_WORDS + sound.first)
        return file[:at] + bytes(SECTOR) + file[at + SECTOR :]

    def test_other_forms_of_the_file(self):
        """The answers are the same in the other byte order and after a prefix, with garbage, and
        past damage."""
        forms = {
            "other.image": self.image.in_other_order().file(PREFIX),
            "garbage.image": littered(self.image, self.generator, SOUND, 500, False).file(),
            "damaged.image": self.damaged(),
        }
        wanted = self.answers_about("in.image")
        for name, file in forms.items():
            self.write(name, file)
            options = ("--past-damage",) if name == "damaged.image" else ()
            found = self.answers_about(*options, name)
            for question, answer in wanted.items():
                with self.subTest(f"{question} of {name}"):
                    self.assertEqual(found[question], answer)


class SelectorsTest(LookTest):
    """What counts as a selector, on small images with one method of one's choice."""

    def methods(self, image, command, *words):
        """The methods that a command prints about an image."""
        self.write("it.image", image.file())
        outcome = look(command, "--json", "it.image", *words, folder=self.folder)
        return [row["method"] for row in rows_of(self.printed_by(outcome))]

    def assert_sent(self, image, selector, is_sent):
        """Checks whether the method sends a selector or has it as a literal."""
        self.assertEqual(self.methods(image, "senders", selector), [METHOD_NAME] * is_sent)

    def test_literals(self):
        for add, is_sent in ((MethodImage.add_symbol, True), (MethodImage.add_string, False)):
            with self.subTest(is_sent=is_sent):
                image = MethodImage()
                text = "x:y:" if is_sent else b"x:y:"
                image.set_method([add(image, text)])
                self.assert_sent(image, "x:y:", is_sent)

    def test_special_selector(self):
        for code, is_sent in ((0xB0, True), (0xB1, False)):  # send + and -
            with self.subTest(is_sent=is_sent):
                image = MethodImage()
                symbols = [it for name in "+-" for it in (image.add_symbol(name), ZERO)]
                special = image.fields_of(image.special)
                special[SpecialField.SPECIAL_SELECTORS] = image.add_array(*symbols)
                image.set_method(code=bytes([code, 0x7C]) + TRAILERS[0])
                self.assert_sent(image, "+", is_sent)

    def test_object_without_characters(self):
        # the method sends an array, which is no selector, and then a symbol
        image = MethodImage()
        image.set_method([image.add_array(), image.add_symbol("go")], code=b"\xd0\xd1\x7c\x00")
        self.write("it.image", image.file())
        outcome = look("code", "--json", "--unimplemented", "it.image", folder=self.folder)
        selectors = [row["selector"] for row in rows_of(self.printed_by(outcome))]
        self.assertEqual(selectors, ["go"])

    def test_unsent(self):
        # the method mentions the very selector of another one, or a symbol like it
        for is_same in (True, False):
            with self.subTest(is_same=is_same):
                image = MethodImage()
                selector = [*words_of(b"x:y:", "little")]
                same = next(at for at, it in enumerate(image.items) if it.fields == selector)
                image.set_method([Ref(same) if is_same else image.add_symbol("x:y:")])
                unsent = self.methods(image, "code", "--unsent")
                self.assertEqual("Point>>x:y:" in unsent, not is_same)


class CodeArgumentsTest(DeadArrayTest):
    """An image without code, and wrong words."""

    def look(self, *words):
        return look(*words, folder=self.folder)

    def test_wrong_expression(self):
        """The message says where the expression is wrong."""
        for word, place in (("(", "0..1"), ("a[z-b]", "2..5")):
            with self.subTest(word):
                outcome = self.look("find", "in", word)
                self.assertEqual((outcome.status, outcome.stdout), (2, b""))
                line = rf"sqzlook: not a regular expression: {re.escape(word)}: .* {place}: .+"
                self.assertRegex(outcome.stderr.decode(), rf"\A{line}\n\Z")

    def test_no_code(self):
        for words in (("stacks", "in"), ("code", "in"), ("find", "in", ".*")):
            with self.subTest(words=words):
                self.assert_quiet(self.look(*words))
        for words in (("senders", "in", "+"), ("implementors", "in", "+")):
            with self.subTest(words=words):
                self.assert_quiet(self.look(*words))

    def test_neither_class_nor_method(self):
        outcome = self.look("code", "in", "special objects array")
        self.assertEqual((outcome.status, outcome.stdout), (1, b""))
        self.assertIn(b"is neither a class nor a method", outcome.stderr)

    def test_options_that_exclude_each_other(self):
        for words in (
            ("code", "--unsent", "--unimplemented", "in"),
            ("code", "--classes", "in", "Point"),
        ):
            with self.subTest(words=words):
                self.assert_explained(self.look(*words))
