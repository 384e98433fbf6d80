"""Reads the pages of `sqzlook explore`, and opens them in a browser, as their readers do: clicks
through to objects, zooms, searches, goes back, and uses the keyboard."""

import functools
import itertools
import re
import subprocess
import sys
import unittest

from bench.embed_page import PAGE
from tests.harness.browser import Browser, is_installed
from tests.harness.explored_page import ExploredPage, data_in
from tests.harness.known_image import NAME, KnownImageTest
from tests.harness.look_checks import LookTest
from tests.harness.programs import ROOT
from tests.harness.sqzlook import CLEAR, look
from tests.harness.worked_images import accepted_images
from tests.making.changed_images import with_words
from tests.making.method_images import CODE, TRAILERS, MethodImage
from tests.making.named_image import NamedImage
from tests.reference.answers import Answers
from tests.reference.bytecodes import instructions, method_parts
from tests.reference.explored import Explored, data_of
from tests.reference.image import Image
from tests.reference.values import preview

# A page is at most this many times as large as the image.
MOST_TIMES = 5
# The most objects of which a page is written without a warning.
MANY = 4_000_000
# How many objects of the known image are opened, and of how many methods the code is compared.
OPENED, METHODS = 20, 20
# Classes whose instances have numbers of elements, and some that have none.
COLLECTIONS = (
    "OrderedCollection",
    "Set",
    "Dictionary",
    "MethodDictionary",
    "WeakArray",
    "Semaphore",
    "MethodContext",
    "StrikeFont",
)
# What the page finds in bytecodes, and what it calls the operands of the second implementation.
DECODED = """instructionsOf(%s).map((it) => [it.start, it.bytes, it.operation, it.operand ?? null,
  it.index ?? null, it.distance === undefined ? null : it.end + it.distance])"""
OPERANDS = {
    "instance": "variable",
    "temporary": "temporary",
    "literal": "literal",
    "variable": "literal",
}
# Names that are markup, or that mean something to a script.
HOSTILE = (
    "</script><script>throw 0</script>",
    "<!--<script>",
    "-->",
    "<img src='x' onerror='throw 0'>",
    "&lt;i&gt;&amp;",
    "${1}\"'`",
    "\u2028",
    "\x00\r\n\x7f\xff",
    "]]>",
    "N" * 60_000,
)
# The colours of texts and their backgrounds: each pair must have enough contrast.
COLOUR = re.compile(r"--([\w-]+): (#[0-9a-f]{6})")
TEXTS, BEHIND = ("ink", "soft", "link"), ("page", "panel", "head")
BOXES = ("class", "collection", "text", "code", "media", "other", "smaller")


def hostile_image():
    """An image with strings and class variables of hostile texts."""
    image = NamedImage()
    pool = {name.encode("utf-8", "replace").decode("latin-1"): "Spare" for name in HOSTILE}
    image.add_class("Hostile", "Object", pool=pool)
    image.fields_of(image.special).append(image.classes["Hostile"])
    return Image.read(image.file())[0]


def damaged_file():
    """The file of an image with an object whose header is no header."""
    image = Image.read(NamedImage().file())[0]
    image.words[image.objects[40].first] = 0
    return image.file()


def kinds_of(image, number):
    """The kinds of instructions that a method has, and what its header says."""
    header = image.words[image.objects[number].base + 1]
    literals, code = method_parts(image, number)
    said = {"primitive": header >> 1 & 511, "large frame": header >> 18 & 1, "literals": literals}
    kinds = {(name, number > 0) for name, number in said.items()}
    for it in instructions(code):
        kind = it.operand[0] if isinstance(it.operand, tuple) else it.operand is not None
        is_back = it.jumps_to is not None and it.jumps_to < it.start
        kinds.add((it.operation, kind, len(it.code), is_back))
    return kinds


def page_about(explored, path):
    """The page about an image, with the data that the second implementation finds."""
    return PAGE.read_text(encoding="utf-8") + data_of(explored.blocks(path))


@functools.cache
def known_page(answers):
    """The data and the page of the known image, which take seconds to find."""
    explored = Explored(answers)
    return explored, page_about(explored, NAME)


def number_in(text):
    """The number that a text begins with."""
    return int(re.match(r"[\d,]+", text)[0].replace(",", ""))


class SourceTest(unittest.TestCase):
    """The page, as it is written."""

    def test_is_the_one_of_the_program(self):
        words = [sys.executable, "-m", "bench.embed_page", "--check"]
        ended = subprocess.run(words, cwd=ROOT, capture_output=True, check=False)
        self.assertEqual((ended.returncode, ended.stderr), (0, b""))

    def test_shows_text_only(self):
        page = PAGE.read_text(encoding="utf-8")
        for word in ("innerHTML", "outerHTML", "insertAdjacentHTML", "document.write", "eval("):
            self.assertNotIn(word, page)
        self.assertIn("default-src 'none'", page)
        self.assertNotIn("unsafe", page)

    def test_is_readable(self):
        page = PAGE.read_text(encoding="utf-8")
        light, dark = page.split("@media (prefers-color-scheme: dark)")[:2]
        for theme in (light, dark):
            colours = dict(COLOUR.findall(theme))
            pairs = [(text, back) for text in TEXTS for back in BEHIND]
            pairs += [("ink", box) for box in BOXES] + [("warn", "warn-back"), ("ink", "mark")]
            for text, back in pairs:
                with self.subTest(text=text, back=back):
                    self.assertGreaterEqual(contrast(colours[text], colours[back]), 4.5)


def luminance(colour):
    """The relative luminance of a colour, as WCAG defines it, from 0 to 1."""
    parts = [int(colour[at : at + 2], 16) / 255 for at in (1, 3, 5)]
    red, green, blue = (
        it / 12.92 if it <= 0.04045 else ((it + 0.055) / 1.055) ** 2.4 for it in parts
    )
    return 0.2126 * red + 0.7152 * green + 0.0722 * blue


def contrast(one, other):
    """The contrast ratio of two colours, as WCAG defines it, from 1 to 21."""
    dark, light = sorted(luminance(it) + 0.05 for it in (one, other))
    return light / dark


class DataTest(LookTest):
    """The data that the program writes are those that the second implementation finds."""

    def check_image(self, image, options=(), least=0):
        self.write("it.image", image.file())
        words = [*options, *(["--min", str(least)] if least else [])]
        outcome = look("explore", *words, "it.image", folder=self.folder)
        answers = Answers(image, clear_weak=options == CLEAR)
        fault = answers.defects[0].line(len(image.prefix)) if answers.defects else None
        self.assertEqual(outcome.status, 0)
        page, rows = data_in(outcome.stdout.decode())
        self.assertEqual(page, PAGE.read_text(encoding="utf-8"))
        blocks = Explored(answers, least).blocks("it.image", fault)
        expected = [(kind, row) for kind, its in blocks for row in its]
        for found, wanted in zip(rows, expected, strict=True):
            self.assertEqual(found, wanted)

    def test_worked_images(self):
        for options in ((), CLEAR):
            for it in accepted_images(options == CLEAR):
                for least in (0, 20):
                    with self.subTest(it.name, options=options, least=least):
                        self.check_image(Image.read(it.image)[0], options, least)

    def test_hostile_names(self):
        for least in (0, 1, 64, 10**6, 2**32 - 1):
            with self.subTest(least):
                self.check_image(hostile_image(), least=least)

    def test_warning_of_many_objects(self):
        """More objects than a browser is likely to hold get a line before the page."""
        image = hostile_image()
        words = image.words[:]
        # objects of one word, which are not live
        words.extend([7] * (MANY + 1 - len(image.objects)))
        self.write("it.image", with_words(image, words).file())
        warning = (
            f"sqzlook: it.image: {MANY + 1} objects are likely too many for a browser; --min BYTES "
            "leaves out those that retain less\n"
        )
        for least, line in ((0, warning), (1, "")):
            with self.subTest(least=least):
                outcome = look("explore", "--min", str(least), "it.image", folder=self.folder)
                self.assertEqual((outcome.status, outcome.stderr.decode()), (0, line))
        self.write("it.image", with_words(image, words[:-1]).file())
        outcome = look("explore", "it.image", folder=self.folder)
        self.assertEqual((outcome.status, outcome.stderr), (0, b""))

    def test_bad_minimum(self):
        self.write("it.image", hostile_image().file())
        for word in ("-1", str(2**32), "5%", "", "some"):
            with self.subTest(word):
                outcome = look("explore", "--min", word, "it.image", folder=self.folder)
                self.assertEqual((outcome.status, outcome.stdout), (2, b""))

    def test_methods(self):
        for trailer in TRAILERS:
            image = MethodImage()
            image.set_method(code=CODE + trailer)
            with self.subTest(trailer):
                self.check_image(Image.read(image.file())[0])

    def test_options_of_other_forms(self):
        self.write("it.image", hostile_image().file())
        printed = {
            look("explore", *options, "it.image", folder=self.folder).stdout
            for options in ((), ("--json",), ("--human",))
        }
        self.assertEqual(len(printed), 1)

    def test_damage(self):
        self.write("it.image", damaged_file())
        outcome = look("explore", "--past-damage", "it.image", folder=self.folder)
        _, rows = data_in(outcome.stdout.decode())
        skipped = rows[0][1]["skipped"]
        self.assertIn(f"it.image: {skipped}\n".encode(), outcome.stderr)
        self.assertIn("skipped ", skipped)


class KnownDataTest(KnownImageTest, DataTest):
    """The data of the known image."""

    def test_known_image(self):
        for least in (0, 1000):
            with self.subTest(least):
                self.check_image(self.image, least=least)

    def test_size(self):
        written = len(self.printed("explore")) - len(PAGE.read_bytes())
        self.assertLess(written, MOST_TIMES * len(self.path.read_bytes()))


class BrowserTest(LookTest):
    """A test with a browser. It is skipped without one."""

    @classmethod
    def setUpClass(cls):
        super().setUpClass()
        cls.browser = None
        if is_installed():
            cls.browser = Browser()
            cls.addClassCleanup(cls.browser.close)

    def open(self, text, is_whole=True):
        """Opens a page with this text."""
        if self.browser is None:
            self.skipTest("no browser: install the package chromium")
        self.write("it.html", text.encode())
        self.page = ExploredPage(self.browser, self.folder / "it.html", is_whole)

    def assert_no_errors(self):
        self.assertEqual(self.browser.errors(), [])


class KnownPageTest(BrowserTest, KnownImageTest):
    """The page of the known image, as the second implementation finds its data."""

    def setUp(self):
        super().setUp()
        self.explored, text = known_page(self.answers)
        self.open(text)

    def tearDown(self):
        if self.browser is not None:
            self.assert_no_errors()
        super().tearDown()

    def test_overview(self):
        info, facts = self.answers.info(NAME), self.page.facts()
        numbers = [int(it.replace(",", "")) for it in re.findall(r"[\d,]*\d", facts["Live"])]
        self.assertEqual(numbers, [info["live_objects"], info["live_bytes"]])
        self.assertEqual(number_in(facts["Data"]), info["data_bytes"])
        self.assertEqual(facts["Base address"], info["base"])
        retained = self.explored.tree.retained
        most = sorted(retained, key=lambda it: (-retained[it], it))[1:21]
        found = [(row[0], number_in(row[3])) for row in self.page.cells("top")]
        self.assertEqual(found, [(self.names.label(it), retained[it]) for it in most])

    def test_classes(self):
        self.page.go("#classes?sort=-bytes")
        found = sorted(
            (row[0], *map(number_in, row[2:])) for row in self.page.cells("classes")
        )
        rows = [(name, *sums) for _, name, _, *sums, _ in self.explored.classes()]
        self.assertEqual(found, sorted(rows))
        bytes_in_order = [number_in(row[3]) for row in self.page.cells("classes")]
        self.assertEqual(bytes_in_order, sorted(bytes_in_order, reverse=True))
        self.browser.value("document.getElementById('filter').focus()")
        self.browser.write("strike")
        names = [row[0] for row in self.page.cells("classes")]
        self.assertEqual(sorted(names), ["StrikeFont", "StrikeFont class"])
        self.assertIn("filter=strike", self.page.address)

    def test_instances(self):
        a_class = self.names.class_named("StrikeFont")
        self.page.go(f"#class/{self.explored.at(a_class)}")
        its = [it for it in self.answers.live if self.names.class_of(it) == a_class]
        retained = self.explored.tree.retained
        its.sort(key=lambda it: (-retained[it], it))
        found = [(row[0], number_in(row[3])) for row in self.page.cells("instances")]
        self.assertEqual(found, [(self.names.address(it), retained[it]) for it in its])

    def test_previews(self):
        """They are those of `list`, or else say how large an object is."""
        kept = re.compile(r"[\d,]+ (field|byte)s?")
        for name in COLLECTIONS:
            with self.subTest(name):
                a_class = self.names.class_named(name)
                self.page.go(f"#class/{self.explored.at(a_class)}")
                found = {row[0]: row[1] for row in self.page.cells("instances")}
                for number in self.answers.live:
                    if self.names.class_of(number) == a_class:
                        wanted = preview(self.names, number)
                        shown = found[self.names.address(number)]
                        if wanted is None:
                            self.assertRegex(shown, kept)
                        else:
                            self.assertEqual(shown.replace(",", ""), wanted.replace(",", ""))

    def test_objects(self):
        for number in self.sample(self.answers.live, OPENED):
            with self.subTest(self.names.label(number)):
                self.check_object(number)

    def check_object(self, number):
        """Compares an object with what `show`, `refs` and `why` print about it."""
        address = self.names.address(number)
        self.page.go(f"#object/{address}")
        self.assertEqual(self.page.heading, self.names.label(number))
        facts, shown = self.page.facts(), self.answers.show(number)
        self.assertEqual(facts["Address"], address)
        self.assertEqual(facts["Class"], shown["class"])
        self.assertEqual(number_in(facts["Bytes"]), shown["bytes"])
        self.assertEqual(number_in(facts["Retained bytes"]), self.explored.tree.retained[number])
        self.assertEqual(number_in(facts["Identity hash"]), shown["hash"])
        self.assert_slots(number, shown)
        self.assert_referrers(number)
        steps = [row["address"] for row in self.answers.why(number)["path"]]
        self.assertEqual(len(self.page.links("path")), len(steps))
        self.assertEqual([self.page.links("path")[at] for at in (0, -1)], [steps[0], address])
        parents, above = [], self.explored.tree.parents.get(number)
        while above is not None:
            parents.append(self.names.address(above))
            above = self.explored.tree.parents.get(above)
        self.assertEqual(self.page.links("dominators"), parents)

    def assert_slots(self, number, shown):
        """Compares the slots of the object that is open."""
        expected = [slot for slot in shown["slots"] if slot["kind"] != "untraced"]
        found = self.page.cells("slots") or []
        self.assertEqual(len(found), len(expected))
        for (name, holds), slot in zip(found, expected):
            if slot["name"] and number != self.image.special:
                self.assertEqual(name, f".{slot['name']}")
            wanted = slot["label"] if slot["label"] else str(slot["value"])
            self.assertTrue(holds.startswith(wanted), (holds, slot))

    def assert_referrers(self, number):
        """Compares the references to the object that is open."""
        rows = self.answers.refs(number)
        labels = sorted(row["label"] for row in rows)
        self.assertEqual(sorted(row[0] for row in self.page.cells("referrers") or []), labels)

    def test_code(self):
        """The code of methods that have instructions of all kinds together."""
        methods = self.methods()
        kinds = {it: kinds_of(self.image, it) for it in methods}
        left, chosen = set().union(*kinds.values()), []
        while left:
            chosen.append(max(methods, key=lambda it: len(kinds[it] & left)))
            left -= kinds[chosen[-1]]
        chosen += self.sample(methods, max(METHODS - len(chosen), 0))
        for number in chosen:
            with self.subTest(self.names.label(number)):
                self.check_code(number)

    def check_code(self, number):
        """Compares the code of a method with what `code` prints, and its links with the literals
        that its instructions work on."""
        address = self.names.address(number)
        self.page.go(f"#object/{address}")
        printed = self.printed("code", f"0x{address}").decode().splitlines()[1:]
        wanted = [it for it in printed if not it.startswith("literal ")]
        self.assertEqual([self.page.text("#method"), *self.page.lines("#code > code")], wanted)
        _, code = method_parts(self.image, number)
        operands = [it.operand for it in instructions(code) if isinstance(it.operand, tuple)]
        literals = [index + 1 for kind, index in operands if kind in ("literal", "variable")]
        targets = [self.image.field(number, field) for field in literals]
        links = [self.names.address(it) for it in targets if it is not None]
        self.assertEqual(self.page.links("code"), links)

    def test_links(self):
        """A click on a link shows its object, and the browser goes back and forward."""
        number = self.names.class_named("StrikeFont")
        address = f"#object/{self.names.address(number)}"
        self.page.go(address)
        self.browser.value('document.querySelector("#slots a").click()')
        self.page.wait_for(f'location.hash !== "{address}"')
        other = self.page.address
        self.assertEqual(self.page.heading, self.names.label(self.names.class_of(number)))
        self.browser.value("history.back()")
        self.page.wait_for(f'location.hash === "{address}"')
        self.page.wait_for('document.querySelector("h2").textContent === "class StrikeFont"')
        self.browser.value("history.forward()")
        self.page.wait_for(f'location.hash === "{other}"')

    def test_drawing(self):
        """Keys move and zoom, and the box that is chosen is described."""
        self.browser.value('document.getElementById("icicle").focus()')
        self.assertIn("special objects array", self.page.text("#described"))
        self.page.press("ArrowDown")
        self.assertIn("class StrikeFont", self.page.text("#described"))
        self.page.press("ArrowRight")
        self.assertIn("class ScratchFrameMorph", self.page.text("#described"))
        self.page.press("ArrowLeft", "Enter")
        self.page.wait_for('location.hash.includes("zoom=")')
        self.page.wait_for('document.activeElement.id === "icicle"')
        self.assertIn("class StrikeFont", self.page.text("#described"))
        self.page.press("ArrowUp")
        self.assertIn("special objects array", self.page.text("#described"))
        self.page.press("Escape")
        self.page.wait_for('location.hash === "#overview"')
        for selector, view in (("class Scr", "zoom="), ("special", "#overview")):
            place = self.browser.value(f"""(() => {{
              const it = Array.from(document.querySelectorAll("#icicle g")).find((it) =>
                it.textContent.startsWith("{selector}"));
              it.scrollIntoView({{ block: "center" }});
              const at = it.getBoundingClientRect();
              return [at.left + 9, at.top + at.height / 2];
            }})()""")
            self.browser.click(*place)
            self.page.wait_for(f'location.hash.includes("{view}")')

    def test_saved_drawing(self):
        """The drawing is saved as a file with its colours, which needs no other file."""
        self.browser.value("""
          window.saved = null;
          const made = URL.createObjectURL;
          URL.createObjectURL = (blob) => {
            blob.text().then((it) => saved = it);
            return made(blob);
          };
          HTMLAnchorElement.prototype.click = () => {};
          Array.from(document.querySelectorAll("button")).find((it) =>
            it.textContent === "Save as SVG").click();
        """)
        self.page.wait_for("window.saved !== null")
        drawing = self.browser.value("window.saved")
        self.assertTrue(drawing.startswith("<svg"))
        self.assertIn("class StrikeFont", drawing)
        self.assertNotIn("class=", drawing)

    def test_search(self):
        self.browser.press("/")
        self.assertEqual(self.browser.value("document.activeElement.id"), "words")
        self.browser.write("sprite costume")
        self.page.press("Enter")
        self.page.wait_for('document.getElementById("found")?.textContent.endsWith(" found")')
        wanted = [it for it in self.answers.live if self.has_words(it, "sprite", "costume")]
        self.assertEqual(number_in(self.page.text("#found")), len(wanted))
        found = sorted(row[0] for row in self.page.cells("results"))
        self.assertEqual(found, sorted(self.names.label(it) for it in wanted))
        self.page.go("#search?q=%5Eclass%20Str..e&regex=1")
        self.page.wait_for('document.getElementById("found")?.textContent.endsWith(" found")')
        self.assertIn("class StrikeFont", [row[0] for row in self.page.cells("results")])
        self.page.go("#search?q=%28&regex=1")
        self.assertIn("Invalid regular expression", self.page.text(".warning"))

    def has_words(self, number, *words):
        text = self.explored.object_row(number)[8]
        texts = [self.names.label(number), text if isinstance(text, str) else ""]
        return any(all(word in text.lower() for word in words) for text in texts)

    def test_zoomed_page(self):
        """At 200 percent nothing is wider than the window."""
        special = self.names.address(self.image.special)
        for address in ("#overview", "#classes", f"#object/{special}"):
            self.browser.ask(
                "Emulation.setDeviceMetricsOverride",
                width=600,
                height=400,
                deviceScaleFactor=2,
                mobile=False,
            )
            self.page.go(address)
            self.assertLessEqual(self.browser.value("document.documentElement.scrollWidth"), 600)


class OtherPagesTest(BrowserTest):
    """Pages with hostile names, that were cut, or without data."""

    def test_hostile_names(self):
        explored = Explored(Answers(hostile_image()))
        self.open(page_about(explored, "</title><script>throw 0</script>"))
        elements = """Array.from(document.querySelectorAll("script, img, iframe, i"),
          (it) => it.localName)"""
        self.assertEqual(self.browser.value(elements), ["script"])
        for number in explored.answers.live:
            self.page.go(f"#object/{explored.names.address(number)}")
            self.assertEqual(self.page.heading, explored.names.label(number))
            data = explored.object_row(number)[8]
            if isinstance(data, str) and len(data) < 20000:
                self.assertEqual(self.page.text("#text"), data)
        for address in ("#classes", "#overview", "#search?q=script"):
            self.page.go(address)
        self.assertEqual(self.browser.value(elements), ["script"])
        self.assert_no_errors()

    def test_cut(self):
        explored = Explored(Answers(hostile_image()))
        text = page_about(explored, NAME)
        rows = explored.objects()
        self.open(text[: text.index(f"\n[{rows[60][0]},") + 9])
        self.assertIn(f"has 60 of {len(rows)} live objects", self.page.text("#cut"))
        for number in explored.answers.live[:60]:
            self.page.go(f"#object/{explored.names.address(number)}")
            self.assertEqual(self.page.heading, explored.names.label(number))
        self.page.go(f"#object/{explored.names.address(explored.answers.live[61])}")
        self.assertIn("No live object", self.page.heading)
        self.page.go("#classes")
        self.assertEqual(len(self.page.cells("classes")), len(explored.classes()))
        self.assert_no_errors()

    def test_left_out(self):
        """Objects that retain little are left out: the page says so."""
        answers = Answers(hostile_image())
        explored, names = Explored(answers, least=64), answers.names
        self.open(page_about(explored, NAME))
        left = [it for it in answers.live if it not in explored.shown]
        addresses = {names.address(it) for it in left}
        text = self.page.text("#left-out")
        self.assertIn(f"Left out: {len(left)} live objects that retain fewer than 64 bytes", text)
        self.assertIn(f"{answers.reach.bytes_of(left):,} bytes in all", text)
        for number in explored.shown:
            self.page.go(f"#object/{names.address(number)}")
            self.assertEqual(self.page.heading, names.label(number))
            slots = [it for it in answers.show(number)["slots"] if it["kind"] != "untraced"]
            for (_, holds), slot in zip(self.page.cells("slots") or [], slots, strict=True):
                if slot["value"] in addresses:
                    self.assertEqual(holds, f"{slot['value']} (left out)")
        self.page.go(f"#object/{names.address(left[0])}")
        self.assertIn("No live object", self.page.heading)
        self.assertIn("fewer than 64 bytes and was left out", self.page.text("#view"))
        self.page.go("#classes")
        self.assertEqual(len(self.page.cells("classes")), len(explored.classes()))
        self.assert_no_errors()

    def test_large(self):
        """A page that may be too large for a browser says how to get a smaller one."""
        explored = Explored(Answers(hostile_image()))
        text = page_about(explored, NAME)
        self.open(text)
        self.assertIsNone(self.page.text("#large"))
        live = f'"live_objects":{len(explored.shown)},'
        self.open(text.replace(live, '"live_objects":4000001,'))
        self.assertIn("--min BYTES", self.page.text("#large"))

    def test_bytecodes(self):
        """Bytes of all kinds are decoded as the second implementation does."""
        pairs = itertools.product(range(256), range(0, 256, 3))
        code = bytes(itertools.chain.from_iterable((*pair, 9) for pair in pairs))
        wanted = []
        for it in instructions(code):
            words, operand = it.operation, (None, None)
            if isinstance(it.operand, tuple):
                operand = OPERANDS[it.operand[0]], it.operand[1]
            elif it.operand is not None:
                words = f"{words} {it.operand}"
            wanted.append([it.start, list(it.code), words, *operand, it.jumps_to])
        self.open(PAGE.read_text(encoding="utf-8"), is_whole=False)
        self.assertEqual(self.browser.value(DECODED % list(code)), wanted)

    def test_without_data(self):
        self.open(PAGE.read_text(encoding="utf-8"), is_whole=False)
        self.page.wait_for('document.querySelector("#view .warning") !== null')
        self.assertIn("holds no image", self.page.text("#view"))

    def test_policy(self):
        """A script that gets into the page in another way does not run."""
        explored = Explored(Answers(hostile_image()))
        other = "<script>window.ran = 1</script><main"
        self.open(page_about(explored, NAME).replace("<main", other))
        self.assertIsNone(self.browser.value("window.ran"))
        self.assertIn("Content Security Policy", str(self.browser.errors()))
