"""Checks that the rows of `sqzlook` have the cells that the templates of their lines name."""

import re
import unittest

from tests.harness.look_checks import Asking, LookTest, as_words
from tests.harness.row_sources import (
    JSON_ALONE,
    NAMED,
    TEXT_ALONE,
    group_cells,
    groups,
    plain,
    row_crates,
    row_methods,
    source_of,
    texts_of,
)
from tests.harness.sqzlook import COMMANDS, look_at_all
from tests.harness.worked_images import IMAGES
from tests.making.process_image import ProcessImage
from tests.reference.image import Image

# Lower bounds of what is found in the sources: a reader that finds nothing fails.
MANY_TEMPLATES, MANY_CELLS = 60, 20
# What a line has for a cell that its row does not have.
UNKNOWN = re.compile(r"\{[a-z_]+\}")
# Images with names, code, weak objects, faults and damage, and one that another is compared with.
PATHS = (
    "accepted/class_names.image",
    "accepted/dozen_classes.image",
    "accepted/method_literals.image",
    "weak/weak_array.image",
    "defects/bad_class_word.image",
    "unreadable/zero_size.image",
)
OTHER = "accepted/dead_array.image"
# The objects of each image that are asked about.
OBJECTS = 12
OPTIONS = ((), ("--all", "--human"))
# Cells of made sources.
NAMES = ["one", "two", "three", "four"]


class SourcesTest(unittest.TestCase):
    """The templates in the sources."""

    def test_templates_name_cells(self):
        """A crate adds each cell that one of its templates names."""
        count = 0
        for crate in row_crates():
            sources, added = self.sources(crate)
            count += sum(len(it.templates) for it in sources.values())
            for path, it in sources.items():
                with self.subTest(str(path)):
                    self.assertEqual(it.named - added, set())
        self.assertGreater(count, MANY_TEMPLATES)

    def test_cells_of_the_text_form_are_named(self):
        """A cell that the text form alone has is in a template of its crate."""
        count = 0
        for crate in row_crates():
            sources, _ = self.sources(crate)
            named = set().union(*(it.named for it in sources.values()))
            count += sum(len(it.text_alone) for it in sources.values())
            for path, it in sources.items():
                with self.subTest(str(path)):
                    self.assertEqual(it.text_alone - named, set())
        self.assertGreater(count, MANY_CELLS)

    def test_forms(self):
        """What is in braces has one of the forms of a cell."""
        for crate in row_crates():
            for path, it in self.sources(crate)[0].items():
                for template in it.templates:
                    with self.subTest(str(path), template=template):
                        self.assertNotRegex(NAMED.sub("", template), "[{}]")

    def sources(self, crate):
        """The sources of a crate by path, and all cells that they add."""
        texts = texts_of(crate)
        sources = {path: source_of(text) for path, text in texts.items()}
        calls = "\n".join(map(plain, texts.values()))
        return sources, group_cells(calls, groups()).union(*(it.added for it in sources.values()))


class ReaderTest(unittest.TestCase):
    """The sources are read as they are meant."""

    def assert_read(self, text, named=(), added=(), alone=()):
        it = source_of(text)
        self.assertEqual((it.named, it.added, it.text_alone), (set(named), set(added), set(alone)))

    def test_cells(self):
        self.assert_read('out.hex("address", 1);', added=["address"])
        self.assert_read('out.text_or_null(\n    "class",\n    name);', added=["class"])
        self.assert_read('add_path(inspector, "path", object, out);', added=["path"])
        self.assert_read('out.begin_list("slots"); out.words("path", path);')

    def test_templates(self):
        self.assert_read('out.line("{one:>12} {two/ at }{three#byte}{four:<*}");', named=NAMES)
        self.assert_read('const LINE: &str = "{one}, \\\n    {two}"; // {three}', named=NAMES[:2])
        self.assert_read('out.part_if("one", "  {two}");', named=NAMES[:2])
        for text in ('format!(in alloc; "{one}")?', 'write!(f, "{one}({})", "{two}")', "'{'"):
            self.assert_read(text)

    def test_text_form(self):
        self.assert_read('out.note("one", text); out.count("two", 2);', (), NAMES[:2], NAMES[:2])
        both = 'if out.is_json() { out.hex("one", 1); } else { out.word("two", "it"); }'
        self.assert_read(both, (), NAMES[:2], ["two"])
        either = 'if found && !out.is_json() { out.hex("one", 1); } out.hex("two", 2);'
        self.assert_read(either, (), NAMES[:2], ["one"])
        rest = 'fn it() { if out.is_json() { return; } out.hex("one", 1); } out.hex("two", 2);'
        self.assert_read(rest, (), NAMES[:2], ["one"])

    def test_methods(self):
        self.assertLess(JSON_ALONE | TEXT_ALONE, row_methods())

    def test_groups(self):
        found = groups()
        self.assertEqual(found["object"], {"address", "class", "label"})
        self.assertEqual(found["slot"], {"slot"})
        self.assertLessEqual(found["object"] | found["slot"], found["add_step"])
        self.assertIn("large_frame", found["add_method_header"])
        self.assertEqual(group_cells("heap.object(it); fn add_first(out)", found), set())
        self.assertEqual(group_cells("out.object(inspector, it);", found), found["object"])


class LinesTest(LookTest):
    """The lines of every command have no names of cells."""

    def lines_about(self, path, file):
        """The command lines about an image, in the text form."""
        lines = [("census", "--by", "category"), ("census", "--dead"), ("census", "--retained")]
        lines += [("check", "--strict"), ("top", "--min", "0"), ("top", "--folded")]
        lines += [("code", "--classes"), ("code", "--unsent"), ("code", "--unimplemented")]
        lines += [("stacks",), ("dump",), ("digest",), ("check",), ("info",), ("census",)]
        lines = [(*line, path) for line in lines]
        lines += [("senders", path, "+"), ("implementors", path, "x"), ("find", path, ".")]
        lines += [("diff", path, OTHER), ("diff", OTHER, path), ("diff", path, path)]
        if not path.startswith("unreadable"):
            lines += self.lines_about_objects(Asking(Image.read(file)[0], path))
        return lines

    def lines_about_objects(self, asking):
        """The command lines about objects and classes of an image."""
        names, path = asking.answers.names, asking.path
        lines = []
        for number in range(len(names.image.objects))[:OBJECTS]:
            address = names.address(number)
            lines += [(it, path, address) for it in ("show", "why", "refs", "top", "code")]
            lines.append(("why", "--raw", path, address))
        for group in asking.answers.live_groups:
            words = as_words(group, names)
            lines += [("list", path, *words), ("list", "--dead", path, *words)]
        return lines

    def check_lines(self, lines, folder):
        """Runs command lines, with and without options that change the text."""
        takes_all = {"check", "census", "list", "show", "why", "refs", "diff", "code", "find"}
        takes_all |= {"senders", "implementors", "stacks"}
        asked = [
            (line[0], *(it for it in options if it != "--all" or line[0] in takes_all), *line[1:])
            for line in lines
            for options in OPTIONS
        ]
        for line, outcome in zip(asked, look_at_all(asked, folder)):
            with self.subTest(" ".join(line)):
                self.assertIn(outcome.status, (0, 1))
                text = (outcome.stdout + outcome.stderr).decode()
                self.assertNotRegex(text, UNKNOWN)
        return {line[0] for line in asked}

    def test_worked_images(self):
        lines = [
            line for path in PATHS for line in self.lines_about(path, (IMAGES / path).read_bytes())
        ]
        found = self.check_lines(lines, IMAGES)
        # these write an image and a page
        self.assertEqual({*COMMANDS} - found, {"mend", "explore"})

    def test_processes(self):
        file = ProcessImage().file()
        self.write("it.image", file)
        lines = [it for it in self.lines_about("it.image", file) if OTHER not in it]
        self.check_lines(lines, self.folder)
