"""Runs `sqzlook` with arguments of all kinds."""

from tests.harness.outcomes import Outcome
from tests.harness.sqzlook import COMMANDS, look
from tests.harness.worked_images import DeadArrayTest


class LookArgumentsTest(DeadArrayTest):
    """Wrong arguments of `sqzlook` end with exit 2, and nothing on standard output."""

    def look(self, *words, **how):
        return look(*words, folder=self.folder, **how)

    def test_explains_wrong_words(self):
        for name, words in {
            "no command": (),
            "an unknown command": ("look", "in"),
            "an image in place of a command": ("in",),
            "an option of another program": ("info", "--workers", "1", "in"),
            "a value for a flag": ("info", "--json=1", "in"),
            "three images": ("diff", "in", "in", "in"),
            "what dead objects retain": ("census", "--dead", "--retained", "in"),
            "no object": ("show", "in"),
            "no class": ("list", "in"),
            "no order": ("list", "--by", "name", "in", "Point"),
            "no group": ("census", "--by", "retained", "in"),
            "what categories retain": ("census", "--by", "category", "--retained", "in"),
            "a tree of groups": ("top", "--by", "class", "in"),
        }.items():
            with self.subTest(name):
                outcome = self.look(*words)
                self.assert_explained(outcome)
                if words:
                    self.assertTrue(outcome.stderr.startswith(b"sqzlook: "))

    def test_each_command_needs_an_image(self):
        for command in COMMANDS:
            with self.subTest(command):
                self.assert_explained(self.look(command))

    def test_rejects_words_that_are_no_text(self):
        for words in ((b"info\xff", "in"), ("info", b"in\xff"), ("show", "in", b"\xff")):
            with self.subTest(words=words):
                line = b"sqzlook: error: an argument is not valid text\n"
                self.assert_ends(self.look(*words), Outcome(2, stderr=line))

    def test_takes_options_before_and_after_the_image(self):
        outcomes = {
            self.look("info", "--json", "--clear-weak", "in"),
            self.look("info", "in", "--clear-weak", "--json"),
        }
        self.assertEqual({(it.status, it.stderr) for it in outcomes}, {(0, b"")})
        self.assertEqual(len(outcomes), 1)

    def test_names_a_file_that_is_missing(self):
        for words in (("info",), ("census",), ("show", "1000"), ("list", "Point")):
            command, *rest = words
            with self.subTest(command):
                message = (
                    b"sqzlook: missing: fault 16: cannot read the image: no such file\n"
                )
                outcome = self.look(command, "missing", *rest)
                self.assert_ends(outcome, Outcome(3, stderr=message))

    def test_says_why_a_file_cannot_be_read(self):
        (self.folder / "folder").mkdir()
        text = b"fault 16: cannot read the image: it is a directory\n"
        shown = self.look("show", "folder", "1000")
        self.assert_ends(shown, Outcome(3, stderr=b"sqzlook: folder: " + text))
        self.assert_ends(self.look("check", "folder"), Outcome(3, stdout=b"folder: " + text))

    def test_several_objects(self):
        """Words after `--` and lines of standard input stand for an object each."""
        names = ["1000", "special objects array", "compact 1 00001000"]
        for command in ("show", "why", "refs"):
            with self.subTest(command):
                one_each = [self.look(command, "in", name).stdout for name in names]
                wanted = Outcome(0, stdout=b"\n".join(one_each))
                lines = "\n".join([names[0], "", *names[1:]]).encode()
                self.assert_ends(self.look(command, "in", "--", *names), wanted)
                self.assert_ends(self.look(command, "in", names[0], "--", *names[1:]), wanted)
                self.assert_ends(self.look(command, "in", "-", stdin=lines), wanted)
                rows = [self.look(command, "--json", "in", name).stdout for name in names]
                outcome = self.look(command, "-", "in", "--json", stdin=lines)
                self.assert_ends(outcome, Outcome(0, stdout=b"".join(rows)))

    def test_one_of_several_objects_is_missing(self):
        one = self.look("why", "in", "1000")
        outcome = self.look("why", "in", "--", "Foo", "1000", "1234")
        self.assertEqual((outcome.status, outcome.stdout), (1, one.stdout))
        first, second = outcome.stderr.decode().splitlines()
        self.assertEqual(first, "sqzlook: in: no object is named Foo")
        self.assertTrue(second.startswith("sqzlook: in: no object at 00001234: "))

    def test_lines_that_are_no_text(self):
        message = b"sqzlook: cannot read objects from standard input\n"
        outcome = self.look("why", "in", "-", stdin=b"1000\n\xff\n")
        self.assert_ends(outcome, Outcome(3, stderr=message))
