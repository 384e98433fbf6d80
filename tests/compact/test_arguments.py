"""Runs `sqzcompact` with arguments of all kinds, and both programs by the scripts that build them
first."""

import os
import re
import shutil
import sys

from tests.harness.outcomes import SUCCESS, Outcome
from tests.harness.programs import ROOT, run
from tests.harness.worked_images import DeadArrayTest, worked_image


class ArgumentsTest(DeadArrayTest):
    """Wrong arguments end with exit 2, and OUT is not created."""

    def test_explains_wrong_words(self):
        for name, words in {
            "no output": ("in",),
            "a third word": ("in", "out", "more"),
            "workers that are no number": ("in", "out", "--workers", "x"),
            "workers above 32 bits": ("in", "out", "--workers", "4294967296"),
            "workers without a number": ("in", "out", "--workers"),
            "words of a region that are no number": ("in", "out", "--region-words", "x"),
            "words of a region without a number": ("in", "out", "--region-words"),
            "a value for a flag": ("in", "out", "--clear-weak=1"),
            "an unknown option": ("in", "out", "--count"),
        }.items():
            with self.subTest(name):
                self.assert_explained(self.compact(*words))
                self.assert_missing()

    def test_rejects_words_that_are_no_text(self):
        for words in ((b"in\xff", "out"), ("in", b"out\xff"), ("in", "out", b"\xff")):
            with self.subTest(words=words):
                line = b"error: an argument is not valid text\n"
                self.assert_ends(self.compact(*words), Outcome(2, stderr=line))
                self.assertEqual(os.listdir(self.folder), ["in"])

    def test_rejects_a_number_of_workers_out_of_range(self):
        line = b"fault 18: workers must be from 1 to 64\n"
        for words in (
            ("--workers", "0"),
            ("--workers", "65", "--census"),
            ("--region-words", "0", "--workers", "0"),
        ):
            with self.subTest(words=words):
                self.assert_number_rejected(line, *words)

    def test_rejects_a_number_of_words_out_of_range(self):
        line = b"fault 19: region cut is not valid\n"
        for words in (("--region-words", "0"), ("--region-words", "1073741825", "--census")):
            with self.subTest(words=words):
                self.assert_number_rejected(line, *words)

    def test_takes_the_largest_numbers(self):
        self.check_run(self.worked.answer, "--workers", "64", "--region-words", "1073741824")

    def test_help_has_a_line_for_each_option_with_its_default(self):
        outcome = self.compact("--help")
        self.assert_quiet(outcome)
        for line in (
            rb"^ *--workers <N> .*\[default: 4\]$",
            rb"^ *--region-words <N> .*\[default: 65536\]$",
            rb"^ *--census ",
            rb"^ *--clear-weak .*Clear weak references to objects that nothing else keeps",
        ):
            self.assertRegex(outcome.stdout, re.compile(line, re.MULTILINE))

    def test_version_is_one_line(self):
        outcome = self.compact("--version")
        self.assertRegex(self.printed_by(outcome), rb"\Asqzcompact \d+\.\d+\.\d+\n\Z")

    def assert_number_rejected(self, line, *options):
        """Checks that the options are rejected, whether or not IN exists."""
        for source in ("missing", "in"):
            self.assert_ends(self.compact(*options, source, "out"), Outcome(2, stderr=line))
        self.assert_missing()


class LaunchersTest(DeadArrayTest):
    """The scripts at the top of the repository pass on their words, files and exits."""

    def test_sqzcompact_compacts(self):
        outcome = run(ROOT / "sqzcompact", ["--census", "in", "out file"], folder=self.folder)
        self.assert_ends(outcome, Outcome(0, stdout=self.worked.census))
        self.assert_holds("out file", self.worked.answer)

    def test_sqzcompact_reads_standard_input(self):
        words = ["/dev/stdin", "out"]
        outcome = run(ROOT / "sqzcompact", words, stdin=self.worked.image, folder=self.folder)
        self.assert_ends(outcome, SUCCESS)
        self.assert_holds("out", self.worked.answer)

    def test_sqzcompact_rejects(self):
        it = worked_image("no_class")
        self.write("in", it.image)
        self.put_old()
        self.assert_rejected(run(ROOT / "sqzcompact", ["in", "out"], folder=self.folder), it.fault)
        self.assert_untouched()

    def test_build_needs_the_toolchain(self):
        for name in ("build", "crates.txt", "sqzcompact"):
            shutil.copy2(ROOT / name, self.folder)
        self.assert_needs_the_toolchain("sqzcompact", ["in", "out"], b"build")

    def test_check_needs_the_toolchain(self):
        shutil.copy2(ROOT / "check", self.folder)
        self.assert_needs_the_toolchain("check", [], b"check")

    def test_sqzlook_tells_its_version(self):
        outcome = run(ROOT / "sqzlook", ["--version"], folder=self.folder)
        self.assertRegex(self.printed_by(outcome), rb"\Asqzlook \d+\.\d+\.\d+\n\Z")

    def assert_needs_the_toolchain(self, script, words, name):
        """Checks that a copy of a script prints one line, with this name, if there is no `rt`."""
        path = self.folder / "bin"
        path.mkdir()
        (path / "python3").symlink_to(sys.executable)
        for tool in ("bash", "basename", "dirname", "readlink"):
            (path / tool).symlink_to(shutil.which(tool))
        how = {"env": {"PATH": str(path)}, "folder": self.folder}
        outcome = run(self.folder / script, words, **how)
        line = name + b": rt not found; see Install in README.md\n"
        self.assert_ends(outcome, Outcome(70, stderr=line))
