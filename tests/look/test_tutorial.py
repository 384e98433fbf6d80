"""Runs the commands of docs/TUTORIAL.md and README.md on the image of Debian's package `scratch`,
and compares what they print with what the pages show."""

import os
import re
import typing

from tests.harness.programs import ROOT, SQZCOMPACT, SQZLOOK, run
from tests.harness.squeak_image import SqueakImageTest, is_known

NAME = "Scratch.image"
BLOCK = re.compile(r"^```console\n(.*?)^```$", re.MULTILINE | re.DOTALL)
PROMPT = "$ "


class Step(typing.NamedTuple):
    """A command of a page, and what it prints there, on standard output and standard error."""

    command: str
    printed: str


def steps_of(text):
    """The commands in the `console` blocks of a page, in order. Each goes from a line with a prompt
    to the next one or to the end of its block."""
    for block in BLOCK.findall(text):
        for part in re.split(rf"^{re.escape(PROMPT)}", block, flags=re.MULTILINE)[1:]:
            command, _, printed = part.partition("\n")
            yield Step(command, printed)


class PagesTest(SqueakImageTest):
    """Each page is a session of its own, in a folder with the image."""

    def setUp(self):
        super().setUp()
        file = self.path.read_bytes()
        if not is_known(file):
            self.skipTest("not the image of the package")
        self.write(NAME, file)
        programs = os.pathsep.join(str(it.parent) for it in (SQZCOMPACT, SQZLOOK))
        self.env = {"PATH": programs + os.pathsep + os.environ["PATH"], "LC_ALL": "C.UTF-8"}

    def printed_in_shell(self, command):
        words = ["-c", f"exec 2>&1; {command}"]
        return run("bash", words, env=self.env, folder=self.folder).stdout.decode()

    def check_page(self, name):
        steps = list(steps_of((ROOT / name).read_text(encoding="utf-8")))
        self.assertTrue(steps)
        for step in steps:
            with self.subTest(step.command):
                self.assertEqual(self.printed_in_shell(step.command), step.printed)

    def test_tutorial(self):
        self.check_page("docs/TUTORIAL.md")

    def test_readme(self):
        self.check_page("README.md")
