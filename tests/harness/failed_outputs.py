"""Outputs that cannot be written, and the tests of what programs do about them."""

import contextlib
import os

from tests.harness.programs import SQZLOOK


@contextlib.contextmanager
def closed_pipe():
    """The end of a pipe that nobody reads."""
    reader, writer = os.pipe()
    os.close(reader)
    with os.fdopen(writer, "wb") as pipe:
        yield pipe


def full_device():
    """A device on which each write fails."""
    return open("/dev/full", "wb")


class FailedOutputs:
    """Two tests for a case that has command lines of `sqzlook`, each of which prints something."""

    command_lines = ()

    def test_closed_pipe(self):
        """A closed pipe ends the program quietly."""
        for words in self.command_lines:
            with self.subTest(words=words), closed_pipe() as pipe:
                outcome = self.run_here(SQZLOOK, *words, stdout=pipe)
                self.assert_quiet(outcome)

    def test_full_device(self):
        """A full device ends the program with a message."""
        for words in self.command_lines:
            with self.subTest(words=words), full_device() as full:
                outcome = self.run_here(SQZLOOK, *words, stdout=full)
                self.assertEqual(outcome.status, 3)
                self.assertRegex(outcome.stderr, rb"\Asqzlook: .+\n\Z")
