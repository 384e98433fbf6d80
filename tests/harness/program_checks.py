"""The base of tests that run programs: checks how a run ended and what it wrote."""

import pathlib
import tempfile
import unittest

from tests.harness.outcomes import Outcome
from tests.harness.programs import SQZCOMPACT, build, run

# What stands in OUT before a run.
OLD = b"as it was\n"


class ProgramTest(unittest.TestCase):
    """A test with a folder of its own, in which it runs the programs."""

    @classmethod
    def setUpClass(cls):
        super().setUpClass()
        build("sqzcompact", "sqzlook")

    def setUp(self):
        super().setUp()
        folder = tempfile.TemporaryDirectory()
        self.addCleanup(folder.cleanup)
        self.folder = pathlib.Path(folder.name)

    def write(self, name, data):
        (self.folder / name).write_bytes(data)

    def read(self, name):
        return (self.folder / name).read_bytes()

    def run_here(self, program, *args, **how):
        """Runs a program in the folder of this test."""
        return run(program, args, folder=self.folder, **how)

    def assert_ends(self, outcome, expected):
        """Checks the exit of a run and all that it printed."""
        if outcome != expected:
            self.fail(f"ended with {outcome}; expected: {expected}")

    def assert_quiet(self, outcome, status=0):
        """Checks for an exit without a message."""
        self.assertEqual((outcome.status, outcome.stderr), (status, b""))

    def printed_by(self, outcome, status=0):
        """What was printed by a run that must end without a message."""
        self.assert_quiet(outcome, status)
        return outcome.stdout

    def assert_rejected(self, outcome, line):
        """Checks that a run rejected the image with this line alone."""
        self.assert_ends(outcome, Outcome(1, stderr=line))

    def assert_explained(self, outcome):
        """Checks for exit 2, and a message that is not the line of a fault."""
        self.assertEqual((outcome.status, outcome.stdout), (2, b""))
        self.assertRegex(outcome.stderr, rb"\A(?!fault).")
        self.assertNotIn(b"\nfault", outcome.stderr)

    def assert_holds(self, name, data):
        """Checks that a file of the folder holds these bytes."""
        found = self.read(name)
        if found != data:
            pairs = enumerate(zip(found, data))
            at = next(
                (at for at, (one, other) in pairs if one != other), min(len(found), len(data))
            )
            self.fail(f"{name} differs at byte {at}; {len(found)} bytes, expected: {len(data)}")

    def assert_untouched(self, name="out"):
        """Checks that a file still holds what `put_old` wrote."""
        self.assert_holds(name, OLD)

    def assert_missing(self, name="out"):
        """Checks that the folder has no such file."""
        self.assertFalse((self.folder / name).exists(), f"{name} was created")

    def put_old(self, name="out"):
        """Writes the file that a run must leave untouched, or must replace."""
        self.write(name, OLD)

    def check_run(self, answer, *options, census=b"", **how):
        """Compacts the file `in`, and checks what is printed and written to `out`."""
        outcome = self.run_here(SQZCOMPACT, *options, "in", "out", **how)
        self.assert_ends(outcome, Outcome(0, stdout=census))
        self.assert_holds("out", answer)

    def check_compaction(self, image, answer, *options, census=b"", **how):
        """Compacts the file of an image to a new file, as `check_run` does."""
        self.write("in", image)
        (self.folder / "out").unlink(missing_ok=True)
        self.check_run(answer, *options, census=census, **how)

    def check_rejection(self, image, line, *options):
        """Checks that the file of an image is rejected with this line, and OUT untouched."""
        self.write("in", image)
        self.put_old()
        self.assert_rejected(self.run_here(SQZCOMPACT, *options, "in", "out"), line)
        self.assert_untouched()
