"""Runs `sqzcompact` over files, pipes, devices and paths of all kinds."""

import os
import shutil
import stat
import subprocess

from tests.harness.failed_outputs import full_device
from tests.harness.outcomes import NOT_READ, NOT_WRITTEN, SUCCESS, Outcome
from tests.harness.programs import SQZCOMPACT, Limits
from tests.harness.worked_images import DeadArrayTest, worked_image
from tests.making.large_images import byte_object

# The user `nobody`, whom the modes of files bind.
NOBODY = 65534
KIB = 1 << 10
MIB = 1 << 20


class OutputsTest(DeadArrayTest):
    """Where OUT and the class histogram go."""

    def test_compacts_in_place(self):
        for workers in ("1", "2", "64"):
            with self.subTest(workers=workers):
                self.write("both", self.worked.image)
                self.assert_ends(self.compact("--workers", workers, "both", "both"), SUCCESS)
                self.assert_holds("both", self.worked.answer)

    def test_compacts_in_place_after_512_bytes(self):
        worked = worked_image("behind_512_bytes")
        self.write("both", worked.image)
        self.assert_ends(self.compact("both", "both"), SUCCESS)
        self.assert_holds("both", worked.answer)

    def test_prints_a_census_in_place(self):
        outcome = self.compact("--census", "in", "in")
        self.assert_ends(outcome, Outcome(0, stdout=self.worked.census))
        self.assert_holds("in", self.worked.answer)

    def test_truncates_an_old_file(self):
        self.write("out", bytes(100_000))
        self.assert_ends(self.compact("in", "out"), SUCCESS)
        self.assert_holds("out", self.worked.answer)

    def test_takes_options_after_the_files(self):
        outcome = self.compact("in", "out", "--region-words=1", "--workers=2", "--census")
        self.assert_ends(outcome, Outcome(0, stdout=self.worked.census))
        self.assert_holds("out", self.worked.answer)

    def test_keeps_the_mode_of_an_old_file(self):
        self.put_old()
        (self.folder / "out").chmod(0o640)
        self.check_run(self.worked.answer)
        self.assert_mode("out", 0o640)

    def test_gives_a_new_file_the_mode_of_new_files(self):
        self.addCleanup(os.umask, os.umask(0o027))
        self.check_run(self.worked.answer)
        self.assert_mode("out", 0o640)

    def test_reports_an_output_in_a_missing_folder(self):
        self.assert_ends(self.compact("in", "missing/out"), NOT_WRITTEN)

    def test_reports_a_full_device(self):
        self.assert_ends(self.compact("in", "/dev/full"), NOT_WRITTEN)

    def test_reports_a_full_device_for_the_census_after_out_is_written(self):
        with full_device() as full:
            outcome = self.compact("--census", "in", "out", stdout=full)
        self.assert_ends(outcome, NOT_WRITTEN)
        self.assert_holds("out", self.worked.answer)

    def test_reports_a_limit_on_the_size_of_files(self):
        # the data are one block of 64 KiB, so that the limit cuts the last write short
        image = byte_object(64 * KIB - 28).image
        self.write("in", image)
        limits = Limits(file_size=64 * KIB)
        self.assert_ends(self.compact("in", "out", limits=limits), NOT_WRITTEN)
        self.assert_holds("out", image[: 64 * KIB])

    def assert_mode(self, name, mode):
        self.assertEqual(stat.S_IMODE((self.folder / name).stat().st_mode), mode)


class InputsTest(DeadArrayTest):
    """Where IN comes from."""

    def test_reports_a_missing_input(self):
        self.assert_ends(self.compact("missing", "out"), NOT_READ)
        self.assert_missing()

    def test_reports_a_folder_as_input(self):
        self.assert_ends(self.compact(".", "out"), NOT_READ)
        self.assert_missing()

    def test_leaves_an_old_file_if_the_input_is_a_folder(self):
        self.put_old()
        self.assert_ends(self.compact(".", "out"), NOT_READ)
        self.assert_untouched()

    def test_compacts_from_a_named_pipe(self):
        self.check_named_pipe(self.worked.image, self.worked.answer)

    def test_compacts_2_mib_from_a_named_pipe(self):
        image = byte_object(2 * MIB).image
        self.check_named_pipe(image, image)

    def test_compacts_between_pipes(self):
        outcome = self.compact("/dev/stdin", "/dev/stdout", stdin=self.worked.image)
        self.assert_ends(outcome, Outcome(0, stdout=self.worked.answer))

    def check_named_pipe(self, image, answer):
        self.write("source", image)
        os.mkfifo(self.folder / "pipe")
        with subprocess.Popen(["sh", "-c", "cat source >pipe"], cwd=self.folder) as writer:
            self.addCleanup(writer.kill)
            self.assert_ends(self.compact("pipe", "out"), SUCCESS)
        self.assert_holds("out", answer)


class RightsTest(DeadArrayTest):
    """Runs without the right to read IN, or to write OUT."""

    def setUp(self):
        super().setUp()
        self.limits = Limits(user=NOBODY) if os.geteuid() == 0 else Limits()
        self.folder.chmod(0o711)
        self.program = self.folder / "program"
        shutil.copy(SQZCOMPACT, self.program)
        try:
            self.run_here(self.program, "--help", limits=self.limits)
        except subprocess.SubprocessError:
            self.skipTest("cannot run as a user without rights")

    def test_reports_an_input_without_the_right_to_read_it(self):
        (self.folder / "in").chmod(0)
        self.assert_ends(self.run_here(self.program, "in", "out", limits=self.limits), NOT_READ)
        self.assert_missing()

    def test_reports_an_output_without_the_right_to_write_it(self):
        self.put_old()
        (self.folder / "out").chmod(0o400)
        (self.folder / "in").chmod(0o444)
        self.assert_ends(self.run_here(self.program, "in", "out", limits=self.limits), NOT_WRITTEN)
        (self.folder / "out").chmod(0o600)
        self.assert_untouched()


class SpacedPathsTest(DeadArrayTest):
    """A path with spaces, tabs or line ends refers to that file, not to the one without them."""

    def test_reads_the_path_as_given(self):
        other = worked_image("dead_cycle").image
        for path in ("in ", " in", "in\n", "\tin"):
            with self.subTest(path=path):
                self.write("in", other)
                self.write(path, self.worked.image)
                self.assert_ends(self.compact(path, "out"), SUCCESS)
                self.assert_holds("out", self.worked.answer)
                self.assert_holds("in", other)

    def test_misses_the_path_as_given(self):
        for path in ("in ", " in", "in\n", "\tin"):
            with self.subTest(path=path):
                self.assert_ends(self.compact(path, "out"), NOT_READ)
                self.assert_missing()

    def test_writes_the_path_as_given(self):
        for path in ("out ", " out", "out\n", "\tout"):
            with self.subTest(path=path):
                self.put_old()
                self.assert_ends(self.compact("in", path), SUCCESS)
                self.assert_holds(path, self.worked.answer)
                self.assert_untouched()

    def test_creates_the_path_as_given_alone(self):
        for path in ("out ", " out", "out\n", "\tout"):
            with self.subTest(path=path):
                self.assert_ends(self.compact("in", path), SUCCESS)
                self.assert_holds(path, self.worked.answer)
                self.assert_missing("out")
