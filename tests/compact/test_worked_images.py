"""Runs `sqzcompact` over each worked image, and checks that it becomes what its files say."""

import itertools
import re
import unittest

from tests.harness.program_checks import ProgramTest
from tests.harness.programs import SQZCOMPACT, build, program_path
from tests.harness.worked_images import (
    IMAGES,
    accepted_images,
    read_worked,
    rejected_images,
    worked_image,
    worked_paths,
)

STAGE_TIMES = program_path("sqz_dev_stage_times")


def folder_of(worked):
    """The folder of an image that is treated alike under `--clear-weak`."""
    if worked.fault is None:
        return "accepted"
    number = int(re.match(rb"fault (\d+):", worked.fault)[1])
    return "unreadable" if number <= 10 else "defects"


class FoldersTest(unittest.TestCase):
    """Each worked image is in the folder of its outcome, and has the files of one outcome."""

    def test_each_image_is_in_the_folder_of_its_outcome(self):
        for path in worked_paths():
            kept, cleared = read_worked(path), read_worked(path, clear_weak=True)
            if path.parent.name != "weak":
                self.assertEqual(path.parent.name, folder_of(kept), path)
                self.assertEqual(kept, cleared, path)

    def test_each_image_has_one_outcome(self):
        for path in worked_paths():
            for it in (read_worked(path), read_worked(path, clear_weak=True)):
                self.assertNotEqual(it.answer is None, it.fault is None, path)

    def test_each_file_belongs_to_an_image(self):
        images = {path.with_suffix("") for path in worked_paths()}
        self.assertEqual(len({path.name for path in images}), len(images))
        for folder in ("accepted", "unreadable", "defects", "weak"):
            files = (IMAGES / folder).iterdir()
            self.assertLessEqual(
                {path.with_name(path.name.split(".")[0]) for path in files}, images
            )


class WorkedImagesTest(ProgramTest):
    """Each worked image becomes what its files say, by several plans."""

    def test_compacts_each_image(self):
        for it in accepted_images():
            with self.subTest(image=it.name):
                self.check_compaction(it.image, it.answer)

    def test_compacts_each_answer_to_itself(self):
        for it in accepted_images():
            with self.subTest(image=it.name):
                plan = ("--workers", "1", "--region-words", "3")
                self.check_compaction(it.answer, it.answer, *plan)

    def test_prints_the_census_of_each_image(self):
        plans = ((), ("--workers", "1"), ("--workers", "64"), ("--region-words", "1"))
        for it, plan in itertools.product(accepted_images(), plans):
            if it.census:
                with self.subTest(image=it.name, plan=plan):
                    self.check_compaction(it.image, it.answer, "--census", *plan, census=it.census)

    def test_rejects_each_bad_image_and_leaves_out_untouched(self):
        for it in rejected_images():
            with self.subTest(image=it.name):
                self.check_rejection(it.image, it.fault)

    def test_rejects_each_bad_image_and_creates_no_out(self):
        for it in rejected_images():
            with self.subTest(image=it.name):
                self.write("in", it.image)
                self.assert_rejected(self.run_here(SQZCOMPACT, "in", "new"), it.fault)
                self.assert_missing("new")

    def test_rejects_each_bad_image_and_prints_no_census(self):
        for it in rejected_images():
            with self.subTest(image=it.name):
                self.check_rejection(it.image, it.fault, "--census")


class ClearedWorkedImagesTest(ProgramTest):
    """Each worked image becomes what its files say if weak references are cleared."""

    def test_compacts_each_image(self):
        for it in accepted_images(clear_weak=True):
            with self.subTest(image=it.name):
                self.check_compaction(it.image, it.answer, "--clear-weak")

    def test_compacts_each_answer_to_itself(self):
        for it in accepted_images(clear_weak=True):
            with self.subTest(image=it.name):
                self.check_compaction(it.answer, it.answer, "--clear-weak", "--workers", "1")

    def test_prints_the_census_of_each_image(self):
        for it in accepted_images(clear_weak=True):
            if it.census:
                with self.subTest(image=it.name):
                    options = ("--census", "--clear-weak")
                    self.check_compaction(it.image, it.answer, *options, census=it.census)

    def test_rejects_each_bad_image(self):
        for it in rejected_images(clear_weak=True):
            with self.subTest(image=it.name):
                self.check_rejection(it.image, it.fault, "--clear-weak")


class StageTimesTest(ProgramTest):
    """The program that times the stages of a run writes the same OUT in each of its runs."""

    @classmethod
    def setUpClass(cls):
        super().setUpClass()
        build("sqz_dev_stage_times")

    def test_writes_a_dozen_classes(self):
        self.check_times(worked_image("dozen_classes"))

    def test_writes_a_cleared_weak_array(self):
        self.check_times(worked_image("weak_array", clear_weak=True), "--clear-weak")

    def check_times(self, worked, *options):
        self.write("in", worked.image)
        self.assertEqual(self.run_here(STAGE_TIMES, *options, "in", "out").status, 0)
        self.assert_holds("out", worked.answer)
