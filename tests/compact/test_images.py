"""Compares the worked images in images/ with what `sqz_dev_write_images` writes from its constants.

Some images are kept as files: they are too large to be read as constants."""

from tests.harness.outcomes import SUCCESS
from tests.harness.program_checks import ProgramTest
from tests.harness.programs import build, program_path
from tests.harness.worked_images import IMAGES, bytes_at

WRITE_IMAGES = program_path("sqz_dev_write_images")
FOLDERS = ("accepted", "unreadable", "defects", "weak")
# The files that are not written.
KEPT = {f"dozen_classes{ending}" for ending in (".image", ".out.image", ".census")}


def names_in(folder):
    return {path.name for path in folder.iterdir()}


class WrittenImagesTest(ProgramTest):
    """The program writes each file of images/ but those that are kept, byte for byte, and no
    other."""

    @classmethod
    def setUpClass(cls):
        super().setUpClass()
        build("sqz_dev_write_images")

    def test_writes_each_file(self):
        for name in FOLDERS:
            (self.folder / name).mkdir()
        self.assert_ends(self.run_here(WRITE_IMAGES, "."), SUCCESS)
        for name in FOLDERS:
            self.check_folder(self.folder / name, IMAGES / name)

    def check_folder(self, written, committed):
        for name in sorted(names_in(written) | names_in(committed)):
            with self.subTest(folder=committed.name, file=name):
                found = bytes_at((committed if name in KEPT else written) / name)
                self.assertEqual(found, bytes_at(committed / name))
                self.assertEqual(name in KEPT, name not in names_in(written))
