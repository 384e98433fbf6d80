"""Runs `bench/stock`, the algorithm of `sqzcompact` in stock Rust: it writes what `sqzcompact`
writes, and rejects the same images."""

import subprocess

from bench.images import MIB, PARTS, make_image
from bench.stock_program import STOCK, build_stock, has_cargo, run_cargo
from tests.harness.outcomes import SUCCESS, Outcome
from tests.harness.program_checks import ProgramTest
from tests.harness.programs import SQZCOMPACT
from tests.harness.squeak_image import SqueakImageTest
from tests.harness.worked_images import accepted_images, rejected_images
from tests.reference.file_format import PREFIX
from tests.reference.image import Image

PLANS = (("--workers", "1"), (), ("--workers", "64"))
USAGE = b"usage: sqzstock [--workers N] [--times] IN OUT\n"


class StockTest(ProgramTest):
    """A test of the program. It is skipped without `cargo`, which builds it."""

    @classmethod
    def setUpClass(cls):
        super().setUpClass()
        if has_cargo():
            build_stock()

    def setUp(self):
        super().setUp()
        if not has_cargo():
            self.skipTest("no cargo")

    def check_stock(self, answer, *plan):
        """Compacts the file `in`, and checks what is written."""
        self.assert_ends(self.run_here(STOCK, *plan, "in", "stock"), SUCCESS)
        self.assert_holds("stock", answer)

    def check_alike(self, file):
        """Compacts a file, and checks that `sqzcompact` writes the same."""
        self.write("in", file)
        self.assert_ends(self.run_here(SQZCOMPACT, "in", "out"), SUCCESS)
        for plan in PLANS:
            self.check_stock(self.read("out"), *plan)


class StockFilesTest(StockTest):
    def test_compacts_each_worked_image(self):
        for it in accepted_images():
            with self.subTest(image=it.name):
                self.write("in", it.image)
                for plan in PLANS:
                    self.check_stock(it.answer, *plan)

    def test_compacts_each_answer_to_itself(self):
        for it in accepted_images():
            with self.subTest(image=it.name):
                self.write("in", it.answer)
                self.check_stock(it.answer)

    def test_rejects_each_bad_image(self):
        for it in rejected_images():
            with self.subTest(image=it.name):
                self.write("in", it.image)
                self.put_old("stock")
                self.assert_rejected(self.run_here(STOCK, "in", "stock"), it.fault)
                self.assert_untouched("stock")

    def test_writes_what_sqzcompact_writes(self):
        path = self.folder / "generated"
        for part in PARTS:
            make_image(path, MIB, part)
            file = path.read_bytes()
            for order, swapped in (("little", file), ("big", in_other_order(file))):
                with self.subTest(part=part, order=order):
                    self.check_alike(swapped)

    def test_explains_wrong_words(self):
        for words in (("in",), ("in", "out", "more"), ("in", "out", "--workers", "x")):
            with self.subTest(words=words):
                self.assert_ends(self.run_here(STOCK, *words), Outcome(1, stderr=USAGE))
                self.assert_missing()

    def test_takes_each_object_from_its_deque_once(self):
        ended = run_cargo("test", stdout=subprocess.PIPE)
        self.assertEqual(ended.returncode, 0, ended.stdout)


class StockRealImageTest(StockTest, SqueakImageTest):
    def test_writes_what_sqzcompact_writes(self):
        self.check_alike(self.path.read_bytes())


def in_other_order(file):
    """The file of an image as a machine of the other byte order saves it, after 512 bytes."""
    return Image.read(file)[0].in_other_order().file(PREFIX)
