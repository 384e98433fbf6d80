"""The base of tests on the image that Squeak saved, which is parsed once."""

import functools
import gc
import random
import typing

from tests.harness.squeak_image import SqueakImageTest, is_known
from tests.making.seed import SEED
from tests.reference.image import Image


class Saved(typing.NamedTuple):
    """The image in a file, the bytes after its data, and the image without its dead objects."""

    image: Image
    rest: bytes
    compacted: Image


@functools.cache
def load(path):
    """The image in a file, which takes seconds to parse."""
    image, rest = Image.read(path.read_bytes())
    return Saved(image, rest, image.compacted())


class SavedImageTest(SqueakImageTest):
    """A test on the image that Squeak saved. `image` has no dead objects, `saved` has all."""

    @classmethod
    def setUpClass(cls):
        super().setUpClass()
        # There are millions of small tuples, and no cycles.
        gc.disable()
        cls.addClassCleanup(gc.enable)
        if cls.path is not None:
            cls.saved = load(cls.path)
            cls.image = cls.saved.compacted

    def setUp(self):
        super().setUp()
        self.generator = random.Random(SEED)

    def require_known(self):
        """Skips the test if the image is not the one whose contents the tests know."""
        if not is_known(self.path.read_bytes()):
            self.skipTest("not the image of the package")

    def sample(self, items, count):
        """`count` of these items, or all of them if there are not more."""
        return self.generator.sample(items, min(len(items), count))
