"""The base of tests that ask `sqzlook` about the image whose contents they know: that of Debian's
package `scratch`."""

import functools

from tests.harness.json_rows import rows_of
from tests.harness.look_checks import Asking, LookTest
from tests.harness.saved_image import SavedImageTest
from tests.harness.sqzlook import look

NAME = "Scratch.image"


@functools.cache
def answers_about(image):
    """The answers about an image, which take seconds to find."""
    return Asking(image, NAME).answers


class KnownImageTest(SavedImageTest, LookTest):
    """A test on the known image, which is in the file `Scratch.image`."""

    @classmethod
    def setUpClass(cls):
        super().setUpClass()
        if cls.path is not None:
            cls.answers = answers_about(cls.image)
            cls.names = cls.answers.names

    def setUp(self):
        super().setUp()
        self.require_known()
        self.write(NAME, self.path.read_bytes())

    def printed(self, command, *words):
        """What a command prints about the image."""
        return self.printed_by(look(command, NAME, *words, folder=self.folder))

    def rows(self, command, *words):
        return rows_of(self.printed(command, "--json", *words))

    def methods(self):
        numbers = range(len(self.image.objects))
        return [it for it in numbers if self.names.class_name(it) == "CompiledMethod"]
