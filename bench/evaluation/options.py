"""What an evaluation works with."""

import pathlib
import typing

from bench.compare import apart
from bench.images import MIB, make_image
from bench.stages import swap_words

# What the generated images are called in tables.
NAMES = {
    "1 MiB": "arrays, pointers up to a MiB away",
    "anywhere": "arrays, pointers anywhere",
    "mixed": "objects of all kinds",
    "fitted": "fitted to a real image",
}


class Options(typing.NamedTuple):
    """The runs of each program, the size of generated images in MiB, the path of a real image if
    there is one, and a folder for generated ones."""

    runs: int
    mib: int
    image: pathlib.Path | None
    folder: pathlib.Path

    def generated(self, part, is_swapped=False):
        """The path of a generated image of this part, in the other byte order if `is_swapped`."""
        path = self.folder / f"{part}{' swapped' * is_swapped}.image"
        if not path.exists():
            apart(make_image, path, self.mib * MIB, part)
            if is_swapped:
                swap_words(path)
        return path
