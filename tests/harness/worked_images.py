"""The worked images of images/, and what is expected of each."""

import dataclasses

from tests.harness.program_checks import ProgramTest
from tests.harness.programs import ROOT, SQZCOMPACT

IMAGES = ROOT / "images"
# The end of the name of an expected OUT.
OUT = ".out.image"


@dataclasses.dataclass(frozen=True)
class WorkedImage:
    """The file of an image, and its compaction and class histogram, or the line that rejects it."""

    name: str
    image: bytes
    answer: bytes | None
    census: bytes | None
    fault: bytes | None


def bytes_at(path):
    """The bytes of a file, if it exists."""
    return path.read_bytes() if path.exists() else None


def read_worked(path, clear_weak=False):
    """The worked image at this path, and what is expected if weak references are cleared or not."""
    stem = path.with_suffix("")
    cleared = stem.with_name(f"{stem.name}.cleared")
    differs = any(cleared.with_name(cleared.name + end).exists() for end in (OUT, ".fault"))
    expected = cleared if clear_weak and differs else stem
    parts = (
        bytes_at(expected.with_name(expected.name + end)) for end in (OUT, ".census", ".fault")
    )
    return WorkedImage(stem.name, path.read_bytes(), *parts)


def worked_paths():
    """The paths of all worked images."""
    return sorted(path for path in IMAGES.glob("*/*.image") if not path.name.endswith(OUT))


def readable_paths():
    """The paths of all images that can be read, compacted ones among them."""
    return sorted(path for path in IMAGES.glob("*/*.image") if path.parent.name != "unreadable")


def unreadable_paths():
    """The paths of the other images."""
    return sorted(IMAGES.glob("unreadable/*.image"))


def name_of(path):
    """The name of an image in the folder of all images."""
    return f"{path.parent.name}/{path.name}"


def readable_files():
    """The files of the images that can be read, by name."""
    return {name_of(path): path.read_bytes() for path in readable_paths()}


def worked_image(name, clear_weak=False):
    """The worked image of this name."""
    (path,) = IMAGES.glob(f"*/{name}.image")
    return read_worked(path, clear_weak)


def accepted_images(clear_weak=False):
    """The worked images that are compacted."""
    images = (read_worked(path, clear_weak) for path in worked_paths())
    return [it for it in images if it.fault is None]


def rejected_images(clear_weak=False):
    """The worked images that are rejected."""
    images = (read_worked(path, clear_weak) for path in worked_paths())
    return [it for it in images if it.fault is not None]


class DeadArrayTest(ProgramTest):
    """A test on the worked image `dead_array`, which is in the file `in`."""

    def setUp(self):
        super().setUp()
        self.worked = worked_image("dead_array")
        self.write("in", self.worked.image)

    def compact(self, *args, **how):
        return self.run_here(SQZCOMPACT, *args, **how)
