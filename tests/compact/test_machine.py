"""Lets the Squeak machine run an image before and after it is compacted, and compares its screens.

The image is that of Debian's package `scratch`. The machine is that of `squeak-vm`, on a screen of
`xvfb`. It runs the image as it is, with garbage, in the other byte order after 512 bytes, and with
a weak array that holds garbage; what the program makes of each; and an image that was mended after
a sound in it was damaged. It starts each alone, and with a project to open.

The first screen of each start that stands still is the one that all other images must show. A
screen that differs may still change: the test waits until it is the expected one, and fails after a
while.

`SQZ_SEED` chooses the garbage, and the screens are written to the folder `SQZ_KEEP` as PPM files.
"""

import contextlib
import glob
import os
import pathlib
import random
import shutil
import struct
import subprocess
import tempfile
import time

from tests.harness.programs import SQZCOMPACT, SQZLOOK
from tests.harness.squeak_image import SqueakImageTest
from tests.making import garbage
from tests.making.seed import SEED
from tests.reference.file_format import PREFIX
from tests.reference.image import Image

MACHINES = "/usr/lib/squeak/*/squeakvm"
WIDTH, HEIGHT = 1024, 768
PROJECT = pathlib.Path("Projects", "Games", "1 GuessingGame.sb")
KEEP = os.environ.get("SQZ_KEEP")
COUNT = 20_000
SOUND = "SoundBuffer"
# How often a screen must look the same, half a second apart, before it counts: more often if no
# screen is expected, since an image may pause while it starts.
LOOKS, FIRST_LOOKS, PAUSE = 6, 20, 0.5
# The most seconds until a screen stands still, or is the expected one.
SECONDS = 90


def screen_in(path):
    """The points of the screen in the file that Xvfb keeps: four bytes each, the last unused."""
    data = path.read_bytes()
    if len(data) < 100:
        return b""
    head = struct.unpack(">25I", data[:100])
    return data[head[0] + 12 * head[19] :][: 4 * WIDTH * HEIGHT]


def points_of(screen):
    return struct.iter_unpack("4s", screen)


def is_blank(screen):
    """Whether a screen has fewer than three colours."""
    return len(set(points_of(screen))) < 3


def points_that_differ(one, other):
    """What differs between two screens: a number of points, and the rectangle that they are in."""
    pairs = enumerate(zip(points_of(one), points_of(other)))
    places = [divmod(at, WIDTH) for at, (point, its) in pairs if point != its]
    rows, columns = zip(*places)
    corners = f"({min(columns)}, {min(rows)}) to ({max(columns)}, {max(rows)})"
    return f"{len(places)} points differ, from {corners}"


@contextlib.contextmanager
def ended(process):
    """Ends a process with the block."""
    try:
        yield process
    finally:
        process.terminate()
        process.wait()


@contextlib.contextmanager
def display(folder):
    """A display whose screen is in the file `Xvfb_screen0` of a folder. Its name is `:NUMBER`."""
    size = f"{WIDTH}x{HEIGHT}x24"
    words = ["Xvfb", "-displayfd", "1", "-screen", "0", size, "-fbdir", folder, "-nolisten", "tcp"]
    server = subprocess.Popen(words, stdout=subprocess.PIPE, stderr=subprocess.DEVNULL, text=True)
    with ended(server), server.stdout:
        yield f":{server.stdout.readline().strip()}"


@contextlib.contextmanager
def running(machine, image, project):
    """A machine that runs an image, and opens a project if one is given. Yields the machine's
    process, and the file of its screen."""
    with tempfile.TemporaryDirectory() as home, display(home) as name:
        places = dict.fromkeys(("HOME", "SQUEAK_USERDIR", "SQUEAK_SECUREDIR"), home)
        process = subprocess.Popen(
            [machine, "-encoding", "UTF-8", "-vm-display-X11", image, project],
            env={**os.environ, **places, "DISPLAY": name},
            stdout=subprocess.DEVNULL,
            stderr=subprocess.DEVNULL,
        )
        with ended(process):
            yield process, pathlib.Path(home, "Xvfb_screen0")


def standing_screen(process, path, expected):
    """The screen once it stands still and is the expected one, if that is not None.

    Returns the last screen if there is no more time, and nothing if the machine ends."""
    end, screen, looks = time.monotonic() + SECONDS, b"", 0
    enough = FIRST_LOOKS if expected is None else LOOKS
    while process.poll() is None:
        time.sleep(PAUSE)
        last, screen = screen, screen_in(path)
        is_still = screen == last and expected in (None, screen)
        looks = looks + 1 if is_still and not is_blank(screen) else 0
        if looks >= enough or time.monotonic() > end:
            return screen
    return b""


class MachineTest(SqueakImageTest):
    """Each image shows the same screens."""

    @classmethod
    def setUpClass(cls):
        super().setUpClass()
        cls.machine = next(iter(glob.glob(MACHINES)), None)

    def setUp(self):
        super().setUp()
        if self.machine is None or not shutil.which("Xvfb"):
            self.skipTest("install the packages squeak-vm and xvfb")
        self.place = self.folder / "image"
        shutil.copytree(self.path.parent, self.place)

    def test_shows_the_same_screens(self):
        image, expected = self.place / "Scratch.image", {}
        for name, file in self.files():
            image.write_bytes(file)
            for start, project in (("alone", ""), ("with a project", self.place / PROJECT)):
                with self.subTest(name, start=start):
                    screen = self.shown(image, project, expected.get(start))
                    self.keep(f"{name}, {start}", screen)
                    self.assert_shows(screen, expected.setdefault(start, screen))
        with self.subTest("the project shows something else"):
            self.assertTrue(expected["alone"] != expected["with a project"])

    def files(self):
        """The names and the files of all images that the machine runs, first the image as it is."""
        image = Image.read(self.path.read_bytes())[0]
        file = image.file()
        yield "as it is", file
        yield "compacted", self.compacted(file)
        generator = random.Random(SEED)
        littered = garbage.littered(image, generator, garbage.SOUND, COUNT, is_wild=False)
        yield "with garbage", littered.file()
        yield "with garbage, compacted", self.compacted(littered.file())
        other = littered.in_other_order().file(PREFIX)
        yield "in the other order after 512 bytes", other
        yield "in the other order after 512 bytes, compacted", self.compacted(other)
        held = garbage.held_weakly(littered).file()
        yield "with garbage held weakly", held
        yield "with garbage held weakly, compacted", self.compacted(held)
        yield "with garbage held weakly, cleared", self.compacted(held, "--clear-weak")
        yield "with a damaged sound, mended", self.mended(self.with_damaged_sound(image))

    def with_damaged_sound(self, image):
        """The file of an image in which the header of its longest sound has a wrong type."""
        sounds = [
            it
            for number, it in enumerate(image.objects)
            if image.class_of(number) is not None and image.name(image.class_of(number)) == SOUND
        ]
        longest = max(sounds, key=lambda it: it.end - it.base)
        words = image.words[:]
        words[longest.base] ^= 3
        return Image(image.header, words, image.order).file()

    def mended(self, file):
        """What `sqzlook mend --nil` makes of a file, without the lost object."""
        self.write("damaged", file)
        outcome = self.run_here(SQZLOOK, "mend", "--nil", "damaged")
        self.assertEqual(outcome.status, 0)
        self.assertIn(b"skipped", outcome.stderr)
        return outcome.stdout

    def compacted(self, file, *options):
        """What the program makes of a file."""
        self.write("in", file)
        self.assertEqual(self.run_here(SQZCOMPACT, *options, "in", "out").status, 0)
        return self.read("out")

    def shown(self, image, project, expected):
        """What the machine shows once it stands still."""
        with running(self.machine, image, project) as (process, path):
            return standing_screen(process, path, expected)

    def keep(self, name, screen):
        """Writes a screen to the folder of kept files."""
        if KEEP:
            points = bytearray(3 * WIDTH * HEIGHT)
            for colour in range(3):
                points[colour::3] = screen[2 - colour :: 4]
            pathlib.Path(KEEP).mkdir(parents=True, exist_ok=True)
            head = b"P6 %d %d 255\n" % (WIDTH, HEIGHT)
            pathlib.Path(KEEP, f"{name}.ppm").write_bytes(head + points)

    def assert_shows(self, screen, expected):
        self.assertEqual(len(screen), 4 * WIDTH * HEIGHT, "there is no screen")
        self.assertFalse(is_blank(screen), "the screen is blank")
        if screen != expected:
            self.fail(points_that_differ(screen, expected))
