"""Fuzzing: runs `sqzcompact` over mutated images.

Each file is one of images/ with up to three breaks: flipped bits, words that are changed, swapped
or doubled, parts cut out, or header words at their limits. A run over it takes options by chance,
and has a limit on its memory. It must end with exit 0, and then compact what it wrote to itself; or
with exit 1, the line of a fault, and OUT untouched.

`SQZ_COUNT` is the number of files, `SQZ_SEED` chooses them, and files whose run fails are copied to
the folder `SQZ_KEEP`.
"""

import os
import pathlib
import random
import re
import struct

from tests.harness.outcomes import SUCCESS
from tests.harness.program_checks import ProgramTest
from tests.harness.programs import SQZCOMPACT, Limits
from tests.harness.worked_images import IMAGES
from tests.making.seed import SEED
from tests.reference.file_format import HEADER_WORDS

COUNT = int(os.environ.get("SQZ_COUNT", "400"))
KEEP = os.environ.get("SQZ_KEEP")
MEMORY = 2 << 30
# The faults of an image.
FAULT = re.compile(rb"\Afault ([1-9]|1[0-4]|2[01]): [^\n]+\n\Z")
# Numbers at which a comparison of a word may turn.
SMALL_LIMITS = (0, 1, 2, 3, 4, 60, 63, 64, 65, 68, 6502, 6504)
LIMITS = (*SMALL_LIMITS, 0x7FFFFFFC, 0x80000000, 0xFFFFFFE8, 0xFFFFFFFC, 0xFFFFFFFF)
STEPS = (-8, -4, -1, 1, 4, 8, 64)
WORD = 4


def flip_bits(generator, data):
    """Flips up to eight bits."""
    for _ in range(generator.randint(1, 8)):
        data[generator.randrange(len(data))] ^= 1 << generator.randrange(8)


def random_word(generator, data):
    """The place of a word, after the header or, one time in four, in it."""
    words = len(data) // WORD
    if words <= HEADER_WORDS or generator.random() < 0.25:
        return generator.randrange(words)
    return generator.randrange(HEADER_WORDS, words)


def put_word(generator, data, place, word):
    """Puts a word at a place, in either byte order."""
    struct.pack_into(generator.choice("<>") + "I", data, WORD * place, word & 0xFFFFFFFF)


def change_word(generator, data):
    """Sets a word to a limit, to a number near its own, or to another word of the file."""
    place = random_word(generator, data)
    kind = generator.randrange(3)
    if kind == 0:
        put_word(generator, data, place, generator.choice(LIMITS))
    elif kind == 1:
        (old,) = struct.unpack_from("<I", data, WORD * place)
        struct.pack_into("<I", data, WORD * place, (old + generator.choice(STEPS)) & 0xFFFFFFFF)
    else:
        other = random_word(generator, data)
        data[WORD * place : WORD * place + WORD] = data[WORD * other : WORD * other + WORD]


def swap_words(generator, data):
    """Swaps two words."""
    one, other = random_word(generator, data), random_word(generator, data)
    first = bytes(data[WORD * one : WORD * one + WORD])
    data[WORD * one : WORD * one + WORD] = data[WORD * other : WORD * other + WORD]
    data[WORD * other : WORD * other + WORD] = first


def set_header(generator, data):
    """Sets one of the first five header words to a limit."""
    if len(data) >= WORD * HEADER_WORDS:
        put_word(generator, data, generator.randrange(5), generator.choice(LIMITS))


def cut_out(generator, data):
    """Cuts out some bytes, or all from a place on."""
    begin = generator.randrange(len(data))
    end = (
        len(data) if generator.random() < 0.5 else min(len(data), begin + generator.randint(1, 64))
    )
    del data[begin:end]


def double(generator, data):
    """Inserts some bytes a second time, after themselves."""
    begin = generator.randrange(len(data))
    end = min(len(data), begin + WORD * generator.randint(1, 32))
    data[end:end] = data[begin:end]


def put_before(generator, data):
    """Inserts bytes before the file: as many as may stand there, or nearly."""
    data[0:0] = bytes(generator.choice((1, 4, 511, 512, 513)))


BREAKS = (
    flip_bits,
    change_word,
    change_word,
    change_word,
    swap_words,
    set_header,
    cut_out,
    double,
    put_before,
)


def broken(generator, data):
    """A copy of a file with up to three breaks."""
    data = bytearray(data)
    for _ in range(generator.randint(1, 3)):
        if len(data) >= WORD:
            generator.choice(BREAKS)(generator, data)
    return bytes(data)


def random_plan(generator):
    """Options of a run: whether weak references are cleared, and the others."""
    weak = ["--clear-weak"] if generator.random() < 0.5 else []
    workers, words = generator.choice((1, 2, 4, 64)), generator.choice((1, 3, 65536))
    census = ["--census"] if generator.random() < 0.3 else []
    return weak, ["--workers", str(workers), "--region-words", str(words), *census]


class MutatedImagesTest(ProgramTest):
    def test_mutated_images(self):
        generator = random.Random(SEED)
        paths = sorted(IMAGES.glob("*/*.image"))
        for number in range(COUNT):
            path = generator.choice(paths)
            file = broken(generator, path.read_bytes())
            weak, others = random_plan(generator)
            with self.subTest(number=number, image=path.name, options=[*weak, *others]):
                self.check_file(number, file, weak, others)

    def check_file(self, number, file, weak, others):
        """Checks a run over a mutated image, and keeps the image if the run fails."""
        try:
            self.check_mutated(file, weak, others)
        except Exception:
            if KEEP:
                folder = pathlib.Path(KEEP)
                folder.mkdir(parents=True, exist_ok=True)
                (folder / f"{number}.image").write_bytes(file)
            raise

    def check_mutated(self, file, weak, others):
        self.write("in", file)
        self.put_old()
        outcome = self.compact(*weak, *others, "in", "out")
        if outcome.status == 1:
            self.assertRegex(outcome.stderr, FAULT)
            self.assertEqual(outcome.stdout, b"")
            self.assert_untouched()
            return
        self.assert_quiet(outcome)
        self.assert_ends(self.compact(*weak, "out", "again"), SUCCESS)
        self.assert_holds("again", self.read("out"))

    def compact(self, *args):
        return self.run_here(SQZCOMPACT, *args, limits=Limits(memory=MEMORY))
