"""Runs `sqzlook` on damaged images: `mend`, and other commands with `--past-damage`."""

import array
import os
import random
import re

from tests.harness.json_rows import difference, rows_of
from tests.harness.look_checks import LookTest
from tests.harness.outcomes import Outcome
from tests.harness.programs import SQZCOMPACT, SQZLOOK, Limits, run
from tests.harness.saved_image import SavedImageTest
from tests.harness.sqzlook import CLEAR, look
from tests.harness.worked_images import bytes_at, readable_paths, worked_paths
from tests.making.builder import Builder, Ref
from tests.making.changed_images import at_base, with_words
from tests.making.random_images import COMPACT, random_files
from tests.making.seed import SEED
from tests.reference.damage import is_sound, mend_file, readable
from tests.reference.fields import SpecialField
from tests.reference.file_format import HEADER_WORDS, PREFIX, VERSION, bytes_of
from tests.reference.image import Image
from tests.reference.objects import FREE, ZERO, Format
from tests.reference.repair import repair_row, repaired_file

HEADER = 4 * HEADER_WORDS
SECTOR = 512
# Random damages of small images, and random losses of words in their middle.
DAMAGES, LOSSES = 400, 100
# Random images that are mended without damage, and the bases to which they are moved. At a low base
# small numbers are addresses.
SOUND, BASES = 300, (0, 0x1000, 0x100000, 0x14FFC000, 0x7FFF0000)
# The header of an object of 49 words that are no pointers.
BITMAP = 49 << 2 | 3 | Format.WORDS << 8 | 1 << 12
# The numbers of words of data of which nearly nothing can be read. A process may take `REST` bytes
# of memory, and `EACH_WORD` bytes for each of these words.
SMALL, LARGE = 1 << 22, 1 << 24
REST, EACH_WORD = 64 << 20, 32
# How many words nil and the special objects array have before the loss of `chain_after_loss`.
CHAIN = 4
# Random damages of an image that Squeak saved.
SAVED_DAMAGES = int(os.environ.get("SQZ_DAMAGES", "8"))
# How many objects to which slots lead the wrong size of another one must cover to be rejected.
LEAST_COVERED = 5
# The maximum number of words that `mend --nil` lists.
MOST_WORDS = 20
# Where words of that image are lost, in percent of its data, and the bases to which it is moved.
LOST_AT, LOSS_BASES = (25, 50, 90), BASES[::2]
# The least part of the objects without a lost word that stand at their addresses in the mended
# file, and the most of them that are on the wrong side of the place that `mend` finds.
KEPT, MISPLACED = 0.999, 16


def position(it, word):
    """Where a data word stands, as text says it."""
    return f"at word {word} (byte {it.start + 4 * word})"


def skipped_row(it, path):
    """The line of JSON about what was skipped."""
    skipped = [
        {"word": gap.first, "byte": it.start + 4 * gap.first, "bytes": 4 * gap.words}
        for gap in it.gaps
    ]
    missing = {"missing_bytes": it.missing, "missing_at": it.missing_at()}
    return {"image": path, "skipped": skipped, **missing}


def skipped_line(it, path):
    """The line of text about what was skipped."""
    parts = []
    if it.gaps:
        first, size = it.gaps[0].first, 4 * sum(gap.words for gap in it.gaps)
        count = f" in {len(it.gaps)} gaps, the first" if len(it.gaps) > 1 else ""
        parts.append(f"skipped {size} bytes{count} {position(it, first)}")
    if it.missing:
        place = "at the end" if it.place is None else position(it, it.place)
        parts.append(f"{it.missing} bytes of the data are missing {place}")
    return f"sqzlook: {path}: {'; '.join(parts)}\n"


def chain_after_loss(lost, moved, others, prefix):
    """The file of an image that lost `lost` objects of one word. After these are a chain of `moved`
    objects, and `others` objects to which no slot points."""
    builder, first = Builder(), lost + 2
    nil = builder.add(Format.EMPTY, None, compact=COMPACT)
    builder.special = builder.add(Format.INDEXED, None, nil, Ref(first), compact=COMPACT)
    for _ in range(lost):
        builder.add(Format.EMPTY, None, compact=COMPACT)
    for number in range(first + 1, first + moved):
        builder.add(Format.FIXED, None, Ref(number), ZERO, ZERO, compact=COMPACT)
    for _ in range(others + 1):
        builder.add(Format.FIXED, None, ZERO, ZERO, ZERO, compact=COMPACT)
    file = Image.read(builder.file())[0].file(prefix)
    at = len(prefix) + HEADER + 4 * CHAIN
    return file[:at] + file[at + 4 * lost :]


def counted(count, noun):
    """A number with a noun."""
    return f"{count} {noun}" if count == 1 else f"{count} {noun}s"


def repair_text(row):
    """What text says of a repair."""
    return (
        f"{row['kept_objects']} of {row['live_objects']} live objects, "
        f"{counted(row['kept_bytes'], 'byte')} of {counted(row['live_bytes'], 'byte')}; "
        f"{counted(row['cleared_pointers'], 'pointer')} cleared, "
        f"{counted(row['freed_objects'], 'object')} freed"
    )


class SmallDamageTest(LookTest):
    """Small images of which some words or bytes were changed."""

    def assert_mended(self, name, file):
        """Checks what `mend` makes of a file. Returns what it should make of it."""
        self.write(name, file)
        outcome, it = look("mend", name, folder=self.folder), mend_file(file)
        if it is None:
            self.assertEqual((outcome.status, outcome.stdout), (1, b""))
            return None
        self.assertEqual((outcome.status, outcome.stdout), (0, it.file))
        warnings = skipped_line(it, name) if it.gaps or it.missing else ""
        self.assertEqual(outcome.stderr.decode(), warnings)
        return it

    def assert_repaired(self, name, file, *options):
        """Checks what `mend --nil` makes of a file, and that `sqzcompact` accepts it."""
        self.write(name, file)
        outcome = look("mend", "--nil", *options, name, folder=self.folder)
        expected, patches = repaired_file(file, options == CLEAR)
        if expected is None:
            self.assertEqual((outcome.status, outcome.stdout), (1, b""))
            self.assert_check_says(name, None, options)
            return
        self.assertEqual((outcome.status, outcome.stdout), (0, expected))
        words = [int(it) for it in re.findall(rb"^word (\d+) ", outcome.stderr, re.MULTILINE)]
        self.assertEqual(words, [place for place, _ in patches][:MOST_WORDS])
        row = repair_row(file, options == CLEAR)
        line = f"sqzlook: {name}: kept {repair_text(row)}\n"
        self.assertEqual(line in outcome.stderr.decode(), patches != [])
        self.assert_check_says(name, None if is_sound(file, options == CLEAR) else row, options)
        self.write("repaired.image", expected)
        compacted = run(SQZCOMPACT, [*options, "repaired.image", "out.image"], folder=self.folder)
        self.assertEqual((compacted.status, compacted.stderr), (0, b""))

    def assert_check_says(self, name, row, options):
        """Checks that `check` says before what `mend --nil` keeps."""
        outcome = look("check", "--json", *options, name, folder=self.folder)
        self.assertEqual(rows_of(outcome.stdout)[0]["repair"], row)
        text = look("check", *options, name, folder=self.folder).stdout.decode()
        lines = [] if row is None else [f"{name}: mend --nil keeps {repair_text(row)}"]
        self.assertEqual([it for it in text.splitlines() if ": mend --nil " in it], lines)

    def damaged(self, generator, file):
        """The file with one to three changes: a word, a byte, a sector, its end, or words that are
        lost in the middle."""
        file = bytearray(file)
        for _ in range(generator.randint(1, 3)):
            at = generator.randrange(max(1, len(file) // 4)) * 4
            match generator.randrange(5):
                case 0:
                    file[at : at + 4] = generator.randbytes(4)
                case 1:
                    file[at : at + 1] = generator.randbytes(1)
                case 2:
                    file[at : at + 32] = bytes(len(file[at : at + 32]))
                case 3:
                    del file[max(at, len(file) // 2) :]
                case 4:
                    at = max(at, HEADER)
                    del file[at : at + 4 * generator.randint(1, 8)]
        return bytes(file)

    def test_worked_images(self):
        for path in worked_paths():
            with self.subTest(path.stem):
                self.assert_mended("worked.image", bytes_at(path))
                self.assert_repaired("worked.image", bytes_at(path))
                self.assert_repaired("worked.image", bytes_at(path), *CLEAR)

    def test_random_damages(self):
        generator = random.Random(SEED)
        files = [*map(bytes_at, worked_paths()), *random_files().values()]
        for number in range(DAMAGES):
            file = self.damaged(generator, generator.choice(files))
            with self.subTest(number=number):
                self.assert_mended("damaged.image", file)
                self.assert_repaired("damaged.image", file)

    def assert_finds(self, name, file):
        """Checks a file of which bytes are missing. Returns the word at which they are missing."""
        it = self.assert_mended(name, file)
        self.assert_repaired(name, file)
        outcome = look("check", "--json", name, folder=self.folder)
        row = rows_of(outcome.stdout)[0]["readable"]
        self.assertIsNone(difference(row, readable(file)))
        return it.place

    def test_random_losses(self):
        """Words are lost in the middle, or a few bytes. Some images have enough objects to find the
        place."""
        generator, found = random.Random(SEED), 0
        files = list(random_files(SOUND).values())
        for number in range(LOSSES):
            file = generator.choice(files)
            at = HEADER + 4 * generator.randrange((len(file) - HEADER) // 4)
            size = generator.randint(1, 8) * generator.choice((1, 4, 4, 4))
            with self.subTest(number=number):
                place = self.assert_finds("lost.image", file[:at] + file[at + size :])
                found += place is not None
        self.assertGreater(found, 0)

    def test_least_chain_after_a_loss(self):
        """A place is found if 16 objects move, if these are more than half of the objects after it,
        and if no more bytes are missing than are left."""
        for lost, moved, others, place in (
            (2, 16, 0, CHAIN),
            (2, 15, 0, None),
            (2, 16, 15, CHAIN),
            (2, 16, 16, None),
            (CHAIN + 64, 16, 0, CHAIN),
            (CHAIN + 65, 16, 0, None),
        ):
            for prefix in (b"", PREFIX):
                with self.subTest(lost=lost, moved=moved, others=others, prefix=len(prefix)):
                    file = chain_after_loss(lost, moved, others, prefix)
                    self.assertEqual(self.assert_finds("lost.image", file), place)

    def test_gap_at_every_other_word(self):
        # free chunks of one word, each followed by a word that begins no chunk
        words = array.array("I", [VERSION, HEADER, 0, 0x1000, 0x1000] + [0] * 11)
        data = array.array("I", [6, 0] * 2000)
        words[2] = 4 * len(data)
        it = self.assert_mended("gaps.image", bytes_of(words + data, "little"))
        self.assertEqual(it.gaps, [(1, len(data) - 1)])


class SoundTest(LookTest):
    """Images without a fault, at several bases and in both byte orders: they have no damage."""

    def sound_images(self):
        """The worked and random images without a fault, by name."""
        files = {path.stem: bytes_at(path) for path in readable_paths()}
        files |= random_files(SOUND)
        return {name: Image.read(file)[0] for name, file in files.items() if is_sound(file, False)}

    def test_mend_writes_them_as_they_are(self):
        for name, image in self.sound_images().items():
            for base in BASES:
                moved = at_base(image, base)
                for file in (moved.file(), moved.in_other_order().file()):
                    with self.subTest(name, base=base):
                        self.write("sound.image", file)
                        outcome = look("mend", "sound.image", folder=self.folder)
                        self.assert_ends(outcome, Outcome(0, file))

    def test_words_that_look_like_addresses(self):
        """A bitmap of one colour votes for a word of an array, and is no reason to skip it."""
        image = Image.read(bytes_at(readable_paths()[0]))[0]
        for number, it in enumerate(image.objects):
            for place in range(it.base + 1, it.end):
                words = image.words[:]
                words.extend([BITMAP, *[image.base + 4 * place] * 48])
                file = with_words(image, words).file()
                with self.subTest(number=number, place=place):
                    self.write("sound.image", file)
                    outcome = look("mend", "sound.image", folder=self.folder)
                    self.assert_ends(outcome, Outcome(0, file))


class HostileDamageTest(LookTest):
    """Data of which nearly nothing can be read, at one size and at four times the size."""

    def assert_mends(self, words, count, missing, memory, what):
        """Checks that `mend` says this of these words, repeated, if its header states some words
        more, and that it takes no more memory for each word."""
        size = 4 * (count + missing)
        header = array.array("I", [VERSION, HEADER, size, 0x1000, 0x1000] + [0] * 11)
        data = words * (count // len(words))
        self.write("hostile.image", bytes_of(header, "little") + data.tobytes())
        limits = Limits(memory=REST + memory * count)
        with open(self.folder / "printed", "wb") as printed:
            outcome = self.run_here(SQZLOOK, "mend", "hostile.image", stdout=printed, limits=limits)
        line = f"sqzlook: hostile.image: {what}\n"
        self.assert_ends(outcome, Outcome(0, stderr=line.encode()))

    def assert_skipped(self, words, first):
        """Checks that `mend` skips these words, repeated, from a place on, and takes memory in
        proportion to them."""
        for count in (SMALL, LARGE):
            with self.subTest(count=count):
                size, byte = 4 * (count - first), HEADER + 4 * first
                what = f"skipped {size} bytes at word {first} (byte {byte})"
                self.assert_mends(words, count, 0, EACH_WORD, what)

    def test_half_is_missing(self):
        # objects of one word, to which no slot leads
        for count in (SMALL, LARGE):
            with self.subTest(count=count):
                what = f"{4 * count} bytes of the data are missing at the end"
                self.assert_mends(array.array("I", [7]), count, count, 2 * EACH_WORD, what)

    def test_gap_at_every_other_word(self):
        # free chunks of one word, each followed by a word that begins no chunk
        self.assert_skipped(array.array("I", [6, 0]), 1)

    def test_no_chunk(self):
        self.assert_skipped(array.array("I", [0]), 0)


class SavedDamageTest(SavedImageTest):
    """An image that Squeak saved, of which some words or bytes were changed."""

    def setUp(self):
        super().setUp()
        self.file = self.image.file()
        self.sounds = [
            number for number, it in enumerate(self.image.objects) if it.end - it.first > 200
        ]
        self.write("whole.image", self.file)

    def with_base(self, number, change):
        """The file with another base header of an object."""
        at = HEADER + 4 * self.image.objects[number].base
        word = int.from_bytes(self.file[at : at + 4], self.image.order)
        changed = change(word).to_bytes(4, self.image.order)
        return self.file[:at] + changed + self.file[at + 4 :]

    def zeroed(self, file, at):
        """The file with a sector of zeros."""
        return file[:at] + bytes(SECTOR) + file[at + SECTOR :]

    def damages(self):
        """Files with damage, by name."""
        count = len(self.image.objects)
        middle, later = count // 2, 3 * count // 4
        short = next(it for it in range(middle, count) if self.has_short_header(it))
        at = HEADER + 4 * self.image.objects[middle].first
        other = HEADER + 4 * self.image.objects[later].first
        cut = HEADER + 4 * self.image.objects[later].first + 4
        return {
            "too_large": self.with_base(short, lambda word: word | 63 << 2),
            "too_small": self.with_base(short, lambda word: word & ~(63 << 2) | 2 << 2),
            "wrong_type": self.with_base(short, lambda word: word & ~3),
            "zeroed": self.zeroed(self.file, at),
            "zeroed_twice": self.zeroed(self.zeroed(self.file, at), other),
            "cut": self.file[: HEADER + 7 * (len(self.file) - HEADER) // 10],
            "cut_in_a_header": self.file[:cut],
            "lost": self.file[:other] + self.file[other + SECTOR :],
        }

    def has_short_header(self, number):
        """Whether an object has one header word and some fields, but less than 60."""
        it = self.image.objects[number]
        return it.base == it.first and 4 < it.end - it.first < 60

    def test_damages(self):
        for name, file in self.damages().items():
            with self.subTest(name):
                self.assert_answers_past_damage(f"{name}.image", file)

    def assert_answers_past_damage(self, name, file):
        """Checks that each command answers past the damage as for the mended file."""
        it = mend_file(file)
        self.write(name, file)
        self.write("mended.image", it.file)
        self.assertTrue(it.gaps or it.missing)
        outcome = look("mend", name, folder=self.folder)
        self.assertEqual((outcome.status, outcome.stdout), (0, it.file))
        self.assert_compacts(name)
        for words in (("info",), ("census",), ("census", "--dead"), ("top",)):
            plain = look(*words, "--json", "mended.image", folder=self.folder)
            past = look(*words, "--json", "--past-damage", name, folder=self.folder)
            (row, *rows), expected = rows_of(past.stdout), rows_of(plain.stdout)
            for its in (rows, expected):
                for one in its:
                    one.pop("image", None)
            self.assertEqual(row, skipped_row(it, name))
            self.assertEqual((past.status, rows), (plain.status, expected))
            self.assertEqual(past.stderr.decode().splitlines(True)[0], skipped_line(it, name))
        check = look("check", "--past-damage", name, folder=self.folder)
        self.assertEqual(check.status, 1)
        diff = look("diff", "--past-damage", "whole.image", name, folder=self.folder)
        self.assertEqual(diff.status, 1)
        why = look("why", "--past-damage", name, "Object", folder=self.folder)
        self.assertEqual(why.status, 0)

    def assert_compacts(self, name):
        """Checks that a damaged image can be compacted after it was mended."""
        mended = look("mend", "--nil", name, folder=self.folder)
        self.assertEqual(mended.status, 0)
        self.write("repaired.image", mended.stdout)
        outcome = run(SQZCOMPACT, ["repaired.image", "out.image"], folder=self.folder)
        self.assertEqual((outcome.status, outcome.stderr), (0, b""))

    def test_bases(self):
        """What is skipped is what is damaged, at each base and in each byte order."""
        for base in BASES:
            moved = at_base(self.image, base)
            for image in (moved, moved.in_other_order()):
                for name, (file, damaged) in self.changes(image).items():
                    with self.subTest(name, base=base, order=image.order):
                        self.assert_skips(image, file, damaged)

    def changes(self, image):
        """Damaged files of the image, each with the range of words that was changed, by name."""
        numbers = range(len(image.objects) // 4, len(image.objects) - 10)
        places = [it.first for it in image.objects]
        # With a size of 63 words, it covers ten others.
        short = next(it for it in numbers if places[it + 10] < places[it] + 63)
        other = next(it for it in numbers[1000:] if self.has_short_header(it))
        large, small, lost = image.words[:], image.words[:], image.words[:]
        large[image.objects[short].base] |= 63 << 2
        small[image.objects[other].base] &= ~(63 << 2) | 2 << 2
        sector = range(image.objects[other].first + 64, image.objects[other].first + 192)
        for place in sector:
            lost[place] = 0
        last = range(len(image.words) - 1, len(image.words))
        return {
            "too_large": (with_words(image, large).file(), self.words_of(short)),
            "too_small": (with_words(image, small).file(), self.words_of(other)),
            "zeroed": (with_words(image, lost).file(), sector),
            "last_word": (image.file()[:-4], last),
        }

    def words_of(self, number):
        it = self.image.objects[number]
        return range(it.first, it.end)

    def assert_skips(self, image, file, damaged):
        """Checks that `mend` skips one run, and that all objects without a changed word stand."""
        self.write("damaged.image", file)
        outcome = look("mend", "damaged.image", folder=self.folder)
        self.assertEqual(outcome.status, 0)
        mended, _ = Image.read(outcome.stdout)
        found = {(it.first, it.end) for it in mended.objects}
        for it in image.objects:
            if it.end <= damaged.start or damaged.stop <= it.first:
                self.assertIn((it.first, it.end), found)
        self.assertRegex(outcome.stderr, rb"^sqzlook: damaged.image: skipped \d+ bytes at word \d+")

    def test_losses(self):
        """`mend` finds where words were lost in the middle, at several bases and in both byte
        orders. Nearly all objects without a lost word stand at their addresses again."""
        for image, lost in self.losses():
            with self.subTest(base=image.base, order=image.order, lost=lost):
                self.assert_finds_loss(image, lost)

    def losses(self):
        """Images, each with the range of words that it loses: one sector, or eight."""
        images = [at_base(self.image, base) for base in LOSS_BASES]
        images.append(images[0].in_other_order())
        sectors = 4 * len(self.image.words) // SECTOR
        for image in images:
            for percent in LOST_AT:
                first = sectors * percent // 100 * SECTOR // 4 - HEADER_WORDS
                yield image, range(first, first + SECTOR // 4)
        yield image, range(first, first + 8 * SECTOR // 4)

    def assert_finds_loss(self, image, lost):
        """Checks what `mend` makes of an image that lost a range of words."""
        file = image.file()
        self.write("lost.image", file[: HEADER + 4 * lost.start] + file[HEADER + 4 * lost.stop :])
        outcome = look("mend", "lost.image", folder=self.folder)
        self.assertEqual(outcome.status, 0)
        place = int(re.search(rb"missing at word (\d+) \(byte", outcome.stderr)[1])
        mended, _ = Image.read(outcome.stdout)
        found = {(it.first, it.end) for it in mended.objects}
        before = [it for it in image.objects if it.end <= lost.start]
        after = [it for it in image.objects if lost.stop <= it.first]
        misplaced = sum(place < it.end for it in before)
        misplaced += sum(it.first - len(lost) < place for it in after)
        self.assertLessEqual(misplaced, MISPLACED)
        kept = sum((it.first, it.end) in found for it in before + after)
        self.assertGreaterEqual(kept, KEPT * len(before + after))

    def test_no_loss(self):
        """A cut, and a header that states too many bytes, are no loss in the middle."""
        size = len(self.file) - HEADER + SECTOR
        stated = self.file[:8] + size.to_bytes(4, self.image.order) + self.file[12:]
        for name, file in (("cut.image", self.file[:-SECTOR]), ("stated.image", stated)):
            with self.subTest(name):
                self.write(name, file)
                outcome = look("mend", name, folder=self.folder)
                self.assertEqual(outcome.status, 0)
                line = f"{SECTOR} bytes of the data are missing at the end\n"
                self.assertTrue(outcome.stderr.decode().endswith(line))

    def test_random_damages(self):
        """`mend --nil` changes no word that was not damaged but to clear a pointer or to free a
        chunk, and reads each object without a damaged word as it was."""
        generator = random.Random(SEED)
        for number in range(SAVED_DAMAGES):
            image = at_base(self.image, generator.randrange(0, 1 << 31, 0x1000))
            words, damaged = self.randomly_damaged(generator, image)
            with self.subTest(number=number, base=image.base, damaged=damaged):
                self.write("damaged.image", with_words(image, words).file())
                self.assert_compacts("damaged.image")
                repaired, _ = Image.read((self.folder / "repaired.image").read_bytes())
                self.assert_keeps(image, repaired, damaged)

    def randomly_damaged(self, generator, image):
        """The words of the image with a damage, and the range of words that it covers."""
        words, count = image.words[:], len(image.words)
        start = generator.randrange(0, count - 1024, 128)
        match generator.randrange(4):
            case 0:
                damaged = range(start, start + 128)
            case 1:
                damaged = range(start, start + 1024)
            case 2:
                damaged = range(start + generator.randrange(128), start + 128)
            case 3:
                it = generator.choice(image.objects)
                words[it.base] ^= 1 << generator.randrange(2)
                return words, range(it.first, it.end)
        for place in damaged:
            words[place] = 0
        return words, damaged

    def assert_keeps(self, image, repaired, damaged):
        """Checks which words of an image were changed by its damage and its repair, and that each
        object without a damaged word is an object, or was freed. A damaged header may state a size
        that covers a few objects: then these may be lost."""
        nil = image.address(image.objects[image.field(image.special, SpecialField.NIL)])
        freed = set()
        for place, (old, new) in enumerate(zip(image.words, repaired.words)):
            if old != new and place not in damaged and new & ~3 != nil:
                self.assertEqual(new & 3, FREE)
                freed.update(range(place, place + (new >> 2)))
        found = {(it.first, it.end) for it in repaired.objects}
        undamaged = (
            it for it in image.objects if it.end <= damaged.start or damaged.stop <= it.first
        )
        lost = [it for it in undamaged if (it.first, it.end) not in found and it.first not in freed]
        covered = max((it.end for it in repaired.objects if it.first in damaged), default=0)
        self.assertLess(len(lost), LEAST_COVERED)
        for it in lost:
            self.assertTrue(damaged.start < it.first and it.end <= covered)

    def test_check_says_how_much_can_be_read(self):
        damages = self.damages()
        for name in ("cut", "lost"):
            with self.subTest(name):
                self.assert_check_says_how_much(f"{name}.image", damages[name])

    def assert_check_says_how_much(self, name, file):
        """Checks what `check` says of a file of which bytes are missing."""
        it = mend_file(file)
        self.write(name, file)
        outcome = look("check", "--json", name, folder=self.folder)
        (row,) = rows_of(outcome.stdout)
        size = 4 * sum(gap.words for gap in it.gaps)
        found = row["readable"]
        self.assertEqual((outcome.status, row["faults"][0]["number"]), (1, 6))
        counts = found["unreadable_bytes"], found["missing_bytes"], found["missing_at"]
        self.assertEqual(counts, (size, it.missing, it.missing_at()))
        place = "" if it.place is None else f" {position(it, it.place)}"
        text = look("check", name, folder=self.folder).stdout.decode()
        self.assertEqual(
            text,
            f"{name}: fault 6: data are truncated: {it.missing} bytes are missing{place}, {size} "
            f"bytes cannot be read; {found['objects']} objects before and after\n"
            f"{name}: mend --nil keeps {repair_text(row['repair'])}\n",
        )

    def test_undamaged(self):
        for words in (("check",), ("census",)):
            plain = look(*words, "whole.image", folder=self.folder)
            past = look(*words, "--past-damage", "whole.image", folder=self.folder)
            self.assertEqual(plain, past)
        outcome = look("mend", "whole.image", folder=self.folder)
        self.assertEqual((outcome.status, outcome.stdout, outcome.stderr), (0, self.file, b""))
