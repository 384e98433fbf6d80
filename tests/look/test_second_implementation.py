"""Checks the second implementation of the inspector's answers, without a program.

Its faults and class histograms are those that the files of images/ state, what it says that objects
retain is what a search of all paths finds, and the gaps that it finds in damaged words are those of
the best of all readings.
"""

import array
import random
import re
import typing
import unittest
from unittest import mock

from tests.harness.json_rows import difference, rows_of
from tests.harness.worked_images import accepted_images, readable_paths, rejected_images
from tests.making.random_images import random_files
from tests.making.seed import SEED
from tests.reference import damage
from tests.reference.answers import Answers
from tests.reference.image import Image

# A line of a class histogram: objects, bytes, the address of the class in OUT, and its name.
LINE = re.compile(r" *(\d+) +(\d+) ([0-9a-f]{8}|-{8}) (.*)")


def answers_about(worked, clear_weak):
    """The answers about a worked image, if it can be read."""
    number = int(worked.fault.split(b":")[0].removeprefix(b"fault ")) if worked.fault else None
    if number is not None and number <= 10:
        return None
    return Answers(Image.read(worked.image)[0], clear_weak)


class RowsTest(unittest.TestCase):
    """Rows differ by values, by types, by lengths, and by the order of keys."""

    def test_differences(self):
        rows = [{"slot": 1, "weak": False, "path": [{"name": None}]}]
        for name, others in {
            "no row": [],
            "another value": [{"slot": 2, "weak": False, "path": [{"name": None}]}],
            "another type": [{"slot": True, "weak": False, "path": [{"name": None}]}],
            "another order": [{"weak": False, "slot": 1, "path": [{"name": None}]}],
            "a key more": [{"slot": 1, "weak": False, "path": [{"name": None}], "more": 1}],
            "a value within": [{"slot": 1, "weak": False, "path": [{"name": "x"}]}],
            "an empty list": [{"slot": 1, "weak": False, "path": []}],
        }.items():
            with self.subTest(name):
                self.assertIsNotNone(difference(others, rows))
                self.assertIsNotNone(difference(rows, others))

    def test_no_difference(self):
        found = rows_of(b'{"slot":1,"weak":false}\n{"path":[]}\n')
        self.assertIsNone(difference(found, [{"slot": 1, "weak": False}, {"path": []}]))

    def test_a_key_occurs_once(self):
        with self.assertRaises(ValueError):
            rows_of(b'{"slot":1,"slot":1}\n')


class FaultsTest(unittest.TestCase):
    """The first fault of each worked image is the one that its file states."""

    def test_rejected(self):
        for clear_weak in (False, True):
            for it in rejected_images(clear_weak):
                answers = answers_about(it, clear_weak)
                if answers is not None:
                    with self.subTest(it.name, clear_weak=clear_weak):
                        fault = answers.defects[0]
                        line = f"fault {fault.number}: {fault.text}\n"
                        self.assertEqual(line.encode(), it.fault)

    def test_accepted(self):
        for clear_weak in (False, True):
            for it in accepted_images(clear_weak):
                with self.subTest(it.name, clear_weak=clear_weak):
                    self.assertEqual(answers_about(it, clear_weak).defects, [])


class CensusTest(unittest.TestCase):
    """The class histogram of each worked image is the one that its file states."""

    def test_worked_images(self):
        for clear_weak in (False, True):
            for it in accepted_images(clear_weak):
                if it.census is not None:
                    with self.subTest(it.name, clear_weak=clear_weak):
                        self.check_census(answers_about(it, clear_weak), it.census.decode())

    def check_census(self, answers, text):
        """Compares all but the addresses, which are those of OUT in the text."""
        *rows, last = answers.census("")
        *lines, total = text.splitlines()
        stated = [LINE.fullmatch(line).group(1, 2, 4) for line in lines]
        found = [(str(row["objects"]), str(row["bytes"]), self.name(answers, row)) for row in rows]
        self.assertEqual(found, stated)
        self.assertEqual(total.split(), [str(last["objects"]), str(last["bytes"]), "total"])

    def name(self, answers, row):
        """The name of the class of a row, as `sqzcompact` prints it."""
        if row["address"] is None:
            return row["class"]
        number = answers.image.numbers[int(row["address"], 16)]
        return answers.image.name(number, answers.clear_weak)


class RetainedTest(unittest.TestCase):
    """Objects and groups retain what no path reaches without them."""

    def test_worked_images(self):
        for path in readable_paths():
            with self.subTest(path.name):
                self.check_image(path.read_bytes())

    def test_random_images(self):
        for name, file in random_files().items():
            with self.subTest(name):
                self.check_image(file)

    def check_image(self, file):
        for clear_weak in (False, True):
            answers = Answers(Image.read(file)[0], clear_weak)
            generator, live = random.Random(SEED), answers.live
            sets = [[number] for number in live]
            sets += [generator.sample(live, generator.randint(1, len(live))) for _ in range(20)]
            for numbers in sets:
                lost = set(live) - answers.reach.reached_without(numbers)
                self.assertEqual(answers.reach.retained_by(numbers), lost)


class Part(typing.NamedTuple):
    """A part of a reading: its first word and its end, and the base header of an object."""

    first: int
    end: int
    base: int | None
    is_gap: bool


class DamageTest(unittest.TestCase):
    """The gaps of damaged words are those of a reading that no other one undercuts."""

    def test_random_words(self):
        generator = random.Random(SEED)
        for gap_votes in (1, 2, damage.GAP_VOTES):
            for _ in range(500):
                words = array.array("I", self.random_words(generator))
                with mock.patch.object(damage, "GAP_VOTES", gap_votes):
                    with self.subTest(gap_votes=gap_votes, words=words.tolist()):
                        self.check_words(words)

    def random_words(self, generator):
        """Up to eight words: addresses, headers of free chunks and of objects, and others."""
        count = generator.randint(0, 8)
        kinds = (
            lambda: 64 + 4 * generator.randrange(count),
            lambda: 4 * generator.randint(1, 4) + 2,
            lambda: 4 * generator.randint(1, 4) + 3,
            lambda: generator.randrange(64),
        )
        return [generator.choice(kinds)() for _ in range(count)]

    def check_words(self, words):
        voters, parts = words, []
        for _ in range(damage.READINGS):
            parts = damage.best_reading(words, damage.votes_of(64, len(words), voters))
            found = [damage.Gap(at, end - at) for at, end, is_gap in parts if is_gap]
            self.check_best(words, voters, found)
            voters = list(damage.slots_of(words, parts))
        self.assertEqual(damage.gaps_of(64, words), found)
        for gap in found:
            words[gap.first] = 4 * gap.words + damage.FREE
        at = 0
        while at < len(words):
            at = damage.chunk_at(words, at)[1]

    def check_best(self, words, voters, found):
        """Checks that no reading undercuts one with these gaps."""
        costs = [
            (self.cost(words, voters, parts), self.gaps(parts)) for parts in self.readings(words, 0)
        ]
        self.assertIn((min(cost for cost, _ in costs), found), costs)

    def readings(self, words, first):
        """All readings from a word on."""
        if first == len(words):
            yield []
            return
        parts = [Part(first, end, None, True) for end in range(first + 1, len(words) + 1)]
        chunk = damage.chunk_at(words, first)
        if chunk is not None:
            base, end = chunk
            parts.append(Part(first, end, None if words[first] & 3 == damage.FREE else base, False))
        for part in parts:
            for others in self.readings(words, part.end):
                yield [part, *others]

    def cost(self, words, voters, parts):
        """The contradicted votes of a reading, with those that gaps count as; the skipped words."""
        bases = {it.base for it in parts}
        places = {(word - 64) // 4 for word in voters if word % 4 == 0}
        votes = sum(place not in bases for place in places if 0 <= place < len(words))
        gaps = self.gaps(parts)
        return votes + damage.GAP_VOTES * len(gaps), sum(it.words for it in gaps)

    def gaps(self, parts):
        return [damage.Gap(it.first, it.end - it.first) for it in parts if it.is_gap]
