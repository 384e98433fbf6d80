"""Compares what `sqzlook diff` prints with what is expected of two images."""

import typing

from tests.harness.json_rows import difference, rows_of
from tests.harness.look_checks import LookTest, warning_about
from tests.harness.sqzlook import CLEAR, look_at_all
from tests.reference.answers import Answers
from tests.reference.changes import Changes
from tests.reference.image import Image
from tests.reference.sides import Side

JSON, TEXT, WHOLE_TEXT = ("--json",), (), ("--all",)
FORMS = (JSON, TEXT, WHOLE_TEXT)


class Pair(typing.NamedTuple):
    """Two images at their paths, if weak references are kept or cleared."""

    old: Side
    new: Side
    paths: tuple
    options: tuple = ()

    @property
    def warnings(self):
        """The lines on standard error."""
        sides = zip((self.old, self.new), self.paths)
        return "".join(warning_about(side.answers, path) for side, path in sides)


def side_of(file, options=()):
    """What the image of a file has under each name."""
    return Side.of(Answers(Image.read(file)[0], options == CLEAR))


def pairs_of(files, chosen):
    """The pairs of these paths, under both policies. `files` has the files by path."""
    pairs, chosen = [], list(chosen)
    for options in ((), CLEAR):
        sides = {path: side_of(file, options) for path, file in files.items()}
        pairs += [Pair(sides[old], sides[new], (old, new), options) for old, new in chosen]
    return pairs


class DiffTest(LookTest):
    """A test that compares what `diff` prints with what is expected."""

    def check_pairs(self, pairs, folder=None):
        """Asks about each pair in each form."""
        asked = [(pair, form) for pair in pairs for form in FORMS]
        lines = [("diff", *form, *pair.options, *pair.paths) for pair, form in asked]
        outcomes = iter(look_at_all(lines, folder or self.folder))
        for pair in pairs:
            changes = Changes(pair.old, pair.new)
            for form in FORMS:
                with self.subTest(pair.paths, options=pair.options, form=form):
                    outcome = next(outcomes)
                    self.assert_warned(outcome, changes.status, pair.warnings)
                    self.check_printed(outcome, form, changes)

    def check_printed(self, outcome, form, changes):
        """Checks what a run printed in a form."""
        if form == JSON:
            found, expected = rows_of(outcome.stdout), changes.rows()
        else:
            found = outcome.stdout.decode().splitlines()
            expected = list(changes.lines(show_all=form == WHOLE_TEXT))
        self.assertIsNone(difference(found, expected))
