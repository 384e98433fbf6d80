"""Asks `sqzlook` questions, and compares its answers with those of the second implementation."""

import typing

from tests.harness.json_rows import difference, rows_of
from tests.harness.program_checks import ProgramTest
from tests.harness.sqzlook import CLEAR, look_at_all
from tests.reference.alike import digest_of
from tests.reference.answers import Answers
from tests.reference.dumped import dump
from tests.reference.stacks import Stacks
from tests.reference.strings import find

# What `find` is asked for: it has the same meaning in Python as in the program.
PATTERN = "^[A-Z][a-z]|:"


class Question(typing.NamedTuple):
    """The words of a command line with `--json`, the rows that it must print, its exit, and the
    warnings on standard error."""

    words: tuple
    rows: list
    status: int = 0
    warnings: str = ""


def as_words(group, names):
    """The words of a command line for the objects of a class, or with a compact index."""
    if group.a_class is None:
        return ("compact", str(group.compact))
    return (names.address(group.a_class),)


def warning_about(answers, path):
    """The line on standard error about an image, if it is not sound."""
    faults, prefix = answers.defects, len(answers.image.prefix)
    return f"sqzlook: {path}: not sound: {faults[0].line(prefix)}\n" if faults else ""


class Asking:
    """The questions about an image at a path, if weak references are kept or cleared."""

    def __init__(self, image, path, options=()):
        self.path, self.options = path, options
        self.answers = Answers(image, clear_weak=options == CLEAR)

    def question(self, command, *words, rows, status=0):
        warns = command not in ("check", "info")
        warnings = warning_about(self.answers, self.path) if warns else ""
        words = (command, "--json", *self.options, self.path, *words)
        return Question(words, rows, status, warnings)

    def of_image(self):
        """The questions about the whole image."""
        answers, path = self.answers, self.path
        status = 1 if answers.defects else 0
        return [
            self.question("check", rows=[answers.check(path)], status=status),
            self.question("check", "--all", rows=[answers.check(path, True)], status=status),
            self.question("info", rows=[answers.info(path)]),
            self.question("census", rows=answers.census(path)),
            self.question("census", "--dead", rows=answers.census(path, dead=True)),
            *self.by_category(),
            self.question("digest", rows=[{"image": path, "digest": digest_of(answers)}]),
            self.question("stacks", rows=Stacks(answers.names).rows()),
            self.question("find", PATTERN, rows=find(answers, PATTERN.encode())),
        ]

    def by_category(self):
        """What `census --by category` prints about the live and the dead objects."""
        by = ("--by", "category")
        return [
            self.question("census", *by, rows=self.answers.category_census(self.path)),
            self.question(
                "census", *by, "--dead", rows=self.answers.category_census(self.path, dead=True)
            ),
        ]

    def of_retained(self):
        """What `census --retained` prints."""
        rows = self.answers.retained_census(self.path)
        return [self.question("census", "--retained", rows=rows)]

    def of_dump(self):
        """What `dump` prints."""
        return [self.question("dump", rows=dump(self.answers))]

    def of_object(self, command, number):
        """What `show`, `why` or `refs` prints about an object."""
        answer = getattr(self.answers, command)(number)
        rows = answer if isinstance(answer, list) else [answer]
        return self.question(command, self.answers.names.address(number), rows=rows)

    def of_objects(self, **numbers):
        """The questions about these objects by command."""
        return [self.of_object(command, it) for command, its in numbers.items() for it in its]

    def of_groups(self, groups):
        """What `list` prints about the live objects of these classes and compact indexes."""
        answers, questions = self.answers, []
        for group in groups:
            words, dead = as_words(group, answers.names), answers.dead_list(group)
            by_size = answers.list(group, by="size")
            questions += [
                self.question("list", *words, rows=answers.list(group)),
                self.question("list", *words, "--by", "size", rows=by_size),
                self.question("list", *words, "--dead", rows=dead),
            ]
        return questions


class LookTest(ProgramTest):
    """A test that asks `sqzlook` in a folder, that of the test if no other one is given."""

    def check_questions(self, questions, folder=None):
        """Asks all questions, and checks each answer."""
        lines = [question.words for question in questions]
        outcomes = look_at_all(lines, folder or self.folder)
        for question, outcome in zip(questions, outcomes):
            with self.subTest(" ".join(question.words)):
                self.assert_answers(outcome, question)

    def assert_answers(self, outcome, question):
        """Checks the exit of a run, and the rows that it printed."""
        self.assert_warned(outcome, question.status, question.warnings)
        self.assertIsNone(difference(rows_of(outcome.stdout), question.rows))

    def assert_warned(self, outcome, status, warnings):
        """Checks the exit of a run, and what it printed on standard error."""
        self.assertEqual((outcome.status, outcome.stderr.decode()), (status, warnings))

    def assert_refused(self, outcome, path, message, status=1):
        """Checks for a message about a file, and an exit."""
        self.assertEqual(outcome.stderr.decode(), f"sqzlook: {path}: {message}\n")
        self.assertEqual((outcome.status, outcome.stdout), (status, b""))
