"""Asks `sqzlook` about the worked images and about random ones.

Each file of images/inspect/ has a question and its answer: the first line has the arguments, then
comes what is printed, and the last line has the exit. Then each command is asked for `--json` about
all objects and classes, and its rows are compared with a second implementation.
"""

import random
import shlex

from tests.harness.look_checks import Asking, LookTest, Question
from tests.harness.sqzlook import CLEAR, look, look_at_all
from tests.harness.worked_images import IMAGES, name_of, unreadable_paths
from tests.making.random_images import random_files
from tests.making.seed import SEED
from tests.reference.answers import unreadable_check, unreadable_info
from tests.reference.damage import readable
from tests.reference.faults import Fault, cause
from tests.reference.file_format import HEADER_WORDS, PREFIX, VERSION, words_of
from tests.reference.image import Image
from tests.reference.repair import repair_row

# The objects of each random image that are asked about.
RANDOM_OBJECTS = 10


class WorkedTextsTest(LookTest):
    """The texts about the worked images."""

    def test_answers_each_question(self):
        for path in sorted(IMAGES.glob("inspect/*.txt")):
            first, _, wanted = path.read_text().partition("\n")
            with self.subTest(path.stem):
                outcome = look(*shlex.split(first), folder=IMAGES)
                text = (outcome.stdout + outcome.stderr).decode()
                self.assertEqual(f"{text}exit {outcome.status}\n", wanted)


class WorkedImagesTest(LookTest):
    """The rows about the worked images that can be read."""

    def check_images(self, folder, options=()):
        """Asks all questions about the images of a folder."""
        questions = []
        for path in sorted(IMAGES.glob(f"{folder}/*.image")):
            image, _ = Image.read(path.read_bytes())
            asking = Asking(image, f"{folder}/{path.name}", options)
            every = range(len(image.objects))
            questions += asking.of_image() + asking.of_retained() + asking.of_dump()
            questions += asking.of_objects(show=every, why=every, refs=every)
            questions += asking.of_groups(asking.answers.live_groups)
        self.check_questions(questions, folder=IMAGES)

    def test_accepted(self):
        self.check_images("accepted")

    def test_with_defects(self):
        self.check_images("defects")

    def test_with_weak_objects(self):
        self.check_images("weak")

    def test_with_weak_objects_cleared(self):
        self.check_images("weak", CLEAR)


class RandomImagesTest(LookTest):
    """The rows about random images, most of which have dead and weakly held objects."""

    def test_answers_each_question(self):
        generator, questions = random.Random(SEED), []
        for name, file in random_files().items():
            self.write(name, file)
            for options in ((), CLEAR):
                asking = Asking(Image.read(file)[0], name, options)
                count = len(asking.answers.image.objects)
                some = generator.sample(range(count), min(count, RANDOM_OBJECTS))
                questions += asking.of_image() + asking.of_retained() + asking.of_dump()
                questions += asking.of_objects(show=some, why=some, refs=some)
                questions += asking.of_groups(asking.answers.live_groups)
        self.check_questions(questions)


def header_of(file):
    """The byte order, the offset and the header words of a file, if it has a header."""
    for begin in (0, len(PREFIX)):
        for order in ("little", "big"):
            data = file[begin : begin + 4 * HEADER_WORDS]
            if len(data) == 4 * HEADER_WORDS and data[:4] == VERSION.to_bytes(4, order):
                return order, begin, words_of(data, order)
    return None


def header_row(order, begin, words):
    """What `info` prints about a header."""
    return {
        "order": f"{order}-endian",
        "offset": begin,
        "base": f"{words[3]:08x}",
        "data_bytes": words[2],
        "special_objects": f"{words[4]:08x}",
    }


def fault_of(file, line, header):
    """The fault of a file that cannot be read, by the line that `sqzcompact` rejects it with."""
    name, _, text = line.decode().rstrip("\n").partition(": ")
    number = int(name.removeprefix("fault "))
    if number == 2:
        return Fault(number, text, cause=cause(file))
    if number in (7, 8, 9):
        place = int(text.rsplit(maxsplit=1)[1])
        return Fault(number, text, f"{header[2][3] + 4 * place:08x}", place)
    return Fault(number, text, f"{header[2][4]:08x}" if number == 10 else None)


class UnreadableImagesTest(LookTest):
    """`check` and `info` print what can be read of the other worked images."""

    def test_checks_and_informs(self):
        questions = []
        for path in unreadable_paths():
            file, name = path.read_bytes(), name_of(path)
            header = header_of(file)
            fault = fault_of(file, path.with_suffix(".fault").read_bytes(), header)
            row = fault.row(header[1] if header else 0)
            known = header_row(*header) if header else None
            past = readable(file) if fault.number in (6, 7, 8, 9) else None
            repair = repair_row(file) if past is not None else None
            checked = unreadable_check(name, row, past, repair)
            informed = unreadable_info(name, row, known)
            questions.append(Question(("check", "--json", name), [checked], 1))
            questions.append(Question(("check", "--all", "--json", name), [checked], 1))
            questions.append(Question(("info", "--json", name), [informed], 1))
        self.check_questions(questions, folder=IMAGES)

    def test_other_commands_name_the_fault(self):
        paths = unreadable_paths()
        lines = [("show", name_of(path), "1000") for path in paths]
        for path, line, outcome in zip(paths, lines, look_at_all(lines, IMAGES)):
            file, rejected = path.read_bytes(), path.with_suffix(".fault").read_bytes()
            header = header_of(file)
            message = fault_of(file, rejected, header).line(header[1] if header else 0)
            with self.subTest(path.stem):
                self.assert_refused(outcome, line[1], message)
