"""Runs `sqzlook check` over a folder of sound and broken images, and over an image with several
bad pointers."""

import gzip
import os
import subprocess
import threading
import typing

from tests.harness.json_rows import rows_of
from tests.harness.look_checks import LookTest
from tests.harness.outcomes import Outcome
from tests.harness.programs import SQZLOOK, Limits
from tests.harness.saved_image import SavedImageTest
from tests.harness.sqzlook import look
from tests.making.changed_images import named_image, with_bad_pointers
from tests.reference.answers import Answers
from tests.reference.faults import OTHER_VERSIONS, Fault
from tests.reference.file_format import HEADER_WORDS, PREFIX

UNREADABLE = Fault(16, "cannot read the image", cause={"reason": "no such file"})
# The bytes that decide whether a header has a fault: those of a prefix, and the header.
FRONT = len(PREFIX) + 4 * HEADER_WORDS
# Bad pointers that are put into a small image.
BAD = 6


class Checked(typing.NamedTuple):
    """A file of a folder, None if it is missing, and its fault, None if it is sound, with what a
    line of JSON and the text say about it."""

    file: bytes | None
    fault: Fault | None
    row: dict | None = None
    line: str = ""


def checked(file, fault):
    """A file with a fault that is about no object."""
    return Checked(file, fault, fault.row(0), fault.line(0))


def line_of(answers, fault):
    """The text about a fault of an object with a name."""
    owner = answers.owner(fault)
    return fault.line(0) + (f", in {owner}" if owner else "")


class FolderTest(SavedImageTest):
    """Each image of a folder has a line."""

    @classmethod
    def setUpClass(cls):
        super().setUpClass()
        if cls.path is not None:
            file, flipped = cls.image.file(), with_bad_pointers(cls.image, 1)
            answers = Answers(flipped)
            (fault,), (row,) = answers.defects, answers.faults()
            gzipped = Fault(2, "version is not 6502", cause={"file": "gzip"})
            cls.checked = {
                "sound.image": Checked(file, None),
                "flipped.image": Checked(flipped.file(), fault, row, line_of(answers, fault)),
                "truncated.image": checked(file[:-1000], Fault(6, "data are truncated")),
                "gzipped.image": checked(gzip.compress(file, 1), gzipped),
                "missing.image": checked(None, UNREADABLE),
            }

    def setUp(self):
        super().setUp()
        for name, it in self.checked.items():
            if it.file is not None:
                self.write(name, it.file)
        self.readable = [name for name, it in self.checked.items() if it.file is not None]

    def check(self, *words):
        return look("check", *words, folder=self.folder)

    def assert_rows(self, outcome, names):
        """Checks for a row about each of these files."""
        found = [(row["image"], row["sound"], row["faults"]) for row in rows_of(outcome.stdout)]
        files = {name: self.checked[name] for name in names}
        expected = [
            (name, it.fault is None, [it.row] if it.row else []) for name, it in files.items()
        ]
        self.assertEqual(found, expected)

    def assert_lines(self, outcome, names):
        """Checks for a line about each of these files."""
        lines = outcome.stdout.decode().splitlines()
        # what a repair keeps is tested with damage
        lines = [line for line in lines if ": mend --nil keeps " not in line]
        self.assertEqual(len(lines), len(names))
        count, words = len(self.image.objects), len(self.image.words)
        size = f"{count} objects, {count} live, {4 * words} bytes live"
        for line, name in zip(lines, names):
            # how much can be read of a damaged file is tested with its damage
            it = self.checked[name]
            expected = f"{name}: {it.line if it.fault else f'sound, {size}'}"
            self.assertEqual(line[: len(expected)], expected)

    def test_all(self):
        outcome = self.check("--json", *self.checked)
        self.assertEqual(outcome.status, 3)
        self.assert_rows(outcome, self.checked)

    def test_all_but_the_missing_one(self):
        outcome = self.check("--json", *self.readable)
        self.assert_quiet(outcome, 1)
        self.assert_rows(outcome, self.readable)

    def test_lines(self):
        outcome = self.check(*self.checked)
        self.assertEqual(outcome.status, 3)
        self.assert_lines(outcome, self.checked)

    def test_sound_image_alone(self):
        outcome = self.check("sound.image")
        self.assert_quiet(outcome)
        self.assert_lines(outcome, ["sound.image"])


class SeveralFaultsTest(LookTest):
    """`check --all` prints each fault of an image, and `check` the first."""

    def setUp(self):
        super().setUp()
        image = with_bad_pointers(named_image(), BAD)
        self.answers = Answers(image)
        self.faults = self.answers.defects
        self.write("bad.image", image.file())

    def check(self, *options):
        return self.printed_by(look("check", *options, "bad.image", folder=self.folder), 1)

    def test_some_have_an_object_one_bit_away(self):
        near = {fault.cause and fault.cause["near"] is not None for fault in self.faults}
        self.assertEqual((len(self.faults), near), (BAD, {True, False}))

    def test_rows(self):
        for options, expected in (
            ((), self.answers.faults()),
            (("--all",), self.answers.faults(True)),
        ):
            with self.subTest(options=options):
                (row,) = rows_of(self.check("--json", *options))
                self.assertEqual(row["faults"], expected)

    def test_lines(self):
        lines = [line_of(self.answers, fault) for fault in self.faults]
        for options, expected in (((), lines[:1]), (("--all",), lines)):
            with self.subTest(options=options):
                text = self.check(*options).decode()
                self.assertEqual([line for line in lines if line in text], expected)


class CausesTest(LookTest):
    """The likely cause of fault 2: another version, by its number and name, or an archive."""

    def test_causes(self):
        files = {"zip": (b"PK\x03\x04", " (a zip file)"), "gzip": (b"\x1f\x8b", " (a gzip file)")}
        for version, name in OTHER_VERSIONS.items():
            for order in ("little", "big"):
                begin = version.to_bytes(4, order)
                cause = f" (version {version}, {name})"
                files[f"{version}.{order}"] = begin, cause
                files[f"{version}.{order}.512"] = PREFIX + begin, cause
        files["other"] = b"", ""
        for name, (begin, _) in files.items():
            self.write(name, begin + bytes(1000))
        outcome = look("check", "--json", *files, folder=self.folder)
        self.assert_quiet(outcome, 1)
        found = {row["image"]: row["faults"][0]["text"] for row in rows_of(outcome.stdout)}
        expected = {name: f"version is not 6502{cause}" for name, (_, cause) in files.items()}
        self.assertEqual(found, expected)


class FrontsTest(LookTest):
    """Files whose first bytes show that they hold no image."""

    LINE = b"it: fault 2: version is not 6502\n"

    def check(self, *options, **how):
        return self.run_here(SQZLOOK, "check", *options, "it", **how)

    def test_pipe_that_nobody_closes(self):
        os.mkfifo(self.folder / "it")
        pipe = os.open(self.folder / "it", os.O_RDWR)
        self.addCleanup(os.close, pipe)
        for options in ((), ("--past-damage",)):
            with self.subTest(options=options):
                os.write(pipe, bytes(FRONT))
                self.assert_ends(self.check(*options), Outcome(1, stdout=self.LINE))

    def test_image_in_a_pipe_is_read_once(self):
        os.mkfifo(self.folder / "it")
        file = named_image().file()
        writing = threading.Thread(target=self.write, args=("it", file))
        writing.start()
        outcome = self.check()
        writing.join()
        self.assertEqual((outcome.status, outcome.stderr), (0, b""))
        self.assertTrue(outcome.stdout.startswith(b"it: sound, "))

    def test_large_file_takes_little_memory(self):
        with open(self.folder / "it", "wb") as file:
            file.truncate(3 << 30)
        outcome = self.check(limits=Limits(memory=64 << 20))
        self.assert_ends(outcome, Outcome(1, stdout=self.LINE))

    def test_headers_that_are_cut(self):
        """Each front of a file without an image is rejected as the whole is, or is too short."""
        whole = named_image().file(PREFIX)
        bad = whole[: len(PREFIX) + 4] + bytes(4) + whole[len(PREFIX) + 8 :]
        for size in (*range(506, FRONT + 8), len(bad)):
            self.write(f"{size}", bad[:size])
        sizes = sorted(int(it.name) for it in self.folder.iterdir())
        outcome = look("check", "--json", *map(str, sizes), folder=self.folder)
        found = {int(row["image"]): row["faults"][0]["number"] for row in rows_of(outcome.stdout)}
        known = len(PREFIX) + 4  # from here on the version after the prefix can be read
        expected = {
            size: 3 if size >= FRONT else 1 if size >= known else 2 for size in sizes
        }
        self.assertEqual(found, expected)


class ShownNamesTest(LookTest):
    """Control characters in names of files and in words do not get into lines of text."""

    NAMES = {
        "bad\nsqzlook: sound.image": "bad\\x0asqzlook: sound.image",
        "\x1b[2J\x7f": "\\x1b[2J\\x7f",
        "\u009b1m": "\\x9b1m",
        "a\\x0ab\u00e9": "a\\x0ab\u00e9",
    }

    def assert_prints(self, words, status, line, stdout=""):
        """Checks what a command prints on standard output, and its line on standard error."""
        stderr = f"sqzlook: {line}\n" if line else ""
        expected = Outcome(status, stdout.encode(), stderr.encode())
        self.assert_ends(look(*words, folder=self.folder), expected)

    def test_names_of_files(self):
        self.write("plain", named_image().file())
        said = look("check", "plain", folder=self.folder).stdout.decode()
        info = look("info", "plain", folder=self.folder).stdout.decode()
        for name, shown in self.NAMES.items():
            with self.subTest(name):
                self.write(name, named_image().file())
                self.assert_prints(("check", name), 0, None, said.replace("plain", shown))
                headings = f"plain:\n{info}{shown}:\n{info}"
                self.assert_prints(("info", "plain", name), 0, None, headings)
                outcome = look("check", "--json", name, folder=self.folder)
                self.assertEqual(rows_of(outcome.stdout)[0]["image"], name)

    def test_names_of_missing_files(self):
        for name, shown in self.NAMES.items():
            with self.subTest(name):
                line = f"{shown}: fault 16: cannot read the image: no such file"
                self.assert_prints(("info", name), 3, line)
                self.assert_prints(("diff", name, name), 3, line)

    def test_names_after_digests(self):
        """They are written as `sha256sum` writes them."""
        for name in ("bad\nname", "back\\slash", "\rname", "\x1b[2J"):
            with self.subTest(name):
                self.write(name, named_image().file())
                sums = subprocess.run(
                    ["sha256sum", name], cwd=self.folder, stdout=subprocess.PIPE, check=True
                ).stdout
                row = rows_of(look("digest", "--json", name, folder=self.folder).stdout)[0]
                start = 1 if sums.startswith(b"\\") else 0
                expected = sums[:start] + row["digest"].encode() + sums[start + 64 :]
                outcome = look("digest", name, folder=self.folder)
                self.assert_ends(outcome, Outcome(0, expected))

    def test_words(self):
        self.write("it", named_image().file())
        self.assert_prints(("why", "it", "x\x1b[2J"), 1, "it: no object is named x\\x1b[2J")
        self.assert_prints(("list", "it", "x\ny"), 1, "it: no class is named x\\x0ay")
        why = "regex parse error at 0..1: unclosed group"
        self.assert_prints(("find", "it", "(\n"), 2, rf"not a regular expression: (\x0a: {why}")
