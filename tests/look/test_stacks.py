"""Asks `sqzlook` about processes and their stacks."""

from tests.harness.json_rows import rows_of
from tests.harness.look_checks import Asking, LookTest
from tests.harness.sqzlook import CLEAR, look
from tests.making.process_image import ProcessImage, small
from tests.reference.fields import SpecialField
from tests.reference.image import Image
from tests.reference.objects import CONTEXT_INDEXES, ZERO

NAME = "it.image"


class StacksTest(LookTest):
    """Small images with processes in all states."""

    def check(self, it):
        """Compares the answers about an image with those of the second implementation."""
        file = it.file()
        self.write(NAME, file)
        for options in ((), CLEAR):
            self.check_questions(Asking(Image.read(file)[0], NAME, options).of_image())

    def test_states(self):
        it = ProcessImage()
        self.check(it)
        outcome = look("stacks", "--json", NAME, folder=self.folder)
        rows = rows_of(self.printed_by(outcome))
        self.assertEqual([row["state"] for row in rows], it.states)
        addresses = [it.addresses()[process.number] for process in it.processes]
        self.assertEqual([int(row["process"], 16) for row in rows], addresses)
        contexts = [context for row in rows for context in row["contexts"]]
        self.assertEqual([context["block"] for context in contexts], [True, False, True, False])
        self.assertEqual([context["pc"] for context in contexts], [-1, 5, 17, 3])
        receivers = [context["receiver"] for context in contexts]
        self.assertEqual(receivers[:2], [None, 7])
        self.assertEqual([row["meets"] is None for row in rows[:2]], [True, False])

    def test_text(self):
        it = ProcessImage()
        self.write(NAME, it.file())
        lines = self.printed_by(look("stacks", NAME, folder=self.folder)).decode().splitlines()
        first = f"process {it.address_of(it.processes[0])}, priority 2, active"
        self.assertEqual(lines[0], first)
        heads = [line for line in lines if line.startswith("process ")]
        ends = ["active", "ready", "ready", *["waits for"] * 4, "suspended", "suspended"]
        for head, end in zip(heads, ends, strict=True):
            self.assertIn(f", {end}", head)
        self.assertTrue(lines[2].endswith(" at 5, self 7"), lines[2])

    def test_no_method(self):
        """What is no compiled method is not printed as one, nor what another object than a context
        holds in place of it."""
        it = ProcessImage()
        text = it.add_bytes("String", b"no method")
        array = it.add_array(*[text] * 6)
        block = it.add_frame(CONTEXT_INDEXES[0], ZERO, small(0), array, pc=1)
        context = it.add_frame(CONTEXT_INDEXES[1], block, text, small(7), pc=2)
        it.keep(it.add_process("suspended", context, 2, ZERO))
        self.check(it)
        rows = rows_of(self.printed_by(look("stacks", "--json", NAME, folder=self.folder)))
        self.assertEqual([context["method"] for context in rows[-1]["contexts"]], [None, None])
        lines = self.printed_by(look("stacks", NAME, folder=self.folder)).decode().splitlines()
        self.assertIn("  no method at 2, self 7", lines[-2])
        self.assertIn("  [] in no method at 1", lines[-1])

    def test_no_process(self):
        for broken in (SpecialField.SCHEDULER, SpecialField.COMPACT_CLASSES):
            it = ProcessImage()
            it.fields_of(it.special)[broken] = ZERO
            self.check(it)
        it = ProcessImage()
        it.fields_of(it.special)[SpecialField.SCHEDULER] = ZERO
        self.write(NAME, it.file())
        self.assertEqual(
            self.printed_by(look("stacks", NAME, folder=self.folder)), b"no process is active\n"
        )
