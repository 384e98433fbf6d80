"""Makes a small image with processes in all states, whose contexts run methods and blocks."""

from tests.making.hostile_images import HostileImage
from tests.making.named_image import NIL
from tests.reference.fields import SpecialField
from tests.reference.objects import CONTEXT_INDEXES, ZERO, Format

# The number of lists of ready processes.
PRIORITIES = 3


def small(number):
    """The word of a SmallInteger."""
    return (number << 1 | 1) & 0xFFFFFFFF


class ProcessImage(HostileImage):
    """The image. `states` has the state that each process has, in order."""

    def __init__(self):
        super().__init__()
        fields = ("nextLink", "suspendedContext", "priority", "myList")
        self.add_class("Process", "Object", fields, len(fields))
        self.add_class("Semaphore", "Object", ("first", "last", "signals"), 3)
        self.lists = [self.add_list() for _ in range(PRIORITIES)]
        self.semaphore = self.add_list()
        method = self.add_method()
        outer = self.add_frame(CONTEXT_INDEXES[1], ZERO, method, self.semaphore, pc=3)
        block = self.add_frame(CONTEXT_INDEXES[0], outer, small(1), outer, pc=17)
        number = self.add_frame(CONTEXT_INDEXES[1], block, method, small(7), pc=5)
        homeless = self.add_frame(CONTEXT_INDEXES[0], number, small(0), NIL, pc=-1)
        self.states = []
        self.processes = [
            self.add_process("active", homeless, 2, self.lists[1]),
            self.add_process("ready", block, 1, self.lists[0]),
            self.add_process("ready", number, PRIORITIES, self.lists[-1]),
            self.add_process("waiting", outer, 2, self.lists[0]),
            self.add_process("waiting", outer, 0, self.lists[0]),
            self.add_process("waiting", outer, -1, self.lists[0]),
            self.add_process("waiting", NIL, PRIORITIES + 1, self.semaphore),
            self.add_process("suspended", self.semaphore, 2, NIL),
            self.add_process("suspended", ZERO, 2, ZERO),
        ]
        self.keep(*self.processes)
        self.add_object("Process", NIL, outer, small(1), self.lists[0])  # this process is dead
        scheduler = self.add_object("Point", self.add_array(*self.lists), self.processes[0])
        association = self.add_object("Association", self.add_symbol("Processor"), scheduler)
        self.fields_of(self.special)[SpecialField.SCHEDULER] = association

    def add_list(self):
        return self.add_object("Semaphore", NIL, NIL, ZERO)

    def add_frame(self, compact, sender, method, receiver, pc):
        """Adds a context with these fields, and nothing on its stack."""
        fields = sender, small(pc), ZERO, method, ZERO, receiver
        return self.add(Format.FIXED_AND_INDEXED, None, *fields, compact=compact)

    def add_process(self, state, context, priority, its_list):
        """Adds a process, which is in this state."""
        self.states.append(state)
        return self.add_object("Process", NIL, context, small(priority), its_list)
