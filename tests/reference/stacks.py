"""The processes of an image, and their stacks."""

import enum

from tests.reference.fields import AssociationField, SpecialField
from tests.reference.objects import is_context, is_method
from tests.reference.values import signed


class SchedulerField(enum.IntEnum):
    """Fields of the scheduler."""

    READY_LISTS = 0
    ACTIVE = 1


class ProcessField(enum.IntEnum):
    """Fields of a process."""

    CONTEXT = 1
    PRIORITY = 2
    LIST = 3


class ContextField(enum.IntEnum):
    """Fields of a context. That of a block has a number in place of a method, and `HOME`."""

    SENDER = 0
    PC = 1
    METHOD = 3
    RECEIVER = 5
    HOME = 5


class Stacks:
    """The rows of all processes. Contexts are listed once."""

    def __init__(self, names):
        self.names, self.image, self.listed = names, names.image, set()
        scheduler = names.target(self.image.special, SpecialField.SCHEDULER, AssociationField.VALUE)
        self.active = names.target(scheduler, SchedulerField.ACTIVE)
        self.ready_lists = names.target(scheduler, SchedulerField.READY_LISTS)

    def rows(self):
        a_class = None if self.active is None else self.names.class_of(self.active)
        if a_class is None:
            return []
        live = sorted(self.names.live)
        return [self.process(it) for it in live if self.names.class_of(it) == a_class]

    def integer(self, number, field):
        """The SmallInteger in a traced field, if there is one."""
        word = self.image.traced_word(number, field)
        return signed(word) if word is not None and word & 1 else None

    def label(self, number):
        return None if number is None else self.names.label(number)

    def process(self, number):
        state, waits_for = self.state(number)
        context = self.context_in(number, ProcessField.CONTEXT)
        contexts = []
        while context is not None and context not in self.listed:
            self.listed.add(context)
            contexts.append(self.context(context))
            context = self.context_in(context, ContextField.SENDER)
        return {
            "process": self.names.address(number),
            "priority": self.integer(number, ProcessField.PRIORITY),
            "state": state,
            "waits_for": self.label(waits_for),
            "contexts": contexts,
            "meets": None if context is None else self.names.address(context),
        }

    def state(self, number):
        """What a process does, and the list that it waits in."""
        if number == self.active:
            return "active", None
        nil = self.image.strong_field(self.image.special, SpecialField.NIL, self.names.clear_weak)
        waits_in = self.image.field(number, ProcessField.LIST)
        if waits_in in (None, nil):
            return "suspended", None
        priority = self.integer(number, ProcessField.PRIORITY)
        if priority is not None and priority > 0:
            if self.names.target(self.ready_lists, priority - 1) == waits_in:
                return "ready", None
        return "waiting", waits_in

    def context_in(self, number, field):
        """The context that a field points to, if it is one."""
        found = self.image.field(number, field)
        return found if found is not None and is_context(self.image.header_of(found)) else None

    def receiver(self, home):
        """The receiver in the context of a method: a number, or a label."""
        if home is None:
            return None
        number = self.integer(home, ContextField.RECEIVER)
        if number is not None:
            return number
        return self.label(self.image.field(home, ContextField.RECEIVER))

    def context(self, number):
        is_block = self.integer(number, ContextField.METHOD) is not None
        home = self.context_in(number, ContextField.HOME) if is_block else number
        method = self.names.target(home, ContextField.METHOD)
        if method is not None and not is_method(self.image.header_of(method)):
            method = None
        return {
            "address": self.names.address(number),
            "method": self.label(method),
            "block": is_block,
            "pc": self.integer(number, ContextField.PC),
            "receiver": self.receiver(home),
        }
