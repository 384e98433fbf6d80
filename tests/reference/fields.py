"""The fields that an image's structures have, by their meaning."""

import enum


class SpecialField(enum.IntEnum):
    """Fields of the special objects array."""

    NIL = 0
    FALSE = 1
    TRUE = 2
    SCHEDULER = 3
    SMALLTALK = 8
    SPECIAL_SELECTORS = 23
    COMPACT_CLASSES = 28


# What fields of the special objects array point to, as `sqzlook` names it.
SPECIAL_NAMES = {
    3: "the scheduler",
    8: "the globals",
    14: "the display",
    17: "the low space semaphore",
    23: "the special selectors",
    24: "the characters",
    28: "the compact classes",
    29: "the timer semaphore",
    30: "the interrupt semaphore",
    31: "a Float to copy",
    32: "a LargePositiveInteger to copy",
    33: "a Point to copy",
    35: "a MethodContext to copy",
    37: "a BlockContext to copy",
    38: "the external objects",
    41: "the finalization semaphore",
    48: "the selector for a return through a dead context",
}


class ClassField(enum.IntEnum):
    """Fields of a class and of a metaclass. `FORMAT` is a SmallInteger that states fixed fields."""

    SUPERCLASS = 0
    METHODS = 1
    FORMAT = 2
    VARIABLES = 3
    INSTANCE = 5
    NAME = 6
    POOL = 7


class DictionaryField(enum.IntEnum):
    """Fields of a dictionary. Those of a method dictionary from `SELECTORS` on are selectors."""

    ARRAY = 1
    SELECTORS = 2


class OrganizerField(enum.IntEnum):
    """Fields of the system organizer, which lists the names of classes by category."""

    CATEGORIES = 1
    ENDS = 2
    LISTED = 3


class AssociationField(enum.IntEnum):
    """Fields of an association."""

    KEY = 0
    VALUE = 1
