"""The objects of an image's data words: where each begins and ends, and which fields are traced."""

import enum
import typing

CONTEXT_INDEXES = (13, 14)
# The SmallInteger 0.
ZERO = 1
# The header type by the number of header words before the base header, and that of a free chunk.
HEADER_TYPES, FREE = (3, 1, 0), 2


class Format(enum.IntEnum):
    """Formats of objects. Those up to `WEAK` have slots.

    `BYTES` and the next three are of byte objects, `METHOD` and the next three of methods: what is
    added is the number of bytes of the last word that do not belong to the object."""

    EMPTY = 0
    FIXED = 1
    INDEXED = 2
    FIXED_AND_INDEXED = 3
    WEAK = 4
    WORDS = 6
    BYTES = 8
    METHOD = 12


class Object(typing.NamedTuple):
    """Data words of an object: the first of its header, its base header, and its end."""

    first: int
    base: int
    end: int


def objects_of(words):
    """The objects of these data words."""
    objects, at = [], 0
    while at < len(words):
        kind = words[at] & 3
        if kind == FREE:
            at += words[at] >> 2
            continue
        base = at + HEADER_TYPES.index(kind)
        end = base + (words[at] >> 2 if kind == 0 else words[base] >> 2 & 63)
        objects.append(Object(at, base, end))
        at = end
    return objects


def format_of(header):
    return header >> 8 & 15


def compact_index(header):
    return header >> 12 & 31


def has_bytes(header):
    """Whether this is the base header of a byte object."""
    return Format.BYTES <= format_of(header) < Format.METHOD


def is_method(header):
    """Whether this is the base header of a method."""
    return format_of(header) >= Format.METHOD


def is_context(header):
    """Whether this is the base header of a context."""
    is_indexed = format_of(header) == Format.FIXED_AND_INDEXED
    return is_indexed and compact_index(header) in CONTEXT_INDEXES


def stated_end(words, it):
    """The data word after the fields that an object says are traced. This may be after its end.

    A method without a header, and a context without a stack pointer or with a negative one, has no
    traced fields."""
    header, first = words[it.base], it.base + 1
    if is_method(header):
        if it.end == first or not words[first] & 1:
            return first
        return first + 1 + (words[first] >> 10 & 255)
    if is_context(header):
        if it.end < first + 3:
            return first
        pointer = words[first + 2]
        if not pointer & 1:
            return first + 6
        return first if pointer >> 31 else first + 6 + (pointer >> 1)
    return it.end if format_of(header) <= Format.WEAK else first


def traced_end(words, it):
    """The data word after the traced fields of an object."""
    return min(stated_end(words, it), it.end)
