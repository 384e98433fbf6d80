"""Finds the faults of images and of their objects, as docs/FORMAT.md says."""

import typing

from tests.reference.file_format import HEADER_WORDS
from tests.reference.objects import (
    Format,
    compact_index,
    format_of,
    is_context,
    is_method,
    stated_end,
    traced_end,
)

OTHER_VERSIONS = {
    6504: "Squeak 32-bit with closures",
    6505: "Cog 32-bit",
    6521: "Spur 32-bit",
    7033: "Sista 32-bit",
    68000: "Squeak 64-bit",
    68002: "Squeak 64-bit with closures",
    68003: "Cog 64-bit",
    68019: "early Spur 64-bit",
    68021: "Spur 64-bit",
    68533: "Sista 64-bit",
}
GZIP, ZIP = b"\x1f\x8b", b"PK\x03\x04"


class Fault(typing.NamedTuple):
    """A fault: its number and text, and the address and the data word that it is about, if any.

    `cause` is what is known of its cause, as JSON has it."""

    number: int
    text: str
    address: str | None = None
    place: int | None = None
    cause: dict | None = None
    number_of_object: int | None = None

    def byte(self, prefix):
        """The offset of the data word in a file that has `prefix` bytes before the image."""
        return None if self.place is None else prefix + 4 * (HEADER_WORDS + self.place)

    def row(self, prefix):
        """What a line of JSON says about the fault."""
        return {
            "number": self.number,
            "text": self.text + text_of(self.cause),
            "address": self.address,
            "byte": self.byte(prefix),
            "cause": self.cause,
            "owner": None,
            "path": None,
        }

    def line(self, prefix):
        """What a text says about the fault."""
        at = "" if self.place is None else f" (byte {self.byte(prefix)})"
        return f"fault {self.number}: {self.text}{at}{text_of(self.cause)}"


def text_of(cause):
    """What is printed of a cause after the text of the fault."""
    match cause:
        case None:
            return ""
        case {"file": kind}:
            return f" (a {kind} file)"
        case {"version": version, "name": name}:
            return f" (version {version}, {name})"
        case {"reason": reason}:
            return f": {reason}"
        case {"word": word, "near": None}:
            return f": word {word}"
        case {"word": word, "near": {"address": address, "class": name}}:
            return f": word {word}, one bit from {address} {name}"


def cause(file):
    """The cause of fault 2: why the version of a file is not 6502."""
    if file.startswith(GZIP):
        return {"file": "gzip"}
    if file.startswith(ZIP):
        return {"file": "zip"}
    for begin in (0, 512):
        for order in ("little", "big"):
            word = file[begin : begin + 4]
            version = int.from_bytes(word, order) if len(word) == 4 else None
            if version in OTHER_VERSIONS:
                return {"version": version, "name": OTHER_VERSIONS[version]}
    return None


class Defects:
    """The faults of an image that can be read, if weak references are kept or cleared.

    `names` are the names in the image."""

    def __init__(self, names):
        self.image, self.names, self.clear_weak = names.image, names, names.clear_weak

    def faults(self):
        """The fault of the image without nil, and then those of its live objects by address."""
        found = [self.defect(number) for number in sorted(self.names.live)]
        if self.clear_weak and self.image.strong_field(self.image.special, 0) is None:
            found.insert(0, Fault(21, "nil not found"))
        return [it for it in found if it is not None]

    def defect(self, number):
        """The first fault of an object, if it has one."""
        it, address = self.image.objects[number], self.names.address(number)
        header = self.image.header_of(number)
        if it.base == it.first and compact_index(header) == 0:
            return Fault(11, f"no class for object {address}", address, it.base, None, number)
        if self.states_bad_end(number) and is_method(header):
            return Fault(12, f"bad method {address}", address, it.base, None, number)
        if self.states_bad_end(number) and is_context(header):
            return Fault(13, f"bad context {address}", address, it.base, None, number)
        if self.clear_weak and format_of(header) == Format.WEAK and self.is_bad_weak(number):
            return Fault(20, f"bad weak object {address}", address, it.base, None, number)
        return self.bad_pointer(number)

    def states_bad_end(self, number):
        """Whether a method or a context states no number of traced fields, or too great a one."""
        it = self.image.objects[number]
        end = stated_end(self.image.words, it)
        return end == it.base + 1 or end > it.end

    def is_bad_weak(self, number):
        """Whether a weak object's class states no number of fixed fields that it can have."""
        it = self.image.objects[number]
        fixed = self.image.fixed_fields(self.image.class_of(number, clear_weak=True))
        return fixed is None or not 0 <= fixed <= it.end - it.base - 1

    def bad_pointer(self, number):
        """The fault of the first slot that has neither a SmallInteger nor an object's address."""
        it, address = self.image.objects[number], self.names.address(number)
        for place, word in self.slots(it):
            if not word & 1 and word not in self.image.numbers:
                slot = "class" if place < it.base else f"field {place - it.base - 1}"
                text = f"bad pointer in object {address}, {slot}"
                near = self.neighbour(word, is_class_word=place < it.base)
                cause = {"word": f"{word:08x}", "near": near}
                return Fault(14, text, address, place, cause, number)
        return None

    def slots(self, it):
        """The data word of each slot of an object, and what it holds."""
        words = self.image.words
        if it.base > it.first:
            yield it.base - 1, words[it.base - 1] & ~3
        for place in range(it.base + 1, traced_end(words, it)):
            yield place, words[place]

    def neighbour(self, word, is_class_word):
        """The object whose address differs from a word in one bit, if there is exactly one, with
        the name of its class; for a class word the only one that can be a class, if there is
        one."""
        numbers = self.image.numbers
        near = [numbers[word ^ 1 << bit] for bit in range(32) if word ^ 1 << bit in numbers]
        classes = [number for number in near if self.image.can_be_class(number)]
        if is_class_word and len(classes) == 1:
            near = classes
        if len(near) != 1:
            return None
        address = self.image.address(self.image.objects[near[0]])
        return {"address": f"{address:08x}", "class": self.names.class_name(near[0])}
