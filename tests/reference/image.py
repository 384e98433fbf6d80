"""Parses images as docs/FORMAT.md says, independently of the programs: objects, pointers, what is
live, what an image is compacted to, and its class histogram. Objects may have any fault."""

import array
import collections
import functools
import typing

from tests.reference.fields import ClassField, SpecialField
from tests.reference.file_format import (
    HEADER_WORDS,
    PREFIX,
    VERSION,
    bytes_of,
    image_file,
    words_of,
)
from tests.reference.histogram import Row, report
from tests.reference.objects import (
    Format,
    compact_index,
    format_of,
    has_bytes,
    objects_of,
    traced_end,
)

# The maximum number of bytes of a name that are printed.
LONGEST_NAME = 40


class Pointer(typing.NamedTuple):
    """A slot that points to an object: its data word, and the numbers of owner and target."""

    place: int
    owner: int
    target: int


class Image:
    """An image: header, data words, their byte order in the file, and the bytes before it."""

    def __init__(self, header, words, order="little", prefix=b""):
        self.header, self.words, self.order, self.prefix = header, words, order, prefix
        self.base = header[3]

    @classmethod
    def read(cls, file):
        """The image of a file, and the bytes after its data."""
        for begin in (0, len(PREFIX)):
            for order in ("little", "big"):
                if file[begin : begin + 4] == VERSION.to_bytes(4, order):
                    header = words_of(file[begin : begin + 4 * HEADER_WORDS], order)
                    data = begin + 4 * HEADER_WORDS
                    end = data + header[2]
                    return (
                        cls(header, words_of(file[data:end], order), order, file[:begin]),
                        file[end:],
                    )
        raise ValueError("no image of this version")

    def file(self, prefix=None):
        """The file, after these bytes, or else after those that it was read with."""
        return image_file(
            self.words,
            self.header[4],
            base=self.base,
            order=self.order,
            prefix=self.prefix if prefix is None else prefix,
            rest=self.header[5:],
        )

    def address(self, it):
        return self.base + 4 * it.base

    @functools.cached_property
    def objects(self):
        return objects_of(self.words)

    @functools.cached_property
    def numbers(self):
        """The number of the object at each address."""
        return {self.address(it): number for number, it in enumerate(self.objects)}

    @functools.cached_property
    def special(self):
        """The number of the special objects array."""
        return self.numbers[self.header[4]]

    @functools.cached_property
    def pointers(self):
        """All slots that point to objects, in order."""
        found, words, numbers = [], self.words, self.numbers
        for owner, it in enumerate(self.objects):
            if it.base > it.first:
                found.append(Pointer(it.base - 1, owner, numbers.get(words[it.base - 1] & ~3)))
            for place in range(it.base + 1, traced_end(words, it)):
                if not words[place] & 1:
                    found.append(Pointer(place, owner, numbers.get(words[place])))
        return [it for it in found if it.target is not None]

    def traced_word(self, number, field):
        """The word of a field, if it is traced."""
        place = self.objects[number].base + 1 + field
        if place >= traced_end(self.words, self.objects[number]):
            return None
        return self.words[place]

    def field(self, number, field):
        """The number of the object that a field points to, if it exists and is no SmallInteger."""
        return self.numbers.get(self.traced_word(number, field))

    def header_of(self, number):
        return self.words[self.objects[number].base]

    def strong_field(self, number, field, clear_weak=True):
        """As `field`, but None if weak references are cleared and the field is weak."""
        weak = self.first_weak(number) if clear_weak else None
        if weak is not None and self.objects[number].base + 1 + field >= weak:
            return None
        return self.field(number, field)

    def class_field(self, number, field, clear_weak):
        """As `strong_field`, but None too if the class of a weak object is not in its header.

        That class would be looked up by this field."""
        it = self.objects[number]
        is_weak = format_of(self.words[it.base]) == Format.WEAK
        if clear_weak and is_weak and it.base == it.first:
            return None
        return self.strong_field(number, field, clear_weak)

    def class_word(self, number):
        """The address in an object's class word, if its header has one."""
        it = self.objects[number]
        return self.words[it.base - 1] & ~3 if it.base > it.first else None

    def class_of(self, number, clear_weak=False):
        """The number of an object's class, if it has one."""
        it, word = self.objects[number], self.class_word(number)
        if word is not None:
            return self.numbers.get(word)
        compact_classes = self.class_field(self.special, SpecialField.COMPACT_CLASSES, clear_weak)
        if compact_classes is None or compact_index(self.words[it.base]) == 0:
            return None
        field = compact_index(self.words[it.base]) - 1
        return self.class_field(compact_classes, field, clear_weak)

    def fixed_fields(self, a_class):
        """The number of fixed fields that a class states, if it states one. It may be -1."""
        if a_class is None:
            return None
        it = self.objects[a_class]
        place = it.base + 1 + ClassField.FORMAT
        if place >= it.end or not self.words[place] & 1:
            return None
        return (self.words[place] >> 17 & 3) * 64 + (self.words[place] >> 2 & 63) - 1

    def can_be_class(self, number):
        """Whether an object has fixed fields alone, states how many fixed fields its instances
        have, and has no SmallIntegers where a class has its superclass and its methods."""
        it, fixed = self.objects[number], self.fixed_fields(number)
        if format_of(self.words[it.base]) != Format.FIXED or fixed is None or fixed < 0:
            return False
        return not any(
            self.words[it.base + 1 + field] & 1 for field in (ClassField.SUPERCLASS, ClassField.METHODS)
        )

    def first_weak(self, number):
        """The data word of an object's first weak field, if it is a weak object.

        If its class states no number of fixed fields, or one that is negative or too great, all
        fields are weak."""
        it = self.objects[number]
        if format_of(self.words[it.base]) != Format.WEAK:
            return None
        fixed = self.fixed_fields(self.class_of(number, clear_weak=True))
        first = it.base + 1
        return first + fixed if fixed is not None and 0 <= fixed <= it.end - first else first

    def strong_pointers(self, clear_weak=False):
        """All pointers, or if weak references are cleared, those that are not weak."""
        if not clear_weak:
            return self.pointers
        weak = [self.first_weak(number) for number in range(len(self.objects))]
        return [it for it in self.pointers if weak[it.owner] is None or it.place < weak[it.owner]]

    def live(self, clear_weak=False):
        """For each object whether it is reachable, if weak references are cleared or are not."""
        targets = [[] for _ in self.objects]
        for pointer in self.strong_pointers(clear_weak):
            targets[pointer.owner].append(pointer.target)
        found, left = [False] * len(self.objects), [self.special]
        while left:
            number = left.pop()
            if not found[number]:
                found[number] = True
                left.extend(targets[number])
        return found

    def laid_out(self, firsts, size):
        """The header and the data words of this image in `size` words, with objects at these words.

        An object at None is left out, and pointers to it then point to nil."""
        objects = self.objects
        shifts = [None if at is None else at - it.first for it, at in zip(objects, firsts)]
        addresses = [
            0 if shift is None else self.address(it) + 4 * shift
            for it, shift in zip(objects, shifts)
        ]
        nil = addresses[self.field(self.special, 0)]
        words = array.array("I", bytes(4 * size))
        for it, first in zip(self.objects, firsts):
            if first is not None:
                words[first : first + it.end - it.first] = self.words[it.first : it.end]
        for place, owner, target in self.pointers:
            if shifts[owner] is not None:
                words[place + shifts[owner]] = (addresses[target] or nil) | self.words[place] & 3
        header = self.header[:]
        header[2], header[4] = 4 * size, addresses[self.special]
        return header, words

    def compacted(self, clear_weak=False):
        """What this image is compacted to."""
        firsts, at = [], 0
        for it, is_live in zip(self.objects, self.live(clear_weak)):
            firsts.append(at if is_live else None)
            at += it.end - it.first if is_live else 0
        return Image(*self.laid_out(firsts, at), self.order, self.prefix)

    def in_other_order(self):
        """This image as a machine of the other byte order saves it.

        Byte objects, and what follows the literals of a method, keep their bytes; the rest, its
        words."""
        words = self.words[:]
        for it in self.objects:
            if format_of(words[it.base]) >= Format.BYTES:
                part = words[traced_end(words, it) : it.end]
                part.byteswap()
                words[it.end - len(part) : it.end] = part
        return Image(self.header, words, "big" if self.order == "little" else "little", self.prefix)

    def text(self, number):
        """The bytes of an object, if it is a byte object."""
        if number is None or not has_bytes(self.header_of(number)):
            return None
        it = self.objects[number]
        data = bytes_of(self.words[it.base + 1 : it.end], self.order)
        return data[: max(0, len(data) - (format_of(self.header_of(number)) - Format.BYTES))]

    def naming(self, number, clear_weak=False):
        """The bytes of the name of a class, or None, and what is printed after them."""
        text = self.text(self.strong_field(number, ClassField.NAME, clear_weak))
        if text is not None:
            return text, ""
        instance = self.strong_field(number, ClassField.INSTANCE, clear_weak)
        if instance is None:
            return None, ""
        return self.text(self.strong_field(instance, ClassField.NAME, clear_weak)), " class"

    def name(self, number, clear_weak=False):
        """The name of a class, as `sqzcompact` prints it."""
        text, suffix = self.naming(number, clear_weak)
        if text is None:
            return "?"
        characters = (chr(byte) if 32 <= byte <= 126 else "?" for byte in text[:LONGEST_NAME])
        return "".join(characters) + suffix

    def rows(self):
        """The rows of the class histogram, in no order, if all objects are live."""
        objects, sizes = collections.Counter(), collections.Counter()
        for number, it in enumerate(self.objects):
            a_class = self.class_of(number)
            key = (a_class, compact_index(self.words[it.base]) if a_class is None else None)
            objects[key] += 1
            sizes[key] += 4 * (it.end - it.first)
        return [self.row(*key, objects[key], sizes[key]) for key in objects]

    def row(self, a_class, compact, objects, size):
        """The row of a class, or if this is None, of a compact index."""
        if a_class is None:
            return Row(objects, size, None, compact, None)
        return Row(objects, size, self.address(self.objects[a_class]), None, self.name(a_class))

    def census(self):
        """The text of the class histogram, if all objects are live."""
        return report(self.rows())
