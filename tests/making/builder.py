"""Makes small images, object by object."""

import array
import typing

from tests.reference.file_format import BASE, image_file, words_of
from tests.reference.objects import HEADER_TYPES, Format

# An object with more fields than this has a header word for its size.
MOST_FIELDS = 62


class Ref(typing.NamedTuple):
    """A field that points to the object of this number."""

    number: int


class Item(typing.NamedTuple):
    """An object: its format, its class, the compact index in its header, and its fields.

    The class is the name of one, or a `Ref`, or None if the header has no class word. A field is a
    word, a `Ref`, or the name of the class that it points to."""

    kind: int
    a_class: str | Ref | None
    compact: int
    fields: list

    @property
    def words_before(self):
        """The number of header words before the base header."""
        if self.a_class is None:
            return 0
        return 1 if len(self.fields) <= MOST_FIELDS else 2

    @property
    def size(self):
        """The size that the header states, in bytes."""
        return 4 * len(self.fields) + 4


class Builder:
    """Adds objects to an image. `special` is the special objects array, and `classes` has those
    classes that have names."""

    def __init__(self):
        self.items, self.classes, self.special = [], {}, None

    def add(self, kind, a_class, *fields, compact=0):
        """Adds an object."""
        self.items.append(Item(kind, a_class, compact, list(fields)))
        return Ref(len(self.items) - 1)

    def add_bytes(self, a_class, data):
        """Adds a byte object."""
        unused = -len(data) % 4
        return self.add(Format.BYTES + unused, a_class, *words_of(data + bytes(unused), "little"))

    def fields_of(self, ref):
        """The fields of an object, to be changed."""
        return self.items[ref.number].fields

    def addresses(self):
        """The address of each object."""
        found, end = [], BASE
        for it in self.items:
            found.append(end + 4 * it.words_before)
            end = found[-1] + it.size
        return found

    def word_of(self, field, addresses):
        """The word of a field, or of a class, if objects have these addresses."""
        it = self.classes[field] if isinstance(field, str) else field
        return addresses[it.number] if isinstance(it, Ref) else it

    def header_of(self, it, addresses):
        """The header words of an object."""
        kind, base = HEADER_TYPES[it.words_before], it.compact << 12 | it.kind << 8
        if it.words_before == 0:
            return [base | it.size | kind]
        class_word = self.word_of(it.a_class, addresses) | kind
        if it.words_before == 1:
            return [class_word, base | it.size | kind]
        return [it.size | kind, class_word, base | kind]

    def file(self):
        """The file of the image."""
        addresses, words = self.addresses(), array.array("I")
        for it in self.items:
            words.extend(self.header_of(it, addresses))
            words.extend(self.word_of(field, addresses) for field in it.fields)
        return image_file(words, addresses[self.special.number])
