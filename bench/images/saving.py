"""Makes an image that saves itself, from one that Squeak saved.

A machine that starts it goes on with the process that was active when the image was saved. Here
this process gets a context of a new method, which sends `snapshotPrimitive` and `quitPrimitive` to
`Smalltalk`. So the machine runs no start-up code and opens no window: it loads the image, its
primitive for saving (97) collects garbage and writes the image, and it ends.

The image may also have copies of all objects. The stack of the context holds two copies of three,
in a list of arrays, and the third is garbage.
"""

import array
import typing

from tests.making.garbage import ARRAY_INDEX
from tests.reference.fields import AssociationField, SpecialField
from tests.reference.file_format import words_of
from tests.reference.image import Image
from tests.reference.names import SYMBOLS
from tests.reference.objects import CONTEXT_INDEXES, Format

# Selectors of methods of `Smalltalk` that take no arguments.
SAVE, QUIT = b"snapshotPrimitive", b"quitPrimitive"
# The fields on the way from the special objects array to the context of the active process.
ACTIVE_CONTEXT = (SpecialField.SCHEDULER, AssociationField.VALUE, 1, 1)
METHOD_INDEX, CONTEXT_INDEX = 1, CONTEXT_INDEXES[1]
# Bytecodes: push the receiver, send the first literal, drop the answer, return the receiver.
PUSH, SEND, DROP, RETURN = 0x70, 0xD0, 0x87, 0x78
# The fields of a small context after its first six.
STACK = 16


class Added(typing.NamedTuple):
    """The words of objects that are added to an image, and the address of their first one."""

    words: array.array
    address: int

    def add(self, compact, kind, *fields):
        """Adds an object with a header of one word. Returns its address."""
        address = self.address + 4 * len(self.words)
        size = len(fields) + 1
        self.words.extend([compact << 12 | kind << 8 | size << 2 | 3, *fields])
        return address


def integer(number):
    """The word of a SmallInteger."""
    return number << 1 | 1


def address_of(image, *path):
    """The address of the object at the end of a path of fields from the special objects array."""
    number = image.special
    for field in path:
        number = image.field(number, field)
    return image.address(image.objects[number])


def symbols_of(image, names):
    """The addresses of the symbols with these bytes."""
    found = {}
    for number, it in enumerate(image.objects):
        text = image.text(number)
        if text in names and image.name(image.class_of(number)) in SYMBOLS:
            found[text] = image.address(it)
    return [found[name] for name in names]


def add_method(image, added, selectors):
    """Adds a method that sends these selectors to its receiver. Returns its address."""
    code = b"".join(bytes([PUSH, SEND + at, DROP]) for at in range(len(selectors)))
    # the last byte of a method says where its source is; 0 says that it has none
    code += bytes([RETURN, 0])
    code += bytes(-len(code) % 4)
    literals = symbols_of(image, selectors)
    header = len(literals) << 10 | 1
    return added.add(METHOD_INDEX, Format.METHOD, header, *literals, *words_of(code, image.order))


def add_context(image, added, selectors, held):
    """Adds the context of such a method before its first step, with an object on its stack.
    Returns its address."""
    nil = address_of(image, SpecialField.NIL)
    receiver = address_of(image, SpecialField.SMALLTALK)
    method = add_method(image, added, selectors)
    first_byte = 4 * (len(selectors) + 1) + 1
    return added.add(
        CONTEXT_INDEX,
        Format.FIXED_AND_INDEXED,
        nil,
        integer(first_byte),
        integer(1),
        method,
        nil,
        receiver,
        held,
        *[nil] * (STACK - 1),
    )


def copies_of(image, count):
    """The data words of the image and of copies that point to themselves, `count` in all."""
    words = image.words[:]
    places = [it.place for it in image.pointers]
    for number in range(1, count):
        copy, distance = image.words[:], 4 * number * len(image.words)
        for place in places:
            copy[place] += distance
        words += copy
    return words


def is_dead(number):
    """Whether the copy with this number is garbage. The image itself has number 0."""
    return number % 3 == 2


def dead_copies(count):
    """How many of `count` copies are garbage."""
    return sum(map(is_dead, range(count)))


def saving_file(file, selectors, count):
    """The file of `count` copies of the image in a file, which sends these selectors to `Smalltalk`
    when it is started."""
    image = Image.read(file)[0]
    words = copies_of(image, count)
    added = Added(array.array("I"), image.base + 4 * len(words))
    size = 4 * len(image.words)
    held = address_of(image, SpecialField.NIL)
    for number in range(1, count):
        if not is_dead(number):
            special = image.header[4] + size * number
            held = added.add(ARRAY_INDEX, Format.INDEXED, special, held)
    context = add_context(image, added, selectors, held)
    *path, last = ACTIVE_CONTEXT
    process = address_of(image, *path)
    words[(process - image.base) // 4 + 1 + last] = context
    return Image(image.header, words + added.words, image.order, image.prefix).file()
