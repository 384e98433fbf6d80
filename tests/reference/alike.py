"""Whether two images are alike: whether their live objects correspond one to one.

Each image is written down by itself: its live objects in the order of a breadth-first search, with
the places of objects in that order instead of pointers. Two images are alike if both are the same.
"""

import hashlib
import struct

from tests.reference.file_format import bytes_of
from tests.reference.objects import Format, compact_index, format_of, traced_end

# The bits of a base header with the hash.
HASH = 0xFFF << 17


class Places:
    """The live objects of an image in the order in which a search finds them."""

    def __init__(self, answers):
        self.answers, self.image = answers, answers.image
        self.nil = self.image.strong_field(self.image.special, 0, answers.clear_weak)
        self.order, self.places = [], {}
        self.place(self.image.special)

    def place(self, number):
        """The place of an object, which is the next one if it has none yet."""
        if number not in self.places:
            self.places[number] = len(self.order)
            self.order.append(number)
        return self.places[number]

    def slot(self, word):
        """What a slot with this word leads to. Dead objects count as nil."""
        target = self.image.numbers.get(word)
        if target is not None and not self.answers.is_live(target):
            target = self.nil
        return ("word", word) if target is None else ("object", self.place(target))

    def form(self, number):
        """What an object is compared by."""
        it, words = self.image.objects[number], self.image.words
        header, end = words[it.base], traced_end(words, it)
        rest = words[end : it.end]
        if format_of(header) >= Format.BYTES:
            rest = bytes_of(rest, self.image.order)
        return (
            (it.base - it.first, it.end - it.first),
            (format_of(header), compact_index(header), header & HASH),
            [self.slot(words[it.base - 1] & ~3)] if it.base > it.first else [],
            [self.slot(word) for word in words[it.base + 1 : end]],
            rest,
        )

    def forms(self):
        """Each object in order, and what it is compared by."""
        for number in self.order:
            yield number, self.form(number)


def first_difference(old, new):
    """The first objects that differ, or None if the images of these answers are alike."""
    for (number, form), (other, other_form) in zip(Places(old).forms(), Places(new).forms()):
        if form != other_form:
            return number, other
    return None


# The number of each kind of header, by its words before the base header.
KINDS = {2: 0, 1: 1, 0: 3}


def digest_of(answers):
    """The SHA-256 of what is written down of an image, as words of four bytes, lowest first."""
    places, hasher = Places(answers), hashlib.sha256()
    for number, form in places.forms():
        (before, length), (kind, index, bits), a_class, fields, rest = form
        words = [KINDS[before], length, kind, index, bits >> 17, len(fields)]
        for what, value in (*a_class, *fields):
            words += (1 if what == "object" else 0), value
        hasher.update(struct.pack(f"<{len(words)}I", *words))
        hasher.update(rest if isinstance(rest, bytes) else struct.pack(f"<{len(rest)}I", *rest))
    return hasher.hexdigest()
