"""Finds what a virtual machine would trip over in an image that the format allows: instances that
are not as their class states, and broken dictionaries."""

import typing

from tests.reference.fields import AssociationField, ClassField, DictionaryField, SpecialField
from tests.reference.objects import Format, compact_index, format_of, has_bytes


class Shape(typing.NamedTuple):
    """What a class states of its instances: their format, number of fixed fields, compact index."""

    format: int
    fixed: int
    compact: int


class Warned(typing.NamedTuple):
    """A warning: its kind, the number of the object, and what its class states, if that counts."""

    kind: str
    object: int
    stated: Shape | None = None


def padded(a_format):
    """The format without the number of bytes of padding."""
    return a_format & ~3 if a_format >= Format.BYTES else a_format


class Strict:
    """The warnings about the live objects of an image."""

    def __init__(self, image, clear_weak=False):
        self.image, self.clear_weak = image, clear_weak
        marks = image.live(clear_weak)
        self.live = [number for number, is_live in enumerate(marks) if is_live]

    def class_of(self, number):
        return self.image.class_of(number, self.clear_weak)

    def size(self, number):
        """The number of an object's fields."""
        it = self.image.objects[number]
        return it.end - it.base - 1

    def stated(self, a_class):
        """What a class states of its instances, if it states a number of fixed fields."""
        fixed = self.image.fixed_fields(a_class)
        if fixed is None or fixed < 0:
            return None
        word = self.image.words[self.image.objects[a_class].base + 1 + ClassField.FORMAT]
        return Shape(word >> 8 & 15, fixed, word >> 12 & 31)

    def fits(self, number, shape):
        """Whether an instance is as its class states."""
        header, size = self.image.header_of(number), self.size(number)
        a_format, compact = format_of(header), compact_index(header)
        if padded(a_format) != padded(shape.format) or compact not in (0, shape.compact):
            return False
        if a_format <= Format.FIXED:
            return size == shape.fixed
        return a_format > Format.WEAK or size >= shape.fixed

    def is_named_instance(self, number):
        """Whether an object is the only instance of its class, and has a name."""
        a_class, name = self.class_of(number), self.image.field(number, ClassField.NAME)
        if a_class is None or self.image.field(a_class, ClassField.INSTANCE) != number:
            return False
        return name is not None and has_bytes(self.image.header_of(name))

    def classes(self):
        """The classes of live objects, and the live instances of metaclasses that have a name."""
        found = {self.class_of(number) for number in self.live}
        found.update(filter(self.is_named_instance, self.live))
        return found - {None}

    def targets(self, numbers, field):
        """What this field of these objects points to."""
        return {self.image.field(number, field) for number in numbers} - {None}

    def associations(self):
        """The elements of the arrays of the dictionaries of global and of class variables."""
        pools = self.targets(self.classes(), ClassField.POOL)
        pools |= self.targets([self.image.special], SpecialField.SMALLTALK)
        found = set()
        for array in self.targets(pools, DictionaryField.ARRAY):
            found.update(self.image.field(array, field) for field in range(self.size(array)))
        return found - {None}

    def is_short(self, number):
        """Whether a method dictionary has an array with fewer methods than it has keys."""
        methods = self.image.field(number, DictionaryField.ARRAY)
        keys = max(self.size(number) - DictionaryField.SELECTORS, 0)
        return methods is not None and self.size(methods) < keys

    def lacks_dictionary(self, number):
        """Whether the method dictionary of a class is nil, or no object."""
        nil = self.image.field(self.image.special, SpecialField.NIL)
        methods = self.image.field(number, ClassField.METHODS)
        return self.image.can_be_class(number) and methods in (None, nil)

    def warnings(self):
        """All warnings, by object; the class of an object comes first, and its key last."""
        classes = self.classes()
        dictionaries = self.targets(classes, ClassField.METHODS)
        associations, nil = self.associations(), self.image.field(self.image.special, 0)
        for number in self.live:
            a_class = self.class_of(number)
            if a_class is not None and not self.image.can_be_class(a_class):
                yield Warned("no class", number)
            shape = self.stated(self.class_of(number))
            if shape is not None and not self.fits(number, shape):
                yield Warned("shape", number, shape)
            if number in classes and self.lacks_dictionary(number):
                yield Warned("no method dictionary", number)
            if number in dictionaries and self.is_short(number):
                yield Warned("method dictionary", number)
            key = self.image.field(number, AssociationField.KEY)
            if number in associations and key is not None and key == nil:
                yield Warned("no key", number)
