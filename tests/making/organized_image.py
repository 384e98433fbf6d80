"""Makes small images with an organizer, which states the categories of classes."""

from tests.making.builder import Builder, Ref
from tests.making.named_image import NamedImage
from tests.making.process_image import small
from tests.reference.fields import ClassField, DictionaryField, SpecialField
from tests.reference.objects import ZERO, Format

ORGANIZATION = "SystemOrganization"


class OrganizedImage(NamedImage):
    """An image with names of all kinds, whose organizer has these three arrays.

    A category is the bytes of a string, an end a number, and what is listed the name of a class. In
    place of each, and of an array, there may be a `Ref`, or the class and the bytes of an object;
    and in place of an array a word."""

    def __init__(self, categories, ends, listed):
        super().__init__()
        smalltalk = self.fields_of(self.special)[SpecialField.SMALLTALK]
        self.globals = self.fields_of(self.fields_of(smalltalk)[DictionaryField.ARRAY])
        self.others = self.globals[:]
        self.organizer = self.add(
            Format.FIXED,
            "Object",
            ZERO,
            self.array_of(categories, lambda it: self.add_bytes("String", it)),
            self.array_of(ends, small),
            self.array_of(listed, self.name_of),
        )
        self.set_global(ORGANIZATION, self.organizer)

    def set_global(self, key, value):
        """Gives the image one more global variable, in place of the one before."""
        self.globals[:] = [self.add_global(key, value), *self.others]

    def add_global(self, key, value):
        """Adds the association of a global variable, which has the highest address."""
        return self.add(Format.FIXED, "Association", self.add_symbol(key), value)

    def array_of(self, its, field):
        """An array of fields, or what stands in its place."""
        if not isinstance(its, list):
            return self.other(its)
        fields = [self.other(it) if isinstance(it, tuple) else field(it) for it in its]
        return self.add_array(*fields)

    def other(self, it):
        """A field, or an object of a class with these bytes."""
        is_field = isinstance(it, (int, Ref))
        return it if is_field else self.add_bytes(*it)

    def name_of(self, a_class):
        """The symbol that is the name of a class."""
        return self.fields_of(self.classes[a_class])[ClassField.NAME]


class TinyOrganizedImage(Builder):
    """A smallest image with categories, whose sizes are easy to add up.

    `categories` has the classes of each, and `instances` has each live instance: its class and the
    number of its fields. It has 8 bytes and 4 for each field. As they are, the objects without a
    category are two strings of 16 bytes and 20 other objects with 468 bytes."""

    def __init__(
        self,
        categories=(("Animals", ("Cat", "Dog")), ("Stones", ("Rock",))),
        instances=(("Cat", 2), ("Dog", 1), ("Cat", 2), ("Rock", 5)),
    ):
        super().__init__()
        listed = [it for _, classes in categories for it in classes]
        names = {it: self.add_name(it) for it in ("Object", "String", *listed)}
        for it, name in names.items():
            self.classes[it] = self.add_plain(*[ZERO] * ClassField.NAME, name)
        texts = [self.add_bytes("String", text.encode()) for text, _ in categories]
        ends = [sum(len(it) for _, it in categories[: at + 1]) for at in range(len(categories))]
        its = [self.add(Format.FIXED, it, *[ZERO] * count) for it, count in instances]
        organizer = self.add_plain(
            ZERO,
            self.add_list(*texts),
            self.add_list(*map(small, ends)),
            self.add_list(*(names[it] for it in listed)),
        )
        association = self.add_plain(self.add_name(ORGANIZATION), organizer)
        smalltalk = self.add_plain(ZERO, self.add_list(association))
        self.add(Format.FIXED, listed[0], ZERO)  # this object is dead, and has 12 bytes
        kept = self.add_list(*its)
        self.special = self.add_list(*[ZERO] * SpecialField.SMALLTALK, smalltalk, kept)

    def add_plain(self, *fields):
        return self.add(Format.FIXED, "Object", *fields)

    def add_list(self, *fields):
        return self.add(Format.INDEXED, "Object", *fields)

    def add_name(self, text):
        return self.add_bytes("Object", text.encode())
