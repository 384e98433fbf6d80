"""Makes an image in which a variable holds 4 MB from the one of Debian's package `scratch`."""

import typing

from tests.reference.fields import AssociationField
from tests.reference.image import Image
from tests.reference.objects import ZERO, Format

# The variable, which is nil in the image of the package.
HOLDER = "HandMorph class variable PasteBuffer"
# Another variable that is nil, and a class that has no shared pools.
OTHER_HOLDER, POOLLESS, POOLS = "DisplayScreen class variable ScreenSave", "Point", 8
# The variable holds an array of forms and two points. The number of forms, and of words in the
# bitmap of each.
HELD_FORMS, BITMAP_WORDS = 1500, 660
HELD_OBJECTS, HELD_BYTES = 3003, 4_000_000
CLASSES = ("Form", "Bitmap", "Point", "Array")


class Held(typing.NamedTuple):
    """An image in which 4 MB are held, and the addresses of the object whose field holds them, of
    the last form, and of the array of all of them."""

    image: Image
    holder: int
    last_form: int
    array: int


class Appending:
    """Appends objects to a copy of the words of an image. `classes` has classes by name."""

    def __init__(self, image, classes):
        self.image, self.words = image, image.words[:]
        self.classes = {name: self.address(number) for name, number in classes.items()}

    def address(self, number):
        return self.image.address(self.image.objects[number])

    def add(self, kind, a_class, *fields):
        """Appends an object with a header of three words, and returns its address."""
        self.words.extend((len(fields) + 1 << 2, self.classes[a_class], kind << 8, *fields))
        return self.image.base + 4 * (len(self.words) - len(fields) - 1)

    def add_form(self):
        """Appends a form and its bitmap."""
        bitmap = self.add(Format.WORDS, "Bitmap", *[0] * BITMAP_WORDS)
        return self.add(Format.FIXED, "Form", bitmap, *[ZERO] * 4)

    def held_by(self, *holders):
        """The image in which fields have a value of 4 MB. A holder is an object and a field."""
        forms = [self.add_form() for _ in range(HELD_FORMS)]
        points = [self.add(Format.FIXED, "Point", ZERO, ZERO) for _ in range(2)]
        array = self.add(Format.INDEXED, "Array", *forms, *points)
        for number, field in holders:
            self.words[self.image.objects[number].base + 1 + field] = array
        image = Image(self.image.header, self.words, self.image.order, self.image.prefix)
        return Held(Image.read(image.file())[0], self.address(holders[0][0]), forms[-1], array)


def variable_of(names, label):
    """The value field of the only variable with a label."""
    (number,) = (number for number, it in names.variables.items() if it == label)
    return number, AssociationField.VALUE


def image_of(names, *holders):
    """The image of these names, in which these fields hold 4 MB."""
    classes = {name: names.class_named(name) for name in CLASSES}
    return Appending(names.image, classes).held_by(*holders)


def held_image(names):
    """The image of these names, in which the variable holds 4 MB."""
    return image_of(names, variable_of(names, HOLDER))


def held_twice(names):
    """The image of these names, in which two variables hold the same 4 MB."""
    return image_of(names, variable_of(names, HOLDER), variable_of(names, OTHER_HOLDER))


def held_by_class(names):
    """The image of these names, in which an instance variable of a class holds 4 MB."""
    return image_of(names, (names.class_named(POOLLESS), POOLS))
