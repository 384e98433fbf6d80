"""Makes small images that differ in one method: its bytes, and literals of all kinds."""

from tests.making.builder import Ref
from tests.making.named_image import NamedImage
from tests.reference.fields import ClassField
from tests.reference.file_format import words_of
from tests.reference.objects import ZERO, Format

# Bytecodes, and trailers as Squeak writes them: two source pointers, three packed bytes, one zero,
# and several.
CODE = b"\x10\x20\x7c"
TRAILERS = (b"\x01\x02\x03\xfc", b"\xff\xfe\xfd\xff", b"abc\x03", b"\x00", b"\x00\x00\x00\x00")
# The method that differs.
METHOD_NAME = "Object>>yourself"


class MethodImage(NamedImage):
    """An image with names of all kinds, whose first method is of one's choice."""

    def set_method(self, literals=(), code=CODE + TRAILERS[0], header=0):
        """Gives the method literals, bytes after them, and bits of its header."""
        place = next(at for at, it in enumerate(self.items) if it.kind >= Format.METHOD)
        unused = -len(code) % 4
        words = words_of(code + bytes(unused), "little")
        fields = [header | len(literals) << 10 | 1, *literals, *words]
        self.items[place] = self.items[place]._replace(kind=Format.METHOD + unused, fields=fields)

    def association(self, at):
        """One of the associations of variables: those of classes come first."""
        found = [number for number, it in enumerate(self.items) if it.a_class == "Association"]
        return Ref(found[at])

    def add_nested(self, depth, leaf):
        """Adds an array in an array and so on, the innermost of which is this deep and has this
        leaf."""
        for _ in range(depth):
            leaf = self.add_array(ZERO, leaf)
        return leaf

    def add_cycle(self, *words):
        """Adds an array for each word, which has the word and the next array, and the last one the
        first array."""
        its = [self.add_array(word) for word in words]
        for array, following in zip(its, its[1:] + its[:1]):
            self.fields_of(array).append(following)
        return its[0]

    def add_wide(self, depth, width):
        """Adds an array whose elements are all one array, and so on down to a depth."""
        its = ZERO
        for _ in range(depth):
            its = self.add_array(*[its] * width)
        return its

    def add_string(self, data):
        return self.add_bytes("String", data)

    def rename(self, name, other):
        """Gives a class the name of another one."""
        its, others = (self.fields_of(self.classes[it]) for it in (name, other))
        its[ClassField.NAME] = others[ClassField.NAME]


def method_file(literal=None, **parts):
    """The file of an image whose method has a literal, and other parts of these."""
    image = MethodImage()
    image.set_method([literal(image)] if literal else [], **parts)
    return image.file()


# Two literals for each case, which are equal or differ.
EQUAL_LITERALS = {
    "strings": [lambda it: it.add_string(b"abcde")] * 2,
    "words": [lambda it: it.add(Format.WORDS, "Point", 1, 2)] * 2,
    "arrays": [lambda it: it.add_nested(3, it.add_string(b"abc"))] * 2,
    "variables": [lambda it: it.association(0)] * 2,
    "classes": [lambda _: "Point"] * 2,
    "arrays that contain each other": [lambda it: it.add_cycle(3, 5, 7)] * 2,
    "arrays in arrays that contain each other": [
        lambda it: it.add_nested(3, it.add_cycle(3, 5, 7)),
    ]
    * 2,
}
OTHER_LITERALS = {
    "integers": [lambda _: 3, lambda _: 5],
    "strings": [lambda it: it.add_string(b"abc"), lambda it: it.add_string(b"abd")],
    "lengths": [lambda it: it.add_string(b"abc"), lambda it: it.add_string(b"abc\0")],
    "classes of bytes": [
        lambda it: it.add_string(b"abc"),
        lambda it: it.add_bytes("Symbol", b"abc"),
    ],
    "words": [
        lambda it: it.add(Format.WORDS, "Point", 1, 2),
        lambda it: it.add(Format.WORDS, "Point", 1, 3),
    ],
    "classes of arrays": [
        lambda it: it.add_array(ZERO),
        lambda it: it.add(Format.INDEXED, "Point", ZERO),
    ],
    "lengths of arrays": [
        lambda it: it.add_array(ZERO),
        lambda it: it.add_array(ZERO, ZERO),
    ],
    "classes four deep": [
        lambda it: it.add_nested(3, it.add_array()),
        lambda it: it.add_nested(3, it.add(Format.INDEXED, "Point")),
    ],
    "arrays that contain themselves": [lambda it: it.add_cycle(3), lambda it: it.add_cycle(5)],
    "the last of arrays that contain each other": [
        lambda it: it.add_cycle(3, 5, 7),
        lambda it: it.add_cycle(3, 5, 9),
    ],
    "the number of arrays that contain each other": [
        lambda it: it.add_cycle(3, 3),
        lambda it: it.add_cycle(3, 3, 3),
    ],
    "which of the arrays that contain each other": [
        lambda it: it.add_cycle(3, 5),
        lambda it: it.add_cycle(5, 3),
    ],
    "other objects of a class": [
        lambda it: it.add(Format.FIXED, "Point", 3, 5),
        lambda it: it.add(Format.FIXED, "Point", 7, 5),
    ],
    "classes of other objects": [
        lambda it: it.add(Format.FIXED, "Point", ZERO, ZERO),
        lambda it: it.add(Format.FIXED, "Pixel", ZERO, ZERO),
    ],
    "variables": [lambda it: it.association(0), lambda it: it.association(1)],
    "constants": [lambda it: it.nil, lambda it: it.false],
    "classes": [lambda _: "Point", lambda _: "Pixel"],
    "a class and its metaclass": [lambda _: "Point", lambda _: "Point class"],
    "an integer and an object": [lambda _: 3, lambda it: it.nil],
    **{
        f"elements {depth} deep": [
            lambda it, depth=depth: it.add_nested(depth, it.add_string(b"abc")),
            lambda it, depth=depth: it.add_nested(depth, it.add_string(b"abd")),
        ]
        for depth in (1, 2, 3, 4, 5, 2000)
    },
}
