"""Makes a small image with names of all kinds: classes and their metaclasses, instance variables,
methods, globals, class variables, strings and symbols."""

from tests.making.builder import Builder, Ref
from tests.reference.fields import SpecialField
from tests.reference.objects import ZERO, Format

# The first object.
NIL = Ref(0)
# The first field of a method with one literal, and its bytes.
ONE_LITERAL, BYTECODES = 1 << 10 | 1, 0x7C
SPECIAL_FIELDS = 29
# Names of more than 40 bytes.
LONG_SELECTOR = "from:to:by:with:and:or:not:until:always:never:"
LONG_VARIABLE = "aVariableWithANameOfMoreThanFortyBytesInAll"
TEXTS = (b"", b"it's", b"a\\b\n\x7f", b"x" * 40, b"y" * 41, b"'" * 45)


class NamedImage(Builder):
    """The image, to which more objects can be added."""

    def __init__(self):
        super().__init__()
        constants = ("UndefinedObject", "False", "True")
        self.nil, self.false, self.true = (self.add(Format.EMPTY, name) for name in constants)
        self.add_classes()
        kept = self.add_kept_objects()
        fields = [self.nil, self.false, self.true, *[ZERO] * (SPECIAL_FIELDS - 3)]
        fields[SpecialField.SMALLTALK] = self.add_smalltalk({"Point": "Point", "Kept": kept})
        self.add(Format.FIXED, "Point", self.point, kept)  # this object is dead
        fields[SpecialField.COMPACT_CLASSES] = self.add_array("Point")
        self.special = self.add_array(*fields)

    def add_array(self, *elements):
        return self.add(Format.INDEXED, "Array", *elements)

    def add_symbol(self, text):
        return self.add_bytes("Symbol", text.encode())

    def add_dictionary(self, a_class, pairs):
        """Adds a dictionary with an association for each key and value."""
        its = [
            self.add(Format.FIXED, "Association", self.add_symbol(key), value)
            for key, value in pairs.items()
        ]
        return self.add(Format.FIXED, a_class, ZERO, self.add_array(*its, ZERO))

    def add_smalltalk(self, pairs):
        """Adds a system dictionary."""
        return self.add_dictionary("SystemDictionary", pairs)

    def add_methods(self, selectors):
        """Adds a method dictionary with a method for each selector."""
        methods = [
            self.add(Format.METHOD, "CompiledMethod", ONE_LITERAL, "Object", BYTECODES)
            for _ in selectors
        ]
        keys = [self.add_symbol(selector) for selector in selectors]
        values = self.add_array(*methods, ZERO)
        return self.add(Format.INDEXED, "MethodDictionary", ZERO, values, *keys, ZERO)

    def add_class(self, name, superclass=ZERO, own=(), fixed=0, selectors=(), pool=()):
        """Adds a class with its metaclass.

        It has `own` instance variables, and its instances have `fixed` fixed fields."""
        names = [self.add_bytes("String", it.encode()) for it in own]
        the_class = self.add(
            Format.FIXED,
            f"{name} class",
            superclass,
            self.add_methods(selectors),
            fixed + 1 << 2 | 1,
            self.add_array(*names) if names else ZERO,
            ZERO,
            ZERO,
            self.add_symbol(name),
            self.add_dictionary("Dictionary", dict(pool)) if pool else ZERO,
        )
        metaclass = self.add(Format.FIXED, "Metaclass", *[ZERO] * 5, the_class)
        self.classes.update({name: the_class, f"{name} class": metaclass})

    def add_classes(self):
        """Adds the classes that the machine and the names depend on, and some with variables."""
        for name in ("UndefinedObject", "False", "True", "Metaclass", "String", "Symbol", "Array"):
            self.add_class(name, superclass="Object")
        for name in ("CompiledMethod", "MethodDictionary"):
            self.add_class(name, superclass="Object")
        self.add_class("Association", "Object", ("key", "value"), 2)
        self.add_class("Dictionary", "Object", ("tally", "array"), 2)
        self.add_class("SystemDictionary", "Dictionary", (), 2)
        self.add_class("Object", selectors=("yourself", "=", LONG_SELECTOR))
        pool = {"Origin": "Point", "Zero": ZERO}
        self.add_class("Point", "Object", ("x", "y"), 2, ("x", "+", "x:y:"), pool)
        self.add_class("Pixel", "Point", ("color", LONG_VARIABLE), 4, ("+",))
        self.add_class("Miscounted", "Point", ("z",), 5)
        self.add_class("Cache", "Object", ("owner",), 1)
        self.add_class("Spare", "Object")

    def add_kept_objects(self):
        """Adds an array of texts, of objects with variables, one of them weak, and of classes."""
        texts = [self.add_bytes("String", text) for text in TEXTS]
        symbols = [self.add_bytes("Symbol", text) for text in TEXTS]
        self.point = self.add(Format.FIXED, None, ZERO, self.nil, compact=1)
        pixel = self.add(Format.FIXED, "Pixel", ZERO, self.point, self.true, self.false)
        miscounted = self.add(Format.FIXED, "Miscounted", ZERO, ZERO, ZERO)
        text = self.add_bytes("String", b"held weakly")
        cache = self.add(Format.WEAK, "Cache", self.point, pixel, text)
        classes = [it for name, it in self.classes.items() if not name.endswith(" class")]
        return self.add_array(*texts, *symbols, pixel, miscounted, cache, *classes)


def named_file():
    """The file of the image."""
    return NamedImage().file()
