"""Finds names for the objects of an image in its own structures: classes, instance variables,
methods, globals and class variables.

Nothing that a name depends on is trusted: where a structure is not as expected, an object has its
class's name and its address."""

import functools

from tests.reference.fields import AssociationField, ClassField, DictionaryField, SpecialField
from tests.reference.image import LONGEST_NAME
from tests.reference.objects import compact_index, has_bytes, is_method

# The labels of some fields of the special objects array, if they have these classes.
CONSTANTS = {
    SpecialField.NIL: ("nil", "UndefinedObject"),
    SpecialField.FALSE: ("false", "False"),
    SpecialField.TRUE: ("true", "True"),
    SpecialField.SMALLTALK: ("Smalltalk", "SystemDictionary"),
}
# The maximum number of classes in a chain of superclasses.
LONGEST_CHAIN = 100
STRINGS, SYMBOLS = ("String", "ByteString"), ("Symbol", "ByteSymbol")


def character(byte):
    """A byte as it is printed."""
    if byte == ord("\\"):
        return r"\\"
    return chr(byte) if 32 <= byte <= 126 else rf"\x{byte:02x}"


def escaped(data):
    """Bytes as they are printed."""
    return "".join(map(character, data))


def end_of(data):
    """What a label has after a text of these bytes."""
    return ".." if len(data) > LONGEST_NAME else ""


def shortened(data):
    """The first bytes as they are printed in a label."""
    return escaped(data[:LONGEST_NAME]) + end_of(data)


def quoted(data):
    """The first bytes as they are printed in the label of a string."""
    return "'" + escaped(data[:LONGEST_NAME]).replace("'", "''") + "'" + end_of(data)


class Names:
    """The names in an image. `live` has the numbers of its live objects."""

    def __init__(self, image, live, clear_weak=False):
        self.image, self.live, self.clear_weak = image, live, clear_weak

    def address(self, number):
        return f"{self.image.address(self.image.objects[number]):08x}"

    @functools.cache
    def class_of(self, number):
        return self.image.class_of(number, self.clear_weak)

    @functools.cache
    def name(self, a_class):
        """The name of a class as it is printed."""
        text, suffix = self.image.naming(a_class, self.clear_weak)
        return "?" if text is None else shortened(text) + suffix

    @functools.cache
    def whole_name(self, a_class):
        """The whole name of a class."""
        text, suffix = self.image.naming(a_class, self.clear_weak)
        return "?" if text is None else escaped(text) + suffix

    def target(self, number, *fields):
        """The object at the end of a path of fields, if there is one."""
        for field in fields:
            if number is None:
                return None
            number = self.image.field(number, field)
        return number

    def fields(self, number):
        """For each field of an object, the object that it points to, if it is traced and does."""
        it = self.image.objects[number]
        return [self.image.field(number, field) for field in range(it.end - it.base - 1)]

    def class_name(self, number):
        """The name of an object's class, or what is printed for an object without a class."""
        a_class = self.class_of(number)
        if a_class is not None:
            return self.name(a_class)
        return f"compact {compact_index(self.image.header_of(number))}"

    @functools.cached_property
    def classes(self):
        """The classes by address: those of live objects, and the instances of metaclasses."""
        found = {self.class_of(number) for number in self.live} - {None}
        found.update(filter(self.is_named_instance, range(len(self.image.objects))))
        return sorted(found)

    def is_named_instance(self, number):
        """Whether the class of an object points back to it, and the object has a name."""
        a_class = self.class_of(number)
        if a_class is None or self.target(a_class, ClassField.INSTANCE) != number:
            return False
        return self.image.text(self.target(number, ClassField.NAME)) is not None

    @functools.cached_property
    def class_labels(self):
        """The label of each class that has a name."""
        names = {number: self.name(number) for number in self.classes}
        return {
            number: name if self.is_metaclass(number) else f"class {name}"
            for number, name in names.items()
            if self.image.naming(number, self.clear_weak)[0] is not None
        }

    def class_named(self, name):
        """The only class of this name."""
        (number,) = (number for number in self.classes if self.whole_name(number) == name)
        return number

    def method_named(self, name):
        """The only method of this name, which has a class, `>>` and a selector."""
        a_class, _, selector = name.partition(">>")
        key = (self.class_named(a_class), selector.encode())
        (number,) = (number for number, it in self.methods.items() if it == key)
        return number

    def is_metaclass(self, number):
        """Whether a class has no name of its own, and that of its instance if it has one."""
        name = self.image.strong_field(number, ClassField.NAME, self.clear_weak)
        return self.image.text(name) is None

    @functools.cached_property
    def methods(self):
        """The class, and the bytes of the selector, of each method in a class's dictionary."""
        found = {}
        for a_class, its in self.owned_methods(self.classes):
            for selector, method in its:
                found.setdefault(method, (a_class, selector))
        return found

    def owned_methods(self, classes):
        """Each class with what `methods_of` yields, unless a class before it has its dictionary."""
        seen = set()
        for a_class in classes:
            dictionary = self.target(a_class, ClassField.METHODS)
            if dictionary not in seen:
                seen.add(dictionary)
                yield a_class, self.methods_of(a_class)

    def methods_of(self, a_class):
        """The bytes of each selector in the dictionary of a class, with the method."""
        selectors = self.target(a_class, ClassField.METHODS)
        array = self.target(selectors, DictionaryField.ARRAY)
        if array is None:
            return
        methods = self.fields(array)
        for selector, method in zip(self.fields(selectors)[DictionaryField.SELECTORS:], methods):
            data = self.image.text(selector)
            if data is not None and method is not None and is_method(self.image.header_of(method)):
                yield data, method

    @functools.cached_property
    def variables(self):
        """The label of each association of a global or a class variable."""
        found = {}
        smalltalk = self.target(self.image.special, SpecialField.SMALLTALK)
        for key, association in self.associations(smalltalk):
            found.setdefault(association, f"Smalltalk at: #{key}")
        for a_class in self.classes:
            for key, association in self.associations(self.target(a_class, ClassField.POOL)):
                name = f"{self.name(a_class)} class variable {key}"
                found.setdefault(association, name)
        return found

    def associations(self, dictionary):
        """The key of each association in a dictionary, as printed, with the association."""
        array = self.target(dictionary, DictionaryField.ARRAY)
        for number in self.fields(array) if array is not None else ():
            data = self.image.text(self.target(number, AssociationField.KEY))
            if data is not None:
                yield shortened(data), number

    @functools.cached_property
    def constants(self):
        """The labels of nil, false, true and the system dictionary."""
        special = self.image.special
        found = {}
        for field, (label, name) in CONSTANTS.items():
            number = self.target(special, field)
            if number is not None and self.class_name(number) == name:
                found.setdefault(number, label)
        return {**found, special: "special objects array"}

    @functools.cache
    def label(self, number):
        """The label of an object."""
        for labels in (self.constants, self.class_labels):
            if number in labels:
                return labels[number]
        if number in self.methods:
            a_class, selector = self.methods[number]
            return f"{self.name(a_class)}>>{shortened(selector)}"
        if number in self.variables:
            return self.variables[number]
        return self.own_label(number)

    def has_name(self, number):
        """Whether the label of an object is more than its class and its address."""
        return self.label(number) != f"{self.class_name(number)} {self.address(number)}"

    def own_label(self, number):
        """The label of an object that nothing names."""
        name, data = self.class_name(number), self.image.text(number)
        if data is not None and name in STRINGS:
            return quoted(data)
        if data is not None and name in SYMBOLS:
            return f"#{shortened(data)}"
        return f"{name} {self.address(number)}"

    @functools.cache
    def variables_of(self, a_class):
        """The names of the instance variables of a class, those of its superclasses first.

        None if they are unknown, or if their number is not that of the fixed fields that the class
        states."""
        names, number = [], a_class
        for _ in range(LONGEST_CHAIN):
            own = self.own_variables(number)
            if own is None:
                return None
            names = own + names
            number = self.target(number, ClassField.SUPERCLASS)
            if number is None:
                break
        return names if len(names) == self.image.fixed_fields(a_class) else None

    def own_variables(self, a_class):
        """The names of the instance variables that a class adds, or None if they are unknown."""
        array = self.target(a_class, ClassField.VARIABLES)
        names = [] if array is None else [self.image.text(it) for it in self.fields(array)]
        return None if None in names else [shortened(name) for name in names]

    def field_name(self, number, field):
        """The name of a field of an object, if it has one."""
        header, a_class = self.image.header_of(number), self.class_of(number)
        if a_class is None or has_bytes(header) or is_method(header):
            return None
        names = self.variables_of(a_class)
        return names[field] if names is not None and field < len(names) else None
