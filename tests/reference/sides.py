"""What one of two images that are compared has under each name."""

import collections
import functools
import typing

from tests.reference.categories import Categories
from tests.reference.fields import AssociationField, ClassField, DictionaryField, SpecialField
from tests.reference.names import SYMBOLS, escaped
from tests.reference.objects import (
    Format,
    compact_index,
    format_of,
    has_bytes,
    is_context,
    is_method,
    traced_end,
)
from tests.reference.tree import Tree
from tests.reference.values import signed, value_of

# The maximum number of bytes of each text in the name of a value.
LONG = 255
# The maximum number of fields of an array whose elements are printed.
SHORT = 5


class Size(typing.NamedTuple):
    """A number of objects, and their bytes."""

    objects: int = 0
    bytes: int = 0


class Held(typing.NamedTuple):
    """The bytes that a variable retains, and whether its value is nil."""

    bytes: int = 0
    is_nil: bool = True


def shown(data, most=None):
    """Bytes as text, cut after this many bytes."""
    return escaped(data[:most]) + (".." if most is not None and len(data) > most else "")


class ClassName(typing.NamedTuple):
    """The name of a class, or of the only instance of a metaclass."""

    data: bytes
    is_meta: bool = False

    def text(self, most=None):
        return shown(self.data, most) + (" class" if self.is_meta else "")


class Name(typing.NamedTuple):
    """The name of an object: what it is, its class if it has one, and its text."""

    kind: str
    a_class: ClassName | None
    data: bytes = b""

    def text(self, most=None):
        """The name as text. Each part is cut after this many bytes."""
        a_class, text = self.a_class and self.a_class.text(most), shown(self.data, most)
        match self.kind:
            case "method":
                return f"{a_class}>>{text}"
            case "global":
                return f"Smalltalk at: #{text}"
            case "class variable":
                return f"{a_class} class variable {text}"
            case "symbol":
                return f"#{text}"
        return a_class


def layout(header):
    """What the fields of an object with this base header are."""
    if is_context(header):
        return "context"
    if has_bytes(header):
        return "bytes"
    if is_method(header):
        return "method"
    if format_of(header) == Format.WEAK:
        return "weak"
    return "fields" if format_of(header) < Format.WEAK else "words"


class Side:
    """What one of the images has under each name."""

    def __init__(self, tree):
        self.tree, self.answers, self.names = tree, tree.answers, tree.names
        self.image = self.answers.image
        self.categories = Categories(self.names)
        self.nil = self.image.strong_field(self.image.special, 0, self.answers.clear_weak)

    @classmethod
    def of(cls, answers):
        return cls(Tree(answers))

    @property
    def total(self):
        return Size(len(self.answers.live), self.answers.reach.live_bytes)

    # ---- names

    def own_name(self, a_class):
        """The whole name of a class or a metaclass that is labelled by it."""
        names = self.names
        if a_class in names.constants or a_class not in names.class_labels:
            return None
        return self.class_name(a_class)

    @functools.cache
    def class_name(self, a_class):
        """The whole name of a class; if nothing states one, what is printed."""
        data, suffix = self.image.naming(a_class, self.answers.clear_weak)
        return ClassName(b"?") if data is None else ClassName(data, bool(suffix))

    @functools.cache
    def name_of_class_of(self, number):
        """The whole name of an object's class."""
        a_class = self.names.class_of(number)
        if a_class is None:
            return ClassName(self.names.class_name(number).encode())
        return self.class_name(a_class)

    @functools.cache
    def variable_name(self, association):
        """The name of a variable by its association."""
        a_class = self.tree.variables[association].a_class
        key = self.image.text(self.names.target(association, AssociationField.KEY))
        if a_class is None:
            return Name("global", None, key)
        return Name("class variable", self.class_name(a_class), key)

    def category(self, a_class):
        """The bytes of the category of a class, if it has one."""
        category = self.categories.object_of(a_class)
        return None if category is None else self.image.text(category)

    @functools.cached_property
    def live_variables(self):
        """The associations of live variables, by address."""
        return [it for it in sorted(self.tree.variables) if self.answers.is_live(it)]

    @functools.cached_property
    def live_classes(self):
        return [it for it in self.names.classes if self.answers.is_live(it)]

    @functools.cached_property
    def live_methods(self):
        """The name of each live method of a live class, with the method."""
        return [
            (Name("method", self.class_name(a_class), selector), number)
            for a_class, its in self.names.owned_methods(self.live_classes)
            for selector, number in its
            if self.answers.is_live(number)
        ]

    @functools.cached_property
    def named(self):
        """The live objects with names, in the order in which they are matched."""
        found = []
        for a_class in self.live_classes:
            name = self.own_name(a_class)
            if name is not None:
                found.append((Name("metaclass" if name.is_meta else "class", name), a_class))
        found += [(self.variable_name(it), it) for it in self.live_variables]
        found += self.live_methods
        found += [
            (Name("symbol", None, self.image.text(it)), it)
            for it in self.answers.live
            if self.is_symbol(it)
        ]
        return found

    def is_symbol(self, number):
        names = self.names
        is_text = self.image.text(number) is not None and names.class_name(number) in SYMBOLS
        return is_text and not self.has_other_name(number)

    def has_other_name(self, number):
        """Whether an object is labelled by its place in the image, not by what it is."""
        names = self.names
        named = names.constants, names.class_labels, names.methods, names.variables
        return any(number in it for it in named)

    @functools.cached_property
    def unique(self):
        """The object of each name that only one object has."""
        counts = collections.Counter(name for name, _ in self.named)
        return {name: number for name, number in self.named if counts[name] == 1}

    def only(self, other, kind):
        """What has a name of a kind that nothing in another image has."""
        theirs = {name for name, _ in other.named}
        return [(name, it) for name, it in self.named if name.kind == kind and name not in theirs]

    @functools.cached_property
    def quiet(self):
        """What only holds methods and variables."""
        names, found = self.names, set()
        smalltalk = names.target(self.image.special, SpecialField.SMALLTALK)
        fields = ClassField.METHODS, ClassField.POOL
        holders = [smalltalk]
        holders += [names.target(it, field) for it in self.live_classes for field in fields]
        for holder in holders:
            found.update((holder, names.target(holder, DictionaryField.ARRAY)))
        return found - {None}

    # ---- what is compared

    @functools.cache
    def kind(self, number):
        """What partners have in common."""
        return self.name_of_class_of(number), layout(self.image.header_of(number))

    def slots(self, number):
        """The words of the class word, if there is one, and of the traced fields."""
        it, words = self.image.objects[number], self.image.words
        class_word = words[it.base - 1] & ~3 if it.base > it.first else None
        return [class_word, *words[it.base + 1 : traced_end(words, it)]]

    def seen(self, word):
        """What a slot with this word leads to: nil instead of a dead object."""
        target = self.image.numbers.get(word)
        if target is not None and not self.answers.is_live(target):
            return self.nil
        return target

    # ---- what is printed

    def words_of(self, number):
        """What an object is in a few words: a value, its whole label, or the elements of a short
        array. None if it is nothing of these."""
        return value_of(self.names, number) or self.whole_label(number) or self.elements(number)

    def whole_label(self, number):
        """The label of an object with whole names. None if it has no name."""
        names = self.names
        if number in names.constants:
            return names.constants[number]
        if number in names.class_labels:
            name = self.class_name(number)
            return name.text(LONG) if name.is_meta else f"class {name.text(LONG)}"
        if number in names.methods:
            a_class, selector = names.methods[number]
            return Name("method", self.class_name(a_class), selector).text(LONG)
        if number in names.variables:
            return self.variable_name(number).text(LONG)
        if not names.has_name(number):
            return None
        if self.is_symbol(number):
            return f"#{escaped(self.image.text(number))}"
        return "'" + escaped(self.image.text(number)).replace("'", "''") + "'"

    def elements(self, number):
        """The elements of a short array."""
        header = self.image.header_of(number)
        words = self.slots(number)[1:]
        if format_of(header) != Format.INDEXED or len(words) > SHORT:
            return None
        return f"({' '.join(map(self.element, words))})"

    def element(self, word):
        """An element of an array in a word or two."""
        target = None if word & 1 else self.seen(word)
        if target is None:
            return self.word_text(word)
        value, names = value_of(self.names, target), self.names
        if value is not None:
            return value
        return names.label(target) if names.has_name(target) else names.class_name(target)

    def word_text(self, word):
        """A word that points to no object."""
        return str(signed(word)) if word & 1 else f"word {word:08x}"

    def held_text(self, word):
        """What a slot with this word holds."""
        target = None if word is None or word & 1 else self.seen(word)
        if target is None:
            return self.word_text(word)
        size = self.answers.reach.sizes[target]
        name = self.name_of_class_of(target).text(LONG)
        return self.words_of(target) or f"{name}, {size} bytes"

    def slot_text(self, number, slot):
        """A slot as text. Slot 0 is the class word, and slot K field K - 1."""
        base = self.image.objects[number].base
        return self.answers.slot_text(number, base + slot if slot else base - 1)

    def header_facts(self, number):
        """The numbers of a header that objects are compared by, with their names."""
        it, header = self.image.objects[number], self.image.header_of(number)
        return {
            "size": 4 * (it.end - it.first),
            "format": format_of(header),
            "compact class index": compact_index(header),
            "header words": it.base - it.first + 1,
            "traced fields": traced_end(self.image.words, it) - it.base - 1,
        }

    def path(self, number):
        """The rows of a shortest path to an object."""
        steps = self.answers.reach.path(number)
        owners = [None, *(owner for owner, _ in steps)]
        return [
            {
                **self.answers.object_row(step),
                **self.answers.step_row(owner, place),
                "retained": self.tree.retained[step],
            }
            for owner, (step, place) in zip(owners, steps)
        ]

    # ---- sizes

    @functools.cached_property
    def classes(self):
        """The size of the live instances of the classes with each name."""
        found = collections.defaultdict(Size)
        for number in self.answers.live:
            name, size = self.name_of_class_of(number), self.answers.reach.sizes[number]
            objects, total = found[name]
            found[name] = Size(objects + 1, total + size)
        return dict(found)

    @functools.cached_property
    def variables(self):
        """What the live variables with each name hold."""
        found = collections.defaultdict(Held)
        for number in self.live_variables:
            name = self.variable_name(number)
            size, was_nil = found[name]
            value = self.names.target(number, AssociationField.VALUE)
            is_nil = self.names.constants.get(value) == "nil"
            total = size + self.tree.retained[number]
            found[name] = Held(total, was_nil and is_nil)
        return dict(found)
