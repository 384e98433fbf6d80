"""The categories of classes, as the value of the global variable `SystemOrganization` states them:
it lists the names of classes in the order of their categories."""

import functools

from tests.reference.fields import AssociationField, ClassField, OrganizerField, SpecialField
from tests.reference.names import STRINGS, SYMBOLS, shortened
from tests.reference.values import signed

# The global variable that lists the classes of each category.
ORGANIZATION = b"SystemOrganization"


class Categories:
    """The categories of the classes of an image."""

    def __init__(self, names):
        self.names, self.image = names, names.image

    @functools.cached_property
    def organizer(self):
        """The value of the first global variable of the name, by address."""
        names = self.names
        smalltalk = names.target(self.image.special, SpecialField.SMALLTALK)
        others = (names.constants, names.class_labels, names.methods)
        found = [
            number
            for _, number in names.associations(smalltalk)
            if not any(number in other for other in others)
            and self.image.text(names.target(number, AssociationField.KEY)) == ORGANIZATION
        ]
        return names.target(min(found), AssociationField.VALUE) if found else None

    @functools.cached_property
    def places(self):
        """The place of the category of each listed object: what is listed twice has the first."""
        ends, listed = (
            self.names.target(self.organizer, field)
            for field in (OrganizerField.ENDS, OrganizerField.LISTED)
        )
        if ends is None or listed is None:
            return {}
        found, start, its = {}, 0, self.names.fields(listed)
        for place, end in enumerate(self.ends(ends)):
            for number in its[start : max(start, end)]:
                if number is not None:
                    found.setdefault(number, place)
            start = max(start, end)
        return found

    def ends(self, array):
        """The SmallIntegers that an array begins with."""
        it = self.image.objects[array]
        for word in self.image.words[it.base + 1 : it.end]:
            if not word & 1:
                return
            yield signed(word)

    @functools.cached_property
    def objects(self):
        """The category of each listed object. None if it is neither a string nor a symbol."""
        array = self.names.target(self.organizer, OrganizerField.CATEGORIES)
        its = [] if array is None else self.names.fields(array)
        found = {}
        for number, place in self.places.items():
            category = its[place] if place < len(its) else None
            found[number] = category if self.is_text(category) else None
        return found

    def is_text(self, number):
        """Whether an object is a string or a symbol, and nothing else by its label."""
        if number is None or self.image.text(number) is None:
            return False
        is_string = self.names.class_name(number) in STRINGS + SYMBOLS
        return is_string and self.names.label(number) == self.names.own_label(number)

    def object_of(self, a_class):
        """The category of a class, or of the instance of a metaclass, if it has one."""
        names, path = self.names, (ClassField.NAME,)
        is_labelled = a_class in names.class_labels and a_class not in names.constants
        if is_labelled and names.is_metaclass(a_class):
            path = ClassField.INSTANCE, ClassField.NAME
        return self.objects.get(names.target(a_class, *path))

    def of_class(self, a_class):
        """The first bytes of the category of a class as text, if it has one."""
        category = self.object_of(a_class)
        return None if category is None else shortened(self.image.text(category))
