"""What `sqzlook --json` must print about an image: the rows of each command."""

import functools
import typing

from tests.reference.categories import Categories
from tests.reference.faults import Defects
from tests.reference.fields import SPECIAL_NAMES, AssociationField
from tests.reference.names import Names, escaped
from tests.reference.objects import Format, compact_index, format_of, has_bytes, traced_end
from tests.reference.reachability import Reachability
from tests.reference.repair import repair_row
from tests.reference.values import list_preview, method_of, signed, value_of

# What stands for the category of objects whose class has none.
NO_CATEGORY = "no category"


class Group(typing.NamedTuple):
    """The class of some objects, or if they have none, their compact index."""

    a_class: int | None
    compact: int | None


class Slot(typing.NamedTuple):
    """A slot: its data word, what kind of word it holds, and the object that it points to."""

    place: int
    kind: str
    word: int
    target: int | None


class Answers:
    """The answers about an image, if weak references are kept or cleared."""

    def __init__(self, image, clear_weak=False):
        self.image, self.clear_weak = image, clear_weak
        self.reach = Reachability(image, clear_weak)
        self.live = sorted(self.reach.found)
        self.names = Names(image, self.reach.found, clear_weak)
        self.categories = Categories(self.names)

    @functools.cached_property
    def defects(self):
        """All faults of the image and its live objects."""
        return Defects(self.names).faults()

    def faults(self, show_all=False):
        """The rows of these faults, or that of the first. Only one fault alone has a path."""
        found = self.defects if show_all else self.defects[:1]
        rows = []
        for fault in found:
            row = {**fault.row(len(self.image.prefix)), "owner": self.owner(fault)}
            number = fault.number_of_object
            if len(found) == 1 and number is not None and row["owner"] is None:
                row["path"] = self.path(number)
            rows.append(row)
        return rows

    def is_live(self, number):
        return number in self.reach.found

    @functools.cache
    def retained(self, number):
        """The bytes that an object retains, if it is live."""
        return self.reach.retained_bytes([number]) if self.is_live(number) else None

    def check(self, path, show_all=False):
        return {
            "image": path,
            "sound": not self.defects,
            "objects": len(self.image.objects),
            "live_objects": len(self.live),
            "live_bytes": self.reach.live_bytes,
            "faults": self.faults(show_all),
            "readable": None,
            "repair": self.repair() if self.defects else None,
        }

    def repair(self):
        """What `mend --nil` keeps and clears of the file of this image."""
        return repair_row(self.image.file(), self.names.clear_weak)

    def info(self, path):
        image = self.image
        return {
            "image": path,
            "order": f"{image.order}-endian",
            "offset": len(image.prefix),
            "base": f"{image.base:08x}",
            "data_bytes": 4 * len(image.words),
            "special_objects": f"{image.header[4]:08x}",
            "objects": len(image.objects),
            "live_objects": len(self.live),
            "live_bytes": self.reach.live_bytes,
            "dead_bytes": sum(self.reach.sizes) - self.reach.live_bytes,
            "free_chunks": self.free_chunks(),
            "fault": next(iter(self.faults()), None),
        }

    def free_chunks(self):
        """The number of free chunks before, between and after the objects."""
        free, words, objects = 0, self.image.words, self.image.objects
        ends = [0, *(it.end for it in objects)]
        firsts = [*(it.first for it in objects), len(words)]
        for at, first in zip(ends, firsts):
            while at < first:
                at += words[at] >> 2
                free += 1
        return free

    def group_of(self, number):
        """The group of an object in the class histogram."""
        a_class = self.names.class_of(number)
        compact = compact_index(self.image.header_of(number)) if a_class is None else None
        return Group(a_class, compact)

    def groups(self, numbers):
        """The objects of each group among these."""
        found = {}
        for number in numbers:
            found.setdefault(self.group_of(number), []).append(number)
        return found

    @functools.cached_property
    def live_groups(self):
        return self.groups(self.live)

    def counted(self, dead=False):
        """The live or the dead objects."""
        numbers = range(len(self.image.objects))
        return [number for number in numbers if self.is_live(number) != dead]

    def census(self, path, dead=False):
        """The class histogram of the live or the dead objects."""
        chosen = self.counted(dead)
        groups = self.groups(chosen)
        rows = [self.census_row(group, groups[group]) for group in self.by_size(groups)]
        return [{"image": path, **row} for row in (*rows, self.census_row(None, chosen))]

    def category_census(self, path, dead=False):
        """The sums of the class histogram by category."""
        chosen, categories = self.counted(dead), {}
        for number in chosen:
            categories.setdefault(self.category_of(self.group_of(number)), []).append(number)
        rows = [self.category_row(name, its) for name, its in sorted(categories.items())]
        rows.sort(key=lambda row: -row["bytes"])
        return [{"image": path, **row} for row in (*rows, self.category_row(None, chosen))]

    def category_of(self, group):
        """The category of the class of a group, as a row has it."""
        category = None if group.a_class is None else self.categories.of_class(group.a_class)
        return NO_CATEGORY if category is None else category

    def category_row(self, name, numbers):
        """The row of the objects of a category, or of all."""
        groups, size = self.groups(numbers), self.reach.bytes_of(numbers)
        return {"category": name, "classes": len(groups), "objects": len(numbers), "bytes": size}

    def by_size(self, groups):
        """These groups in the order of a class histogram."""
        sizes = {group: self.reach.bytes_of(its) for group, its in groups.items()}
        return sorted(groups, key=lambda group: (-sizes[group], group.a_class is None, group))

    def retained_census(self, path):
        """The class histogram of the live objects with what the objects of each group retain, those
        that retain most first. All objects retain all live bytes."""
        groups, (*rows, last) = self.live_groups, self.census(path)
        for row, group in zip(rows, self.by_size(groups)):
            row["retained"] = self.reach.bytes_of(self.dominated_by(groups[group]))
        rows.sort(key=lambda row: -row["retained"])
        return [*rows, {**last, "retained": self.reach.live_bytes}]

    def dominated_by(self, numbers):
        """The objects that one of these live objects retains alone, each once."""
        return set().union(*(self.reach.retained_by([number]) for number in numbers))

    def census_row(self, group, numbers):
        """The row of the objects of a group, or of all."""
        name, address, category = None, None, None
        if group is not None and group.a_class is None:
            name = f"compact {group.compact}"
        elif group is not None:
            name, address = self.names.name(group.a_class), self.names.address(group.a_class)
            category = self.categories.of_class(group.a_class)
        return {
            "class": name,
            "address": address,
            "category": category,
            "objects": len(numbers),
            "bytes": self.reach.bytes_of(numbers),
        }

    def list(self, group, by="retained"):
        """The live objects of a group."""
        numbers = self.live_groups.get(group, [])
        rows = sorted(map(self.instance_row, numbers), key=lambda row: -row["bytes"])
        if by == "retained":
            rows.sort(key=lambda row: -row["retained"])
        together = self.reach.retained_bytes(numbers)
        return [*rows, self.total_row(numbers, together)]

    def dead_list(self, group):
        """The objects of a group that are not live."""
        dead = [it for it in range(len(self.image.objects)) if not self.is_live(it)]
        numbers = self.groups(dead).get(group, [])
        rows = sorted(map(self.instance_row, numbers), key=lambda row: -row["bytes"])
        return [*rows, self.total_row(numbers, None)]

    def total_row(self, numbers, together):
        """The row of all objects of a list."""
        size = self.reach.bytes_of(numbers)
        return {"objects": len(numbers), "bytes": size, "retained_together": together}

    def instance_row(self, number):
        """The row of an object in a list."""
        return {
            "address": self.names.address(number),
            "bytes": self.reach.sizes[number],
            "retained": self.retained(number),
            "preview": list_preview(self.names, number),
            "variable": self.holders.get(number),
        }

    @functools.cached_property
    def holders(self):
        """The label of the first live variable that holds each object, if one does."""
        found = {}
        for association in sorted(self.names.variables):
            label = self.names.variables[association]
            if self.is_live(association) and self.names.label(association) == label:
                value = self.names.target(association, AssociationField.VALUE)
                found.setdefault(value, label)
        return found

    def show(self, number):
        """An object, its header, its slots and its text."""
        it, header = self.image.objects[number], self.image.header_of(number)
        a_class, text = self.names.class_of(number), self.image.text(number)
        return {
            "address": self.names.address(number),
            "class": self.names.class_name(number),
            "class_address": None if a_class is None else self.names.address(a_class),
            "label": self.names.label(number),
            "live": self.is_live(number),
            "bytes": self.reach.sizes[number],
            "retained": self.retained(number),
            "header_words": it.base - it.first + 1,
            "format": format_of(header),
            "hash": header >> 17 & 0xFFF,
            "compact_index": compact_index(header),
            "value": value_of(self.names, number),
            "method": method_of(self.image, number),
            "slots": [self.slot_row(number, slot) for slot in self.slots(number)],
            "text": None if text is None else escaped(text),
        }

    def slots(self, number):
        """The class word of an object, if it has one, and its fields, unless they are bytes."""
        it, words = self.image.objects[number], self.image.words
        if it.base > it.first:
            word = words[it.base - 1] & ~3
            target = self.image.numbers.get(word)
            yield Slot(it.base - 1, "bad" if target is None else "pointer", word, target)
        if not has_bytes(words[it.base]):
            weak = self.image.first_weak(number)
            for place in range(it.base + 1, it.end):
                yield self.field_slot(it, place, weak is not None and place >= weak)

    def field_slot(self, it, place, is_weak):
        """A field of an object."""
        word = self.image.words[place]
        if place >= traced_end(self.image.words, it):
            return Slot(place, "untraced", word, None)
        if word & 1:
            return Slot(place, "integer", word, None)
        target = self.image.numbers.get(word)
        if target is None:
            return Slot(place, "bad", word, None)
        return Slot(place, "weak" if is_weak else "pointer", word, target)

    def slot_row(self, number, slot):
        value = signed(slot.word) if slot.kind == "integer" else f"{slot.word:08x}"
        return {
            **self.slot_name(number, slot.place),
            "kind": slot.kind,
            "value": value,
            "label": None if slot.target is None else self.names.label(slot.target),
        }

    def slot_name(self, number, place):
        """A slot of an object, and its name if it has one."""
        base = self.image.objects[number].base
        if place < base:
            return {"slot": "class", "name": None}
        field = place - base - 1
        if number == self.image.special:
            return {"slot": field, "name": SPECIAL_NAMES.get(field)}
        return {"slot": field, "name": self.names.field_name(number, field)}

    def slot_text(self, owner, place):
        """A slot as text."""
        row = self.slot_name(owner, place)
        field, name = row["slot"], row["name"]
        if field == "class":
            return field
        if owner == self.image.special:
            return f"special object {field}" + (f", {name}" if name else "")
        if name is not None:
            return f".{name}"
        if (method := method_of(self.image, owner)) is not None and field <= method["literals"]:
            return f"literal {field}" if field else "header"
        first = self.first_indexed(owner)
        return f"field {field}" if first is None or field < first else f"[{field - first + 1}]"

    def first_indexed(self, number):
        """The first indexed field of an object, if it has such fields."""
        header = self.image.header_of(number)
        if format_of(header) == Format.INDEXED:
            return 0
        if format_of(header) not in (Format.FIXED_AND_INDEXED, Format.WEAK):
            return None
        a_class = self.names.class_of(number)
        fixed = None if a_class is None else self.image.fixed_fields(a_class)
        return None if fixed is None or fixed < 0 else fixed

    def owner(self, fault):
        """The name of the object at fault with the slot, if the object has a name."""
        number = fault.number_of_object
        if number is None or not self.names.has_name(number):
            return None
        label, base = self.names.label(number), self.image.objects[number].base
        return label if fault.place == base else f"{label}, {self.slot_text(number, fault.place)}"

    def is_weak(self, number, place):
        """Whether this data word is a weak field of an object."""
        weak = self.image.first_weak(number)
        return weak is not None and place >= weak

    def why(self, number):
        """A shortest path to an object, if it is live."""
        path = self.path(number) if self.is_live(number) else None
        return {
            "address": self.names.address(number),
            "class": self.names.class_name(number),
            "bytes": self.reach.sizes[number],
            "retained": self.retained(number),
            "path": path,
        }

    def path(self, number):
        """The steps of the path to a live object."""
        steps = self.reach.path(number)
        owners = [None, *(owner for owner, _ in steps)]
        return [
            {
                **self.object_row(step),
                **self.step_row(owner, place),
                "retained": self.retained(step),
            }
            for owner, (step, place) in zip(owners, steps)
        ]

    def step_row(self, owner, place):
        """The slot of a step, or that of the special objects array, which has no owner."""
        if owner is None:
            return {"slot": None, "name": None, "weak": False}
        return {**self.slot_name(owner, place), "weak": self.is_weak(owner, place)}

    def object_row(self, number):
        return {
            "address": self.names.address(number),
            "class": self.names.class_name(number),
            "label": self.names.label(number),
        }

    @functools.cached_property
    def references(self):
        """The owner and the data word of each slot of a live object that points to an object."""
        found = {}
        for place, owner, target in self.image.strong_pointers(self.clear_weak):
            if self.is_live(owner):
                found.setdefault(target, []).append((owner, place))
        return found

    def refs(self, number):
        """The slots of live objects that point to an object."""
        return [
            {
                "to": self.names.address(number),
                **self.object_row(owner),
                **self.step_row(owner, place),
            }
            for owner, place in self.references.get(number, [])
        ]


def unreadable_check(path, fault, readable=None, repair=None):
    """The row of `check` about an image that cannot be read for this fault, itself a row, with how
    much can be read past damage, and what `mend --nil` keeps."""
    return {
        "image": path,
        "sound": False,
        "objects": None,
        "live_objects": None,
        "live_bytes": None,
        "faults": [fault],
        "readable": readable,
        "repair": repair,
    }


def unreadable_info(path, fault, header=None):
    """The row of `info` about such an image, with what its header says if it has one."""
    unknown = ("objects", "live_objects", "live_bytes", "dead_bytes", "free_chunks")
    known = ("order", "offset", "base", "data_bytes", "special_objects")
    return {
        "image": path,
        **(header or dict.fromkeys(known)),
        **dict.fromkeys(unknown),
        "fault": fault,
    }
