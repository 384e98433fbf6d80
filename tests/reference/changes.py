"""What `sqzlook diff` must print about two images."""

import collections
import functools
import typing

from tests.reference.alike import first_difference
from tests.reference.differences import WHOLE, Differences
from tests.reference.fields import ClassField
from tests.reference.image import LONGEST_NAME
from tests.reference.partners import Partners
from tests.reference.sides import Name, Size, shown

# The maximum number of rows of each kind in the text, unless all are requested.
SHOWN = 20
# A path with more steps than twice this is cut in the middle, as text.
HALF = 10
# The parts of the definition of a class, by slot; slot 0 is the class word.
PARTS = {ClassField.SUPERCLASS + 1: "superclass", ClassField.VARIABLES + 1: "instance_variables"}
# What is said of what only one of the images has: of the old, and of the new.
REMOVED, ADDED = "removed", "added"


class Change(typing.NamedTuple):
    """What has a name in the old image, in the new one, or in both."""

    name: str | None
    old: tuple | None
    new: tuple | None

    @property
    def grown(self):
        """By how many bytes it grew."""
        old, new = (it.bytes if it else 0 for it in (self.old, self.new))
        return new - old


def changes_of(old, new):
    """What has each name in two images, by name."""
    names = [{name.text(): name for name in it} for it in (old, new)]
    for text in sorted(names[0].keys() | names[1].keys()):
        name = names[0].get(text) or names[1][text]
        its = (side.get(it.get(text)) for side, it in zip((old, new), names))
        yield Change(name.text(LONGEST_NAME), *its)


def largest_first(changes):
    return sorted(changes, key=lambda it: (-abs(it.grown), it.name))


def bytes_in(it):
    """The bytes of what is in an image, if it is."""
    return it and it.bytes


def joined(text, of_class):
    """The slots that lead to a difference, and what differs there, as one text."""
    parts = [it if it[0] in ".[" else f" {it}" for it in text.path]
    if len(parts) > 2 * HALF:
        parts[HALF:-HALF] = [" .. "]
        parts[HALF + 1] = parts[HALF + 1].strip()
    line = "".join(parts)
    if of_class and line.startswith("."):
        line = line[1:]
    return f"{line} {text.aspect or ''}".strip()


class Row(typing.NamedTuple):
    """A row of what has a name: the members of the JSON, and the line of the text."""

    members: dict
    line: str


class Changes:
    """What differs between two images."""

    def __init__(self, old, new):
        self.sides = old, new
        self.old, self.new = old.total, new.total
        classes, variables = (
            list(changes_of(getattr(old, kind), getattr(new, kind)))
            for kind in ("classes", "variables")
        )
        self.classes = largest_first(it for it in classes if it.old != it.new)
        self.variables = largest_first(
            it for it in variables if bytes_in(it.old) != bytes_in(it.new)
        )
        self.partners = Partners(old, new)
        self.differences = Differences(self.partners)
        self.new_bytes = collections.Counter()
        for number in new.live_variables:
            name = new.variable_name(number).text(LONGEST_NAME)
            self.new_bytes[name] += self.partners.new_bytes[number]
        self.holders = self.partners.holders
        self.values, self.definitions, self.methods = [], [], []
        self.verbs = collections.Counter()
        self.add_only()
        for change in self.differences.shown:
            self.add_change(change)
        self.add_categories()
        self.method_count = len(new.live_methods) + self.verbs[REMOVED]

    # ---- rows of what has a name

    def add_only(self):
        """Adds the classes and methods that only one image has."""
        old, new = self.sides
        for verb, side, other in ((REMOVED, old, new), (ADDED, new, old)):
            for name, number in side.only(other, "class"):
                self.definitions.append(self.class_row(verb, side, name, number))
            for name, number in side.only(other, "method"):
                self.methods.append(self.only_method_row(verb, side, name, number))
                self.verbs[verb] += 1

    def class_row(self, verb, side, name, number):
        """The row of a class that only one image has."""
        superclass = side.names.target(number, ClassField.SUPERCLASS)
        is_class = superclass in set(side.names.classes)
        text = side.class_name(superclass).text(LONGEST_NAME) if is_class else "nil"
        old, new = (text, None) if verb == REMOVED else (None, text)
        members = {
            "kind": "definition",
            "name": name.text(LONGEST_NAME),
            "part": "superclass",
            "slots": [],
            "old": old,
            "new": new,
            "differences": None,
        }
        return Row(members, f"  {verb:7}  {name.text(LONGEST_NAME)}: superclass {text}")

    def only_method_row(self, verb, side, name, number):
        """The row of a method that only one image has."""
        size = side.answers.reach.sizes[number]
        old, new = (size, None) if verb == REMOVED else (None, size)
        text = name.text(LONGEST_NAME)
        members = {
            "kind": "method",
            "name": text,
            "slots": [],
            "old": old,
            "new": new,
            "old_value": None,
            "new_value": None,
            "differences": None,
        }
        return Row(members, f"  {verb:7}  {text}")

    def owner_name(self, pair):
        """The name of an owner by the label of its old object. None if that is not of a class, a
        method, a variable or a symbol."""
        side, number = self.sides[0], self.differences.pairs[pair][0]
        names = side.names
        if number in names.constants:
            return None
        if number in names.class_labels:
            name = side.class_name(number)
            return Name("metaclass" if name.is_meta else "class", name)
        if number in names.methods:
            a_class, selector = names.methods[number]
            return Name("method", side.class_name(a_class), selector)
        if number in side.tree.variables:
            return side.variable_name(number)
        return Name("symbol", None, side.image.text(number)) if side.is_symbol(number) else None

    def owner_text(self, pair):
        name = self.owner_name(pair)
        if name is None:
            return self.sides[0].names.label(self.differences.pairs[pair][0])
        return name.text(LONGEST_NAME)

    def line_of(self, change):
        """The name, the path and the values of a difference as text."""
        name, text = self.owner_name(change.owner), self.differences.text(change)
        path = joined(text, name is not None and name.kind in ("class", "metaclass"))
        old, new = text.cut()
        more = f", and {change.count - 1} more" if change.count > 1 else ""
        return f"{self.owner_text(change.owner)}{path and ' '}{path}: {old} -> {new}{more}"

    def add_change(self, change):
        """Adds the row of an owner."""
        differences, (old, new) = self.differences, self.differences.pairs[change.owner]
        name, text = self.owner_name(change.owner), differences.text(change)
        kind = name and name.kind
        before = {"kind": "value", "name": self.owner_text(change.owner)}
        values = text.cut(WHOLE)
        after = {"slots": text.slots, "old": values[0], "new": values[1]}
        rows, verb = self.values, "  "
        if kind == "method":
            sizes = (it.answers.reach.sizes[at] for it, at in zip(self.sides, (old, new)))
            after |= dict(zip(("old", "new"), sizes), old_value=values[0], new_value=values[1])
            before["kind"], rows, verb = "method", self.methods, "  changed  "
            self.verbs["changed"] += 1
        elif kind in ("class", "metaclass"):
            before |= {"kind": "definition", "part": self.part(change)}
            rows, verb = self.definitions, "  changed  "
        members = {**before, **after, "differences": change.count}
        rows.append(Row(members, verb + self.line_of(change)))

    def part(self, change):
        """Which part of the definition of a class a difference is in."""
        steps = self.differences.path(change.pair)
        first = steps[0].slot if steps else change.place.slot
        return PARTS.get(first, "other")

    def add_categories(self):
        """Adds the classes with another category, by name."""
        old, new = self.sides
        shared = {it for it in old.unique.keys() & new.unique.keys() if it.kind == "class"}
        for name in sorted(shared, key=lambda it: it.a_class.data):
            categories = old.category(old.unique[name]), new.category(new.unique[name])
            if categories[0] != categories[1]:
                texts = (it if it is None else shown(it, LONGEST_NAME) for it in categories)
                self.definitions.append(self.category_row(name.text(LONGEST_NAME), *texts))

    def category_row(self, name, old, new):
        members = {
            "kind": "definition",
            "name": name,
            "part": "category",
            "slots": [],
            "old": old,
            "new": new,
            "differences": None,
        }
        texts = ("none" if it is None else f"'{it}'" for it in (old, new))
        return Row(members, f"  changed  {name}: category {' -> '.join(texts)}")

    # ---- all rows

    @functools.cached_property
    def difference(self):
        """The first objects that differ, or None if the images are alike."""
        return first_difference(*(side.answers for side in self.sides))

    @property
    def status(self):
        return 1 if self.difference else 0

    @property
    def is_nameless(self):
        """Whether the images differ, but no row says so."""
        named = self.classes, self.variables, self.values, self.definitions, self.methods
        by_name = any(named) or self.holders or self.old != self.new
        return self.difference is not None and not by_name

    def rows(self):
        """What `--json` prints."""
        rows = [self.row("total", Change(None, self.old, self.new), Size._asdict)]
        rows += [self.row("class", change, Size._asdict) for change in self.classes]
        rows += [
            {**self.row("retained", change, bytes_in), "new_bytes": self.share(change)}
            for change in self.variables
        ]
        for kind in (self.values, self.definitions, self.methods):
            rows += [it.members for it in kind]
        rows += map(self.partners.row, self.holders)
        if self.is_nameless:
            rows.append(self.first_row())
        return rows

    @property
    def left_out(self):
        """The first difference that is left out of the rows, if there is one."""
        return next(iter(self.differences.quiet), None)

    def first_row(self):
        """The row of the first objects that differ."""
        objects = [
            {**side.answers.object_row(it), "path": side.path(it)} for side, it in self.differing()
        ]
        change = self.left_out
        text = change and self.differences.text(change)
        values = text.cut(WHOLE) if text else (None, None)
        return {
            "kind": "object",
            "name": change and self.owner_text(change.owner),
            "slots": text.slots if text else [],
            **dict(zip(("old", "new"), objects)),
            "old_value": values[0],
            "new_value": values[1],
            "differences": change and change.count,
        }

    def differing(self):
        """The two images, each with its object of the first difference."""
        change = self.left_out
        return zip(self.sides, self.differences.pairs[change.pair] if change else self.difference)

    def row(self, kind, change, value):
        old, new = (it and value(it) for it in (change.old, change.new))
        return {"kind": kind, "name": change.name, "old": old, "new": new}

    def lines(self, show_all=False):
        """The lines of the text."""
        total = Change(None, self.old, self.new)
        numbers = ", ".join(f"{self.verbs[it]} {it}" for it in (ADDED, REMOVED, "changed"))
        parts = (
            (f"classes   {len(self.classes)} changed", map(self.class_line, self.classes)),
            (f"retained  {len(self.variables)} changed", map(self.variable_line, self.variables)),
            (f"values    {len(self.values)} changed", (it.line for it in self.values)),
            (f"definitions {len(self.definitions)} changed", (it.line for it in self.definitions)),
            (f"methods   {numbers} of {self.method_count}", (it.line for it in self.methods)),
            (f"holders   {len(self.holders)} changed", map(self.partners.line, self.holders)),
        )
        yield (
            f"objects   {self.old.objects} -> {self.new.objects}, "
            f"bytes {self.old.bytes} -> {self.new.bytes} ({total.grown:+})"
        )
        for head, lines in parts:
            lines = list(lines)
            shown = len(lines) if show_all else SHOWN
            yield from (head, *lines[:shown])
            if len(lines) > shown:
                yield rest_line(len(lines) - shown)
        if self.difference is None:
            yield "the images are alike"
        elif self.is_nameless:
            yield from self.first_lines()

    def first_lines(self):
        """The lines about the first objects that differ."""
        old, new = (
            f"{side.names.address(it)} {side.tree.short_label(it)}" for side, it in self.differing()
        )
        yield f"first difference: {old} -> {new}"
        if self.left_out:
            yield f"  {self.line_of(self.left_out)}"
        for name, (side, it) in zip(("old", "new"), self.differing()):
            yield f"  {name}: " + path_line(side, side.answers.slot_text, it)

    def class_line(self, change):
        old, new = (it.objects if it else 0 for it in (change.old, change.new))
        return f"{change.grown:+11} bytes {new - old:+10} objects  {change.name}"

    def variable_line(self, change):
        share = self.share(change)
        text = f"({share or 'none'} new)" if share or share == 0 and change.grown > 0 else ""
        name = change.name + note(change.old, change.new)
        return f"{change.grown:+11} bytes {text:16} {name}"

    def share(self, change):
        """The bytes of new objects that a variable retains now, if there is such a variable."""
        return None if change.new is None else self.new_bytes[change.name]


def note(old, new):
    """What the line of a variable ends with."""
    if old is None or new is None:
        return " (new)" if old is None else " (gone)"
    if old.is_nil != new.is_nil:
        return " (was nil)" if old.is_nil else " (now nil)"
    return ""


def path_line(side, text_of, number):
    """A shortest path to an object as one line. `text_of` gives the text of a slot."""
    _, *steps = side.answers.reach.path(number)
    owners = [side.answers.image.special, *(it for it, _ in steps)]
    parts = [
        f"{text_of(owner, place)} {side.names.address(it)} {side.tree.short_label(it)}"
        for owner, (it, place) in zip(owners, steps)
    ]
    cut = len(parts) - 2 * HALF
    if cut > 0:
        parts[HALF:-HALF] = [f".. {cut} more .."]
    return " > ".join(["special objects array", *parts])


def rest_line(count):
    """The line about rows that are not shown."""
    return f"... {count} more row{'' if count == 1 else 's'}; --all prints all"
