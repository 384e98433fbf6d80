"""What differs between the partners in two images, and what owns the differences."""

import functools
import typing

from tests.reference.fields import AssociationField
from tests.reference.file_format import bytes_of
from tests.reference.objects import Format, format_of, has_bytes, is_method, traced_end

# The maximum number of characters of a text that is not cut: in a line, and in JSON.
SHOWN, WHOLE = 40, 1000
# A last byte of at least this says that the last four bytes of a method are a source pointer.
SOURCE_FLAG, SOURCE_BYTES = 252, 4
# The bits of a base header with the hash, and their place.
HASH, HASH_SHIFT = 0xFFF << 17, 17
# The facts of the headers of two methods, and of other objects, that are no slots.
METHOD_FACTS = "compact class index", "traced fields"
FACTS = "size", "format", "compact class index", "header words", "traced fields"
TRAILER_FACTS = "size", "format", "header words"
# The places that are left out of the rows.
LEFT_OUT = "hash", "trailer"


def without_trailer(data):
    """The bytes of a method after its literals, but without the trailer."""
    if not data:
        return data
    if data[-1] >= SOURCE_FLAG:
        return data[:-SOURCE_BYTES]
    if data[-1] == 0:
        near = [at for at in range(len(data) - 1)[-SOURCE_BYTES:] if data[at] != 0]
        if near:
            return data[: near[-1] + 1]
    return data[: max(0, len(data) - data[-1] - 1)]


class Place(typing.NamedTuple):
    """Where partners differ: a part of them, or a slot, where 0 is the class word."""

    part: str
    slot: int | None = None


class Step(typing.NamedTuple):
    """A slot of a pair, which leads to both objects of another."""

    pair: int
    slot: int


class Change(typing.NamedTuple):
    """What differs in the objects of an owner: its pair, the first pair that differs and where,
    and how many differences there are."""

    owner: int
    pair: int
    place: Place
    count: int


class Text(typing.NamedTuple):
    """A difference as text: the slots that lead to it, what tells the objects there apart if their
    words do not, and what that is in both images."""

    path: list
    aspect: str | None
    old: str
    new: str

    @property
    def slots(self):
        """What JSON has of the path."""
        return self.path if self.aspect is None else [*self.path, self.aspect]

    def cut(self, most=SHOWN):
        """The values, cut where they differ."""
        if max(len(self.old), len(self.new)) <= most:
            return self.old, self.new
        pairs = enumerate(zip(self.old, self.new))
        shorter = min(len(self.old), len(self.new))
        first = next((at for at, (one, other) in pairs if one != other), shorter)
        start, dots = (0, "") if first < most else (first, "..")
        return tuple(
            dots + text[start : start + most] + (".." if len(text) > start + most else "")
            for text in (self.old, self.new)
        )


class Differences:
    """The differences of the partners in two images."""

    def __init__(self, partners):
        self.partners, self.pairs = partners, partners.pairs
        self.old, self.new = partners.old, partners.new
        self.place_of = {old: at for at, (old, _) in enumerate(self.pairs)}

    @functools.cached_property
    def anchors(self):
        """The pairs from which the walk began."""
        return {self.place_of[old] for old, _ in self.partners.offered}

    @functools.cached_property
    def leads(self):
        """The step that leads to each pair first, but to those from which the walk began."""
        found = {}
        for at, (old, new) in enumerate(self.pairs):
            for slot, targets in enumerate(self.targets(old, new)):
                place = self.place_of.get(targets[0])
                if place is None or place <= at or self.pairs[place] != targets:
                    continue
                if place not in self.anchors:
                    found.setdefault(place, Step(at, slot))
        return found

    def targets(self, old, new):
        """What each slot that both objects have leads to."""
        for word, other in zip(self.old.slots(old), self.new.slots(new)):
            yield self.old.seen(word), self.new.seen(other)

    @functools.cached_property
    def owners(self):
        """The pair that owns each pair."""
        found = []
        for at in range(len(self.pairs)):
            found.append(found[self.leads[at].pair] if at in self.leads else at)
        return found

    def owner_of(self, old):
        """The pair that owns an object of the old image."""
        return self.owners[self.place_of[old]]

    def path(self, pair):
        """The steps from the owner of a pair."""
        found = []
        while pair in self.leads:
            found.append(self.leads[pair])
            pair = found[-1].pair
        return found[::-1]

    # ---- where partners differ

    def are_methods(self, pair):
        return all(
            is_method(side.image.header_of(it))
            for side, it in zip((self.old, self.new), self.pairs[pair])
        )

    def places(self, pair):
        """The places at which the objects of a pair differ."""
        old, new = self.pairs[pair]
        facts = self.old.header_facts(old), self.new.header_facts(new)
        are_methods = self.are_methods(pair)

        def differ(names):
            return any(facts[0][name] != facts[1][name] for name in names)

        if differ(METHOD_FACTS if are_methods else FACTS):
            yield Place("header")
        if self.hash(self.old, old) != self.hash(self.new, new):
            yield Place("hash")
        if are_methods:
            if self.bytecodes(self.old, old) != self.bytecodes(self.new, new):
                yield Place("words")
            data = self.untraced(self.old, old), self.untraced(self.new, new)
            if differ(TRAILER_FACTS) or data[0] != data[1]:
                yield Place("trailer")
        elif self.untraced(self.old, old) != self.untraced(self.new, new):
            yield Place("words")
        words = zip(self.old.slots(old), self.new.slots(new))
        for slot, ((word, other), targets) in enumerate(zip(words, self.targets(old, new))):
            if targets == (None, None):
                if word != other:
                    yield Place("slot", slot)
            elif None in targets or self.partners.new_of.get(targets[0]) != targets[1]:
                yield Place("slot", slot)

    def is_quiet(self, pair, place):
        """Whether a difference is left out of the rows."""
        old, new = self.pairs[pair]
        return place.part in LEFT_OUT or old in self.old.quiet or new in self.new.quiet

    @functools.cached_property
    def changes(self):
        """What differs, by owner: what is printed, and what is left out."""
        found = {}, {}
        for pair in range(len(self.pairs)):
            for place in self.places(pair):
                changes, owner = found[self.is_quiet(pair, place)], self.owners[pair]
                first = changes.setdefault(owner, Change(owner, pair, place, 0))
                changes[owner] = first._replace(count=first.count + 1)
        return tuple(list(it.values()) for it in found)

    @property
    def shown(self):
        return self.changes[0]

    @property
    def quiet(self):
        return self.changes[1]

    # ---- the words of an object

    def hash(self, side, number):
        return (side.image.header_of(number) & HASH) >> HASH_SHIFT

    def untraced(self, side, number):
        """The words after the traced fields: those of byte objects and methods as bytes."""
        it, words = side.image.objects[number], side.image.words
        rest = words[traced_end(words, it) : it.end]
        is_bytes = format_of(words[it.base]) >= Format.BYTES
        return bytes_of(rest, side.image.order) if is_bytes else rest

    def code_start(self, side, number):
        """The data word after the literals of a method."""
        it, words = side.image.objects[number], side.image.words
        return max(min(it.base + 2, it.end), traced_end(words, it))

    def bytecodes(self, side, number):
        it, words = side.image.objects[number], side.image.words
        data = bytes_of(words[self.code_start(side, number) : it.end], side.image.order)
        padding = format_of(words[it.base]) - Format.METHOD
        return without_trailer(data[: max(0, len(data) - padding)])

    # ---- as text

    def text(self, change):
        """The first difference of an owner as text."""
        pair, place = change.pair, change.place
        steps = self.path(pair)
        if place.part == "slot":
            steps = [*steps, Step(pair, place.slot)]
        slots = [self.old.slot_text(self.pairs[at][0], slot) for at, slot in steps]
        is_value = steps and steps[0] == (change.owner, AssociationField.VALUE + 1)
        if is_value and self.pairs[change.owner][0] in self.old.tree.variables:
            slots = slots[1:]
        aspect, old, new = self.values(pair, place)
        return Text(slots, aspect, old, new)

    def values(self, pair, place):
        """What tells the objects of a pair apart, and what it is in both images."""
        (old, new), sides = self.pairs[pair], (self.old, self.new)
        objects = list(zip(sides, (old, new)))
        if place.part == "slot":
            texts = [side.held_text(side.slots(it)[place.slot]) for side, it in objects]
            if texts[0] == texts[1]:
                texts[1] = f"another {texts[1]}"
            return None, *texts
        if place.part == "hash":
            return "hash", *(str(self.hash(*it)) for it in objects)
        are_methods = self.are_methods(pair)
        if place.part == "trailer":
            fact = self.fact(objects, TRAILER_FACTS)
            return fact or self.byte(objects, self.untraced, self.first_untraced)
        if not are_methods:
            texts = [side.words_of(it) for side, it in objects]
            if None not in texts and texts[0] != texts[1]:
                return None, *texts
        if place.part == "header":
            return self.fact(objects, METHOD_FACTS if are_methods else FACTS)
        if are_methods:
            return self.byte(objects, self.bytecodes, self.code_start)
        if has_bytes(self.old.image.header_of(old)):
            return self.byte(objects, self.untraced, self.first_untraced)
        return self.word(objects)

    def first_untraced(self, side, number):
        return traced_end(side.image.words, side.image.objects[number])

    def fact(self, objects, names):
        """The first of some facts of two headers that differs. None if none does."""
        facts = [side.header_facts(it) for side, it in objects]
        for name in names:
            values = [it[name] for it in facts]
            if values[0] != values[1]:
                return name, *map(str, values)
        return None

    def first_of(self, objects, parts):
        """The first place at which two sequences differ."""
        longest = max(map(len, parts))
        return next(
            at for at in range(longest) if parts[0][at : at + 1] != parts[1][at : at + 1]
        )

    def byte(self, objects, data_of, start_of):
        """The first byte that differs, counted from the first field."""
        data = [data_of(*it) for it in objects]
        at = self.first_of(objects, data)
        side, number = objects[0]
        start = 4 * (start_of(side, number) - side.image.objects[number].base - 1)
        texts = [f"{it[at]:02x}" if at < len(it) else "none" for it in data]
        return f"byte {start + at + 1}", *texts

    def word(self, objects):
        """The first word that differs, counted from the first field."""
        parts = [self.untraced(*it) for it in objects]
        at = self.first_of(objects, parts)
        side, number = objects[0]
        start = self.first_untraced(side, number) - side.image.objects[number].base - 1
        texts = [f"{it[at]:08x}" if at < len(it) else "none" for it in parts]
        return f"word {start + at + 1}", *texts
