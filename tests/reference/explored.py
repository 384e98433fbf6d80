"""What `sqzlook explore` must write about an image, block by block."""

import json

from tests.reference.bytecodes import method_parts
from tests.reference.categories import Categories
from tests.reference.fields import SPECIAL_NAMES
from tests.reference.names import escaped
from tests.reference.objects import compact_index, format_of, has_bytes, is_method, traced_end
from tests.reference.tree import Tree
from tests.reference.values import element_count, signed, value_of


class Explored:
    """The data of the page about an image, if weak references are kept or cleared, with the
    objects that retain at least a number of bytes."""

    def __init__(self, answers, least=0):
        self.answers, self.names, self.image = answers, answers.names, answers.image
        self.least = least
        self.tree, self.clear_weak = Tree(answers), answers.clear_weak
        self.categories = Categories(self.names)
        self.shown = [it for it in answers.live if self.tree.retained[it] >= least]

    def at(self, number):
        """The number of the data word that is the base header of an object."""
        return self.image.objects[number].base

    def head(self, path, fault=None, skipped=None):
        """The facts about the file."""
        info = self.answers.info(path)
        fields = self.names.fields(self.image.special)
        return {
            "image": path,
            "order": info["order"],
            "base": info["base"],
            "special": self.at(self.image.special),
            "weak_cleared": self.clear_weak,
            "data_bytes": info["data_bytes"],
            "objects": info["objects"],
            "live_objects": info["live_objects"],
            "live_bytes": info["live_bytes"],
            "dead_bytes": info["dead_bytes"],
            "free_chunks": info["free_chunks"],
            "free_bytes": info["data_bytes"] - info["live_bytes"] - info["dead_bytes"],
            "min": self.least,
            "left_out": info["live_objects"] - len(self.shown),
            "left_out_bytes": info["live_bytes"] - self.answers.reach.bytes_of(self.shown),
            "fault": fault or 0,
            "skipped": skipped or 0,
            "special_names": [SPECIAL_NAMES.get(it, 0) for it in range(len(fields))],
        }

    def key_of(self, group):
        """The class of a group, or below 0 for a compact index without a class."""
        return -1 - group.compact if group.a_class is None else self.at(group.a_class)

    def classes(self):
        """A row for each class of a live object, those that retain most first."""
        groups = self.answers.live_groups
        retained = {group: self.retained_by_group(group, groups[group]) for group in groups}
        order = sorted(self.answers.by_size(groups), key=lambda group: -retained[group])
        return [self.class_row(group, groups[group], retained[group]) for group in order]

    def retained_by_group(self, group, numbers):
        """The bytes of the objects that an object of a group dominates, each once."""
        total = 0
        for number in numbers:
            above = self.tree.parents.get(number)
            while above is not None and self.answers.group_of(above) != group:
                above = self.tree.parents.get(above)
            total += self.tree.retained[number] if above is None else 0
        return total

    def class_row(self, group, numbers, retained):
        sums = [len(numbers), self.answers.reach.bytes_of(numbers), retained]
        if group.a_class is None:
            return [self.key_of(group), f"compact {group.compact}", 0, *sums, 0]
        category = self.categories.of_class(group.a_class)
        text = 0 if category is None else category
        variables = self.names.variables_of(group.a_class)
        known = 0 if variables is None else variables
        return [self.key_of(group), self.names.name(group.a_class), text, *sums, known]

    def objects(self):
        """A row for each object that is shown, by address."""
        return [self.object_row(number) for number in self.shown]

    def object_row(self, number):
        header, parent = self.image.header_of(number), self.tree.parents.get(number)
        it = self.image.objects[number]
        bits = (header >> 17 & 4095) << 11 | (it.base - it.first + 1) << 9
        return [
            self.at(number),
            self.answers.reach.sizes[number],
            self.tree.retained[number],
            -1 if parent is None else self.at(parent),
            self.key_of(self.answers.group_of(number)),
            bits | compact_index(header) << 4 | format_of(header),
            self.names.label(number) if self.names.has_name(number) else 0,
            self.value(number),
            self.contents(number),
            *self.slots(number),
        ]

    def value(self, number):
        """The value of a number or a character; of a collection one more than its elements."""
        value = value_of(self.names, number)
        if value is not None:
            return value
        count = element_count(self.names, number)
        return 0 if count is None else count + 1

    def contents(self, number):
        """The bytes of a byte object as text; the bytecodes and the class of a method."""
        header = self.image.header_of(number)
        if is_method(header):
            a_class = self.names.methods[number][0] if self.has_class(number) else None
            _, code = method_parts(self.image, number)
            return [code.hex(), -1 if a_class is None else self.at(a_class)]
        return escaped(self.image.text(number)) if has_bytes(header) else 0

    def has_class(self, number):
        """Whether a method is named after its class and selector."""
        names = self.names
        others = (names.constants, names.class_labels)
        return number in names.methods and not any(number in other for other in others)

    def slots(self, number):
        """What the traced fields of an object hold."""
        it, weak = self.image.objects[number], self.image.first_weak(number)
        for place in range(it.base + 1, traced_end(self.image.words, it)):
            word = self.image.words[place]
            target = self.image.numbers.get(word)
            if word & 1:
                yield 2 * signed(word) + 1
            elif target is None:
                yield f"{word:08x}"
            elif weak is not None and place >= weak:
                yield [2 * self.at(target)]
            else:
                yield 2 * self.at(target)

    def blocks(self, path, fault=None, skipped=None):
        """The kinds of blocks, each with its rows."""
        objects = self.objects()
        return [
            ("image", [self.head(path, fault, skipped)]),
            ("classes", self.classes()),
            ("objects", objects),
            ("end", [[len(objects)]]),
        ]


def line_of(row):
    """A row as a line of JSON that holds no markup."""
    return json.dumps(row, separators=(",", ":")).replace("<", "\\u003c")


def data_of(blocks, most=65536):
    """Blocks as the page has them, with about this many characters in each of a kind."""
    text = []
    for kind, rows in blocks:
        lines, size = [], 0
        for row in rows:
            lines.append(line_of(row))
            size += len(lines[-1])
            if size >= most:
                text.append(block_of(kind, lines))
                lines, size = [], 0
        if lines:
            text.append(block_of(kind, lines))
    return "".join(text)


def block_of(kind, lines):
    body = "\n".join(lines)
    return f'<script type="application/json" class="{kind}">\n{body}\n</script>\n'
