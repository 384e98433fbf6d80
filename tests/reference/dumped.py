"""What `sqzlook dump` must print about an image."""

from tests.reference.names import escaped
from tests.reference.objects import compact_index, format_of, has_bytes
from tests.reference.tree import Tree

# What a slot has of a row of `show`.
SLOT = ("slot", "name", "kind", "value")


def dump(answers):
    """A row for each live object, by address."""
    tree = Tree(answers)
    return [object_row(answers, tree, number) for number in answers.live]


def object_row(answers, tree, number):
    """An object with what it retains, its immediate dominator, and its slots."""
    names, header = answers.names, answers.image.header_of(number)
    above = tree.parents.get(number)
    slots = [answers.slot_row(number, slot) for slot in answers.slots(number)]
    return {
        "address": names.address(number),
        "class": names.class_name(number),
        "label": names.label(number),
        "bytes": answers.reach.sizes[number],
        "retained": tree.retained[number],
        "dominator": None if above is None else names.address(above),
        "format": format_of(header),
        "hash": header >> 17 & 0xFFF,
        "compact_index": compact_index(header),
        "slots": [{name: slot[name] for name in SLOT} for slot in slots],
        "text": escaped(answers.image.text(number)) if has_bytes(header) else None,
    }
