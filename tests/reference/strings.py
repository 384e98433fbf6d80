"""The strings and symbols that match a regular expression, each with what holds it."""

import re

from tests.reference.names import STRINGS, SYMBOLS, escaped
from tests.reference.objects import Format, format_of


def find(answers, pattern):
    """The rows of the live strings and symbols that have a match of these bytes."""
    image, names = answers.image, answers.names
    rows = []
    for number in answers.live:
        text = image.text(number)
        if text is None or names.class_name(number) not in STRINGS + SYMBOLS:
            continue
        if re.search(pattern, text):
            rows.append(
                {
                    "address": names.address(number),
                    "class": names.class_name(number),
                    "text": escaped(text),
                    "holder": holder_text(answers, number),
                }
            )
    return rows


def holder_text(answers, number):
    """The first slot of a live object that points to an object."""
    references = answers.references.get(number)
    if references is None:
        return None
    owner, place = references[0]
    return f"{owner_text(answers, owner)}, {answers.slot_text(owner, place)}"


def owner_text(answers, number):
    """The label of an object, or its class with the number of its fields, and its address."""
    names, image = answers.names, answers.image
    if names.has_name(number):
        return names.label(number)
    it, text = image.objects[number], names.class_name(number)
    if format_of(image.words[it.base]) == Format.INDEXED:
        text += f"({it.end - it.base - 1})"
    return f"{text} {names.address(number)}"
