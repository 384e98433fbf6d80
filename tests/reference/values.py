"""The values of numbers and characters, and what other objects are in a few words."""

import decimal
import math
import struct

from tests.reference.names import STRINGS, SYMBOLS
from tests.reference.objects import Format, format_of

# A large integer of at most this many bytes is printed as a number.
LONGEST = 8
# The sign of a large integer, by its class.
SIGNS = {"LargePositiveInteger": "", "LargeNegativeInteger": "-"}
# The instance variables that say how large a form is.
EXTENT = "width", "height", "depth"
# The characters that are printed as they are.
PRINTABLE = range(33, 127)


def signed(word):
    """The number of a SmallInteger."""
    return (word >> 1) - (word >> 31 << 31)


def fields_of(image, number):
    it = image.objects[number]
    return image.words[it.base + 1 : it.end]


def float_text(number):
    """A float, with all its digits and without an exponent."""
    if math.isnan(number) or math.isinf(number):
        return {"nan": "NaN", "inf": "inf", "-inf": "-inf"}[str(number)]
    return format(decimal.Decimal(repr(number)), "f").removesuffix(".0")


def value_of(names, number):
    """The value of a float, a large integer or a character, as text."""
    image, name = names.image, names.class_name(number)
    fields, kind = fields_of(image, number), format_of(image.header_of(number))
    if name == "Float" and kind in range(5, 8) and len(fields) == 2:
        return float_text(*struct.unpack(">d", struct.pack(">2I", *fields)))
    data = image.text(number) if name in SIGNS else None
    if data is not None and len(data) <= LONGEST:
        return SIGNS[name] + str(int.from_bytes(data, "little"))
    if name == "Character" and fields and fields[0] & 1:
        code = signed(fields[0])
        return f"${chr(code)}" if code in PRINTABLE else f"Character value: {code}"
    return None


def method_of(image, number):
    """What the header of a compiled method says, or None of another object."""
    fields = fields_of(image, number)
    if format_of(image.header_of(number)) not in range(12, 16) or not fields or not fields[0] & 1:
        return None
    header = fields[0] >> 1
    return {
        "arguments": header >> 24 & 0xF,
        "temporaries": header >> 18 & 0x3F,
        "literals": header >> 9 & 0xFF,
        "primitive": (header & 0x1FF) + (header >> 28 & 1) * 512,
        "large_frame": bool(header >> 17 & 1),
    }


def indexed_fields(names, number):
    """The number of the indexed fields of an object, or None if its format has none."""
    image, kind = names.image, format_of(names.image.header_of(number))
    count = len(fields_of(image, number))
    if kind == Format.INDEXED:
        return count
    if kind not in (Format.FIXED_AND_INDEXED, Format.WEAK):
        return None
    a_class = names.class_of(number)
    fixed = None if a_class is None else image.fixed_fields(a_class)
    return None if fixed is None or not 0 <= fixed <= count else count - fixed


def stated_count(names, number):
    """The number of elements that a collection states in instance variables, or None."""
    a_class = names.class_of(number)
    variables = None if a_class is None else names.variables_of(a_class)
    if not variables or format_of(names.image.header_of(number)) > Format.WEAK:
        return None
    if "array" not in variables:
        return None
    fields = fields_of(names.image, number)

    def integer(name):
        place = variables.index(name)
        word = fields[place] if place < len(fields) else 0
        return signed(word) if word & 1 else None

    if "tally" in variables:
        count = integer("tally")
    elif "firstIndex" in variables and "lastIndex" in variables:
        ends = integer("firstIndex"), integer("lastIndex")
        count = None if None in ends else ends[1] - ends[0] + 1
    else:
        count = None
    return None if count is None or count < 0 else count


def element_count(names, number):
    """The number of elements of an object, or None if it has none."""
    count = stated_count(names, number)
    return indexed_fields(names, number) if count is None else count


def preview(names, number):
    """The value of an object, its label, or the number of its elements, if it has one of these."""
    value = value_of(names, number)
    if value is not None:
        return value
    label = names.label(number)
    if label != f"{names.class_name(number)} {names.address(number)}":
        return label
    count = element_count(names, number)
    return None if count is None else f"{count} element{'' if count == 1 else 's'}"


def list_preview(names, number):
    """As `preview`; for other objects the extent and depth, or the name, that they state."""
    found = preview(names, number)
    return stated(names, number) if found is None else found


def stated(names, number):
    """What the instance variables of an object say of it: its extent and depth, or its name."""
    a_class = names.class_of(number)
    variables = None if a_class is None else names.variables_of(a_class)
    fields, found = fields_of(names.image, number), {}
    for place, name in enumerate(variables or ()):
        found.setdefault(name, place)
    words = [
        fields[found[it]] if found.get(it, len(fields)) < len(fields) else 0 for it in EXTENT
    ]
    if all(word & 1 for word in words):
        width, height, depth = map(signed, words)
        return f"{width}x{height}, depth {depth}"
    name = names.target(number, found["name"]) if "name" in found else None
    if name is None or names.image.text(name) is None:
        return None
    is_text = names.class_name(name) in STRINGS + SYMBOLS
    label = names.label(name)
    return label if is_text and label == names.own_label(name) else None
