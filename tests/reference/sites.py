"""Says what is at an address of an image at which no object begins."""

import bisect


def site_text(names, address):
    """What the programs print about an address that is not that of an object."""
    image = names.image
    place, rest = divmod(address - image.base, 4)
    if not 0 <= place < len(image.words):
        return "outside the data"
    number = bisect.bisect_right([it.first for it in image.objects], place) - 1
    if number < 0 or place >= image.objects[number].end:
        return free_chunk_text(image, number, place)
    owner = f"{names.address(number)} {names.class_name(number)}"
    it = image.objects[number]
    if place > it.base:
        return f"field {place - it.base - 1} of {owner}"
    if place == it.base and rest == 0:
        raise ValueError(f"an object begins at {address:08x}")
    return f"a header word of {owner}"


def free_chunk_text(image, number, place):
    """What is printed about a data word in a free chunk after the object of this number."""
    at = image.objects[number].end if number >= 0 else 0
    while at + (image.words[at] >> 2) <= place:
        at += image.words[at] >> 2
    size = 4 * (image.words[at] >> 2)
    return f"inside a free chunk of {size} bytes at {image.base + 4 * at:08x}"
