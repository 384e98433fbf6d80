"""Chooses which objects of a generated image are live, and fills their fields with pointers."""

import array
import typing

# The largest array, and the largest chunk but for a few, in words.
LARGEST = 20
# How far a pointer goes, in objects. That number of live objects takes less than a MiB.
NEAR = 50
FAR = 12_500
# The words of the first objects of an image, which are live: nil and the special objects array.
FIRSTS = (1, LARGEST)


class Reach(typing.NamedTuple):
    """The share of pointers that go near, and how many objects away the others go at most."""

    near: float
    far: int


def below(generator, count):
    """A number below the count."""
    return int(generator.random() * count)


def random_words(generator, count):
    """Random words."""
    return array.array("I", generator.randbytes(4 * count))


def point_to_live_objects(generator, data, fields, addresses, live, far):
    """Puts the address of each live object but the first two into a live one before it."""
    unused = list(fields[1])
    for index in range(2, len(fields)):
        if not live[index] or not unused:
            continue
        if generator.random() < 0.5:
            other = len(unused) - 1 - below(generator, min(len(unused), far * LARGEST // 2))
            unused[other], unused[-1] = unused[-1], unused[other]
        data[unused.pop()] = addresses[index]
        unused.extend(fields[index])


def random_field(generator, addresses, place, reach):
    """A SmallInteger, or one of these addresses: near this place among them, or far away."""
    kind = generator.random()
    if kind < 0.4:
        return generator.getrandbits(31) << 1 | 1
    distance = NEAR if kind < 0.4 + 0.6 * reach.near else reach.far
    lowest = max(0, place - distance)
    return addresses[lowest + below(generator, min(len(addresses), place + distance + 1) - lowest)]


def fill_fields(generator, data, fields, addresses, live, reach):
    """Fills the fields that are empty. Live objects point to live objects alone."""
    live_addresses = [address for address, alive in zip(addresses, live) if alive]
    live_before = 0
    for index in range(len(fields)):
        among, place = (live_addresses, live_before) if live[index] else (addresses, index)
        live_before += live[index]
        for field in fields[index]:
            if data[field] == 0:
                data[field] = random_field(generator, among, place, reach)


def choose_live(generator, count, firsts):
    """Which of `count` objects are live: the first ones, and two thirds of the others."""
    return [index < len(firsts) or generator.random() < 2 / 3 for index in range(count)]


def connect(generator, data, fields, addresses, live, reach):
    """Fills all fields that are empty, so that these objects are live."""
    point_to_live_objects(generator, data, fields, addresses, live, reach.far)
    fill_fields(generator, data, fields, addresses, live, reach)
