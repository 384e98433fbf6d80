"""Generates images with shares, sizes and pointers fitted to a real image.

The live objects of Debian's Scratch.image, and of a mixed and a fitted image of 4 MiB, have:

                                                    real        mixed       fitted
    headers of 1, 2, 3 words, percent          71, 27, 2    90, 10, 0    71, 26, 2
    words of an object: mean, median               17, 5       14, 11        18, 6
    weak, percent of objects                           0           17            0
    bytes and words, percent of words                 50           17           42
    methods, percent of words                         19           16           22
    traced fields, percent of words                   35           64           38
    pointers to nil, percent of these                 19            0           21
    other pointers, percent of these                  58           64           56
    pointers but nil that go back, percent            93           41           93
    how far back: median, percentile 90      1.0, 4.9 MB   1.4, 39 KB  0.4, 1.3 MB
    how far forwards: the same              64 KB, 3.5 MB  1.7, 362 KB   72, 138 KB

`bench/measure_image.py` measures them. Pointers of a fitted image go back to anywhere, so farther
in a larger image.
"""

import array
import random

from bench.images.connecting import FAR, FIRSTS, below, choose_live, point_to_live_objects
from bench.images.mixed import (
    BYTES,
    CONTEXT,
    FORMATS,
    FREE,
    METHOD,
    POINTERS,
    Mix,
    put_chunks,
    put_class_words,
    random_chunks,
    random_size,
)
from tests.reference.file_format import BASE

SHARES = {POINTERS: 480, BYTES: 310, METHOD: 195, CONTEXT: 1, FREE: 14}
FITTED_FORMATS = {**FORMATS, POINTERS: (1, 2, 3)}
WORDED = 0.27
# The shares of fields that hold SmallIntegers and nil, and of the other pointers those that go
# back.
INTEGERS, NILS, BACK = 0.25, 0.25, 0.91
# The shares of the pointer objects and of the byte objects that are large.
LARGE_POINTERS, LARGE_BYTES = 0.045, 0.0085
# How many objects a pointer goes forwards at most, unless it keeps an object alive.
FORWARDS = 2000


def fitted_size(generator, kind):
    """As `random_size`, for a fitted image: a few large objects have most of the words."""
    draw = generator.random()
    if kind == BYTES and draw < LARGE_BYTES:
        return 1000 + below(generator, 3000)
    if kind == POINTERS and draw < LARGE_POINTERS:
        return 64 + below(generator, 250)
    if kind in (BYTES, POINTERS):
        return 1 + below(generator, 8)
    return min(random_size(generator, kind), 30)


FITTED = Mix(SHARES, FITTED_FORMATS, fitted_size, WORDED)


def fitted_field(generator, addresses, place):
    """A SmallInteger, nil, or one of these addresses: most from after this place among them."""
    kind = generator.random()
    if kind < INTEGERS:
        return generator.getrandbits(31) << 1 | 1
    if kind < INTEGERS + NILS:
        return BASE
    if generator.random() < BACK:
        return addresses[place + below(generator, len(addresses) - place)]
    lowest = max(0, place - FORWARDS)
    return addresses[lowest + below(generator, place + 1 - lowest)]


def fill_fitted_fields(generator, data, fields, addresses, live):
    """Fills the fields that are empty. Live objects point to live objects alone."""
    live_addresses = [address for address, alive in zip(addresses, live) if alive]
    live_before = 0
    for index, places in enumerate(fields):
        among, place = (live_addresses, live_before) if live[index] else (addresses, index)
        live_before += live[index]
        for field in places:
            if data[field] == 0:
                data[field] = fitted_field(generator, among, place)


def fitted_words(words):
    """Data words of objects as a real image has them.

    After the first two they are connected from the last one down, so that pointers go back. The
    first field of the special objects array points to nil."""
    generator = random.Random(words)
    data = array.array("I", bytes(4 * words))
    chunks = random_chunks(generator, words, FIRSTS, FITTED)
    objects, fields = put_chunks(generator, data, chunks, FITTED_FORMATS)
    order = [0, 1, *range(len(objects) - 1, 1, -1)]
    addresses = [BASE + 4 * objects[index][1] for index in order]
    fields = [fields[index] for index in order]
    data[fields[1][0]] = BASE
    fields[1] = fields[1][1:]
    live = choose_live(generator, len(objects), FIRSTS)
    point_to_live_objects(generator, data, fields, addresses, live, FAR)
    fill_fitted_fields(generator, data, fields, addresses, live)
    put_class_words(generator, data, [objects[index] for index in order], addresses, live)
    return data
