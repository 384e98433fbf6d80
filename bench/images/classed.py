"""Generates mixed images with classes, for the class histogram.

The special objects array points to an array of 31 compact classes. Each second class points to a
byte object, its name, and the others are metaclasses of these. In one image all class words and
compact indexes stand for one class. In the other, in which two objects of ten have a class word, a
live object points to each of 100,000 classes, or to as many as there are live objects with class
words.
"""

import array
import bisect
import itertools
import random

from bench.images.connecting import FAR, Reach, choose_live, connect
from bench.images.mixed import (
    BYTES,
    FORMATS,
    MIXED,
    POINTERS,
    TYPES,
    WORDED,
    put_chunks,
    random_chunks,
)
from tests.reference.file_format import BASE

# The words of the first objects: nil, the special objects array, of which the last field points to
# the array of compact classes, and that array.
CLASSED_FIRSTS = (1, 30, 32)
# The fields of a class that point to the instance of a metaclass, and to the name of another class.
INSTANCE = 5
NAME = 6
MANY = 100_000


def can_be_class(chunk):
    """Whether an object has the fields of a class."""
    return chunk.kind == POINTERS and chunk.size > NAME + 1


def choose_classes(generator, objects, live, most):
    """Which live objects are classes, in order: at most `most`, and no more than class words."""
    others = range(len(CLASSED_FIRSTS), len(objects))
    able = [index for index in others if live[index] and can_be_class(objects[index][0])]
    worded = sum(alive and chunk.before > 0 for (chunk, _), alive in zip(objects, live))
    return sorted(generator.sample(able, min(most, worded, len(able))))


def put_compact_classes(data, fields, addresses, classes):
    """Puts the array of compact classes, which are the first classes, and the pointer to it."""
    special, compact = fields[1], fields[2]
    data[special[-1]] = addresses[2]
    for number, field in enumerate(compact):
        data[field] = addresses[classes[number % len(classes)]]
    fields[1], fields[2] = special[:-1], range(0)


def put_names(data, objects, fields, addresses, live, classes):
    """Puts the names of classes: into one class a near live byte object, and into the next, which
    is a metaclass, the class before. The other one of these two fields has nil."""
    texts = [
        index for index, (chunk, _) in enumerate(objects) if live[index] and chunk.kind == BYTES
    ]
    for number, index in enumerate(classes):
        own = fields[index]
        text = addresses[texts[bisect.bisect(texts, index) % len(texts)]]
        is_metaclass = number % 2 == 1
        data[own[INSTANCE]] = addresses[classes[number - 1]] if is_metaclass else BASE
        data[own[NAME]] = BASE if is_metaclass else text
        fields[index] = [*own[:INSTANCE], *own[NAME + 1 :]]


def put_words_of_classes(generator, data, objects, addresses, live, classes):
    """Puts the class words, those of live objects first, each with the next class."""
    worded = [index for index, (chunk, _) in enumerate(objects) if chunk.before > 0]
    worded.sort(key=lambda index: not live[index])
    named = itertools.cycle(generator.sample(classes, len(classes)))
    for index in worded:
        chunk, base = objects[index]
        data[base - 1] = addresses[next(named)] | TYPES[chunk.before]


def classed_words(words, worded, most):
    """Data words as `mixed_words` has them, with at most `most` classes.

    This share of the small objects has a class word."""
    mix = MIXED._replace(worded=worded)
    generator = random.Random(words)
    data = array.array("I", bytes(4 * words))
    chunks = random_chunks(generator, words, CLASSED_FIRSTS, mix)
    objects, fields = put_chunks(generator, data, chunks, FORMATS)
    addresses = [BASE + 4 * base for _, base in objects]
    live = choose_live(generator, len(objects), CLASSED_FIRSTS)
    classes = choose_classes(generator, objects, live, most)
    put_compact_classes(data, fields, addresses, classes)
    put_names(data, objects, fields, addresses, live, classes)
    connect(generator, data, fields, addresses, live, Reach(0.9, FAR))
    put_words_of_classes(generator, data, objects, addresses, live, classes)
    return data


def one_class_words(words):
    """Data words of objects of one class."""
    return classed_words(words, WORDED, 1)


def many_classes_words(words):
    """Data words of objects of as many classes as possible, and at most `MANY`."""
    return classed_words(words, 2 * WORDED, MANY)
