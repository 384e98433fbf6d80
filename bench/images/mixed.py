"""Generates images of objects of all kinds and free chunks.

Nine objects of ten have a header of one word, the others a class word, those of more than 63 words
among them. A third of the words is in byte objects and in compiled methods, of which the literals
are traced; some objects are contexts, and a few have thousands of words. Most pointers go near, the
others up to a MiB away.
"""

import array
import itertools
import random
import typing

from bench.images.connecting import (
    FAR,
    FIRSTS,
    LARGEST,
    Reach,
    below,
    choose_live,
    connect,
    random_words,
)
from tests.reference.file_format import BASE

POINTERS, BYTES, METHOD, CONTEXT, FREE = range(5)
# The share of each kind of chunk in a thousand, and the formats of objects.
SHARES = {POINTERS: 670, BYTES: 188, METHOD: 102, CONTEXT: 15, FREE: 25}
FORMATS = {POINTERS: (1, 2, 3, 4), BYTES: (8, 9, 10, 11), METHOD: (12, 13, 14, 15), CONTEXT: (3,)}
CONTEXT_INDEXES = (13, 14)
OTHER_INDEXES = tuple(index for index in range(1, 32) if index not in CONTEXT_INDEXES)
CONTEXT_SIZES = (23, 63)
LARGEST_METHOD = 40
# The header type of an object by the number of words before its base header.
TYPES = (3, 1, 0)
LARGEST_SHORT = 63
# The share of small objects with a class word.
WORDED = 0.1


class Chunk(typing.NamedTuple):
    """A chunk: its kind, its header words before the base header, and its words from there on."""

    kind: int
    before: int
    size: int


class Mix(typing.NamedTuple):
    """What chunks an image has: the share of each kind, the formats of each, what draws the words
    of one, and the share of small objects with a class word."""

    shares: dict
    formats: dict
    size: typing.Callable
    worded: float


def random_size(generator, kind):
    """The words of an object from its base header on, or those of a free chunk."""
    if kind == CONTEXT:
        return generator.choice(CONTEXT_SIZES)
    if kind == METHOD:
        return 3 + below(generator, LARGEST_METHOD - 2)
    draw = generator.random()
    if kind != FREE and draw < 0.0004:
        return 1000 + below(generator, 4000)
    if kind != FREE and draw < 0.004:
        return 64 + below(generator, 200)
    return 1 + below(generator, LARGEST)


def random_chunk(generator, mix):
    """A chunk of any kind."""
    kind = generator.choices(list(mix.shares), mix.shares.values())[0]
    size = mix.size(generator, kind)
    if size > LARGEST_SHORT:
        return Chunk(kind, 2, size)
    return Chunk(kind, 1 if kind != FREE and generator.random() < mix.worded else 0, size)


def random_chunks(generator, words, firsts, mix):
    """Chunks that fill the words: first objects of these sizes, and others."""
    chunks = [Chunk(POINTERS, 0, size) for size in firsts]
    left = words - sum(firsts)
    while left > 0:
        chunk = random_chunk(generator, mix)
        if chunk.before + chunk.size > left:
            chunk = Chunk(FREE, 0, min(left, LARGEST))
        chunks.append(chunk)
        left -= chunk.before + chunk.size
    return chunks


def put_header(generator, data, chunk, base, formats):
    """Puts the header words of an object except its class word. The base header is data word
    `base`."""
    if chunk.before == 2:
        data[base - 2] = 4 * chunk.size
    size = chunk.size if chunk.before < 2 else 0
    compact = generator.choice(CONTEXT_INDEXES if chunk.kind == CONTEXT else OTHER_INDEXES)
    upper = (
        generator.getrandbits(12) << 17 | compact << 12 | generator.choice(formats[chunk.kind]) << 8
    )
    data[base] = upper | size << 2 | TYPES[chunk.before]


def put_method(generator, data, first, end):
    """Puts the header field of a method and the words after its literals. Returns the literals."""
    count = below(generator, min(256, (end - first) // 2))
    data[first] = count << 10 | 1
    literals = range(first + 1, first + 1 + count)
    data[literals.stop : end] = random_words(generator, end - literals.stop)
    return literals


def put_context(generator, data, first, end):
    """Puts the first fields of a context and what is above its stack. Returns the others."""
    top = below(generator, end - first - 5)
    data[first] = BASE
    data[first + 1] = generator.getrandbits(8) << 1 | 1
    data[first + 2] = top << 1 | 1
    fields = range(first + 3, first + 6 + top)
    data[fields.stop : end] = random_words(generator, end - fields.stop)
    return fields


def put_object(generator, data, chunk, base, formats):
    """Puts an object without its class word and its pointers. Returns where the pointers go."""
    put_header(generator, data, chunk, base, formats)
    first, end = base + 1, base + chunk.size
    if chunk.kind == METHOD:
        return put_method(generator, data, first, end)
    if chunk.kind == CONTEXT:
        return put_context(generator, data, first, end)
    if chunk.kind == BYTES:
        data[first:end] = random_words(generator, end - first)
        return range(0)
    return range(first, end)


def put_class_words(generator, data, objects, addresses, live):
    """Puts the class words, which point to one live object in 500."""
    classes = [address for address, alive in zip(addresses, live) if alive][::500]
    for chunk, base in objects:
        if chunk.before > 0:
            data[base - 1] = generator.choice(classes) | TYPES[chunk.before]


def put_chunks(generator, data, chunks, formats):
    """Puts chunks, one after the other, without class words and pointers.

    Returns the objects, each with the data word of its base header, and where the pointers of each
    go.
    """
    ends = itertools.accumulate(chunk.before + chunk.size for chunk in chunks)
    placed = [(chunk, end - chunk.size) for chunk, end in zip(chunks, ends)]
    objects = [(chunk, base) for chunk, base in placed if chunk.kind != FREE]
    for chunk, base in placed:
        if chunk.kind == FREE:
            data[base] = 4 * chunk.size + 2
    return objects, [put_object(generator, data, chunk, base, formats) for chunk, base in objects]


MIXED = Mix(SHARES, FORMATS, random_size, WORDED)


def mixed_words(words):
    """Data words of objects of all kinds and of free chunks."""
    generator = random.Random(words)
    data = array.array("I", bytes(4 * words))
    chunks = random_chunks(generator, words, FIRSTS, MIXED)
    objects, fields = put_chunks(generator, data, chunks, FORMATS)
    addresses = [BASE + 4 * base for _, base in objects]
    live = choose_live(generator, len(objects), FIRSTS)
    connect(generator, data, fields, addresses, live, Reach(0.9, FAR))
    put_class_words(generator, data, objects, addresses, live)
    return data
