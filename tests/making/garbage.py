"""Puts dead objects and free chunks between the objects of an image, and moves all pointers
along."""

import array
import bisect
import typing

from tests.making.builder import MOST_FIELDS
from tests.reference.image import Image
from tests.reference.objects import FREE, HEADER_TYPES, Format, format_of, has_bytes

# The compact index of arrays.
ARRAY_INDEX = 3


class Dead(typing.NamedTuple):
    """What is put in: its words, and which of them is the base header, None in a free chunk.

    `pointers` has the words that are to be pointers, each with the number of the object of the
    image that it is to point to, or None if it may be any word."""

    words: array.array
    base: int | None
    pointers: list


def random_words(generator, count):
    return array.array("I", generator.randbytes(4 * count))


def random_size(generator):
    """A number of fields, small most of the time."""
    draw = generator.random()
    if draw < 0.002:
        return generator.randint(1000, 4000)
    return generator.randint(64, 300) if draw < 0.02 else generator.randint(0, 20)


def dead_object(generator, kind, compact, fields, has_pointers):
    """An object of this format, with a header of one, two or three words and these fields.

    The size in a base header after a size word is 0, since the machine looks at it."""
    before = generator.randrange(3) if len(fields) <= MOST_FIELDS else 2
    size = len(fields) + 1
    header_type = HEADER_TYPES[before]
    base = generator.getrandbits(12) << 17 | compact << 12 | kind << 8 | header_type
    words = (4 * size, header_type, base | (size << 2 if before < 2 else 0))
    heads = array.array("I", words[2 - before :])
    places = [before - 1] if before > 0 else []
    if has_pointers:
        places.extend(range(before + 1, before + size))
    return Dead(heads + fields, before, [(at, None) for at in places])


def dead_array(generator, _):
    """An array."""
    fields = array.array("I", bytes(4 * random_size(generator)))
    return dead_object(generator, Format.INDEXED, ARRAY_INDEX, fields, True)


def dead_bytes(generator, _):
    """A byte object."""
    fields = random_words(generator, random_size(generator))
    return dead_object(generator, generator.randint(8, 11), generator.randint(1, 12), fields, False)


def dead_anything(generator, _):
    """An object of any format with random words, so most methods and contexts are bad.

    The size in a base header after a size word is random too."""
    fields = random_words(generator, random_size(generator))
    it = dead_object(generator, generator.randrange(16), generator.randrange(32), fields, False)
    if it.base == 2:
        it.words[it.base] |= generator.getrandbits(6) << 2
    return it


def dead_copy(generator, image):
    """What a machine leaves: a copy of an array or a byte object, with its pointers."""
    while True:
        number = generator.randrange(len(image.objects))
        it = image.objects[number]
        if has_bytes(image.words[it.base]) or format_of(image.words[it.base]) == Format.INDEXED:
            break
    low, high = (bisect.bisect_left(image.pointers, (place,)) for place in (it.first, it.end))
    pointers = [(place - it.first, target) for place, _, target in image.pointers[low:high]]
    return Dead(image.words[it.first : it.end], it.base - it.first, pointers)


def free_chunk(generator, _):
    """A free chunk with random words after its header."""
    words = random_words(generator, random_size(generator))
    return Dead(array.array("I", [4 * len(words) + 4 | FREE]) + words, None, [])


# Kinds of dead chunks that a machine leaves, with no random words where it reads.
SOUND = (dead_array, dead_bytes, dead_copy, free_chunk)


def random_pointer(generator, addresses, dead, is_wild):
    """The address of a live or a dead object, a SmallInteger, or if `is_wild`, any word."""
    draw = generator.random()
    if is_wild and draw < 0.1:
        return generator.getrandbits(32)
    if draw < 0.4:
        return generator.getrandbits(31) << 1 | 1
    return generator.choice(addresses if draw < 0.7 else dead)


def put_dead(generator, image, words, placed, addresses, is_wild):
    """Puts each dead chunk at its word. The objects of the image have these addresses."""
    dead = [image.base + 4 * (first + it.base) for it, first in placed if it.base is not None]
    for it, first in placed:
        words[first : first + len(it.words)] = it.words
        for at, target in it.pointers:
            if target is not None:
                word = addresses[target]
            elif at < it.base and not is_wild:
                word = generator.choice(addresses)
            else:
                word = random_pointer(generator, addresses, dead, is_wild)
            words[first + at] = word & ~3 | it.words[at] & 3 if at < it.base else word


def put_cycles(generator, image, words, placed):
    """Makes cycles of one to five dead arrays. The first field of each points to the next."""
    arrays = [
        it for it in placed if it[0].base is not None and (it[0].base + 1, None) in it[0].pointers
    ]
    generator.shuffle(arrays)
    while arrays:
        cycle = [arrays.pop() for _ in range(min(len(arrays), generator.randint(1, 5)))]
        for (it, first), (other, target) in zip(cycle, cycle[1:] + cycle[:1]):
            words[first + it.base + 1] = image.base + 4 * (target + other.base)


def places_for(image, generator, chunks):
    """Where the objects of the image and the chunks between them begin, and how many words these
    take.

    The first chunk stands before all objects, and the last one after them."""
    last = len(image.objects)
    gaps = sorted([0, last, *generator.choices(range(last + 1), k=len(chunks) - 2)])
    firsts, chunk_firsts, at = [], [], 0
    for number in range(last + 1):
        while len(chunk_firsts) < len(chunks) and gaps[len(chunk_firsts)] == number:
            size = len(chunks[len(chunk_firsts)].words)
            chunk_firsts.append(at)
            at += size
        if number < last:
            firsts.append(at)
            at += image.objects[number].end - image.objects[number].first
    return firsts, chunk_firsts, at


def littered(image, generator, kinds, count, is_wild=True):
    """The image with `count` dead objects and free chunks of these kinds between its objects.

    If `is_wild`, some words of dead objects that should be pointers are random."""
    chunks = [generator.choice(kinds)(generator, image) for _ in range(count)]
    firsts, chunk_firsts, size = places_for(image, generator, chunks)
    header, words = image.laid_out(firsts, size)
    addresses = [
        image.base + 4 * (at + it.base - it.first) for it, at in zip(image.objects, firsts)
    ]
    placed = list(zip(chunks, chunk_firsts))
    put_dead(generator, image, words, placed, addresses, is_wild)
    put_cycles(generator, image, words, placed)
    return Image(header, words, image.order, image.prefix)


def held_weakly(image):
    """The image with its largest dead array made weak and live. Dead objects must hold no random
    words.

    The last field of the special objects array, in which nil was, points to the weak array. Its
    class is that of another weak object."""
    live, words = image.live(), image.words[:]
    numbers = range(len(live))
    weak_class = next(image.class_of(it) for it in numbers if image.first_weak(it) is not None)
    arrays = [
        it
        for it, is_live in zip(image.objects, live)
        if not is_live and it.base > it.first and format_of(words[it.base]) == Format.INDEXED
    ]
    it = max(arrays, key=lambda it: it.end - it.base)
    words[it.base - 1] = image.address(image.objects[weak_class]) | words[it.base] & 3
    words[it.base] = words[it.base] & ~(31 << 12 | 15 << 8) | Format.WEAK << 8
    words[image.objects[image.special].end - 1] = image.address(it)
    return Image(image.header, words, image.order, image.prefix)
