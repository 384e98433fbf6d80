"""Makes large images, what each is compacted to, and its class histogram, without the program."""

import array
import dataclasses
import typing

from tests.reference.file_format import BASE, image_file, words_of
from tests.reference.histogram import Row, report
from tests.reference.objects import ZERO

# Stands in a chunk for a class word that points to the class of one word at the base.
CLASS = None
# The base header of that class, of a SmallInteger array of two fields, and of the special objects
# array.
CLASS_HEADER = 0x1007
SPECIAL_HEADER = 0x320F


class Made(typing.NamedTuple):
    """The file of an image, that of its compaction, and its class histogram."""

    image: bytes
    answer: bytes
    census: bytes


class Chunk(typing.NamedTuple):
    """The words of an object, which of them is the base header, and whether the object is live."""

    words: tuple
    at: int
    is_live: bool


class Link(typing.NamedTuple):
    """A field of each frame: a word of a chunk, which points to another chunk, `step` frames ahead.

    If there is no such frame, the field is the SmallInteger 0."""

    chunk: int
    word: int
    target: int
    step: int


@dataclasses.dataclass(frozen=True)
class Frames:
    """The same chunks `count` times, with these links between them.

    After them, an array points to the chunks `listed` of each frame, or of the first frame alone.
    """

    chunks: tuple
    count: int
    listed: tuple
    links: tuple = ()
    of_first: bool = False


def live(*words):
    """A live object with a header of one word."""
    return Chunk(words, 0, True)


def dead(*words):
    """An object that no live object points to."""
    return Chunk(words, 0, False)


def array_of(fields, a_class):
    """The words of an array of any length. Its address is that of the third word."""
    return array.array("I", [4 * (len(fields) + 1), a_class, 0x200]) + fields


def places_of(frames, has_dead, first):
    """The address of each chunk of the first frame, and the bytes of a frame."""
    places, at = [], first
    for chunk in frames.chunks:
        places.append(at + 4 * chunk.at)
        at += 4 * len(chunk.words) if has_dead or chunk.is_live else 0
    return places, at - first


def put_link(words, frames, link, places, size, first):
    """Fills the field of a link in all frames."""
    chunk = frames.chunks[link.chunk]
    place = (places[link.chunk] - first) // 4 - chunk.at + link.word
    begin = places[link.target] + link.step * size
    targets = range(begin, begin + (frames.count - link.step) * size, size)
    words[place :: size // 4] = array.array("I", targets) + array.array("I", [ZERO]) * link.step


def listed_addresses(frames, places, size):
    """The addresses that the array after the frames points to."""
    if frames.of_first:
        return array.array("I", [places[chunk] for chunk in frames.listed])
    listed = array.array("I", bytes(4 * frames.count * len(frames.listed)))
    for number, chunk in enumerate(frames.listed):
        addresses = range(places[chunk], places[chunk] + frames.count * size, size)
        listed[number :: len(frames.listed)] = array.array("I", addresses)
    return listed


def words_of_frames(frames, has_dead, first):
    """The words of the frames, and the addresses that the array after them points to."""
    places, size = places_of(frames, has_dead, first)
    chunks = [chunk for chunk in frames.chunks if has_dead or chunk.is_live]
    one = [first - 4 | 1 if word is CLASS else word for chunk in chunks for word in chunk.words]
    words = array.array("I", one) * frames.count
    for link in frames.links:
        put_link(words, frames, link, places, size, first)
    return words, listed_addresses(frames, places, size)


def with_special_objects(words, listed, base):
    """These words, an array that points to the listed addresses, and the special objects array.

    Returns them with the address of the special objects array."""
    data = words + array_of(listed, base)
    special = base + 4 * len(data)
    data.extend((SPECIAL_HEADER, base, special - 4 * (len(listed) + 1)))
    return data, special


def data_of(frames, has_dead, base):
    """The data words with or without dead objects, and the address of the special objects array."""
    words, listed = words_of_frames(frames, has_dead, base + 4)
    return with_special_objects(array.array("I", [CLASS_HEADER]) + words, listed, base)


def census_of(frames, base):
    """The class histogram. Objects with a class word have the unnamed class at the base."""
    listed = len(frames.listed) * (1 if frames.of_first else frames.count)
    sums = {None: (1, 4 * (listed + 3)), 1: (1, 4), 3: (0, 0)}
    groups = [(frames.count, chunk) for chunk in frames.chunks if chunk.is_live]
    for count, chunk in [*groups, (1, live(SPECIAL_HEADER, 0, 0))]:
        header = chunk.words[chunk.at]
        compact = header >> 12 & 31 if header & 3 == 3 else None
        objects, size = sums.get(compact, (0, 0))
        sums[compact] = (objects + count, size + 4 * count * len(chunk.words))
    return report(
        [
            Row(*row, base if compact is None else None, compact, "?")
            for compact, row in sums.items()
        ]
    )


def made(frames, base=BASE, order="little", prefix=b""):
    """An image: a class of one word, the frames, the array after them, and the special objects
    array, which points to that class and that array."""
    image, answer = (
        image_file(*data_of(frames, has_dead, base), base=base, order=order, prefix=prefix)
        for has_dead in (True, False)
    )
    return Made(image, answer, census_of(frames, base))


def wide(count):
    """Live objects of one word that an array points to, and half as many dead ones between."""
    return Frames((live(0x1007), live(0x2007), dead(0x1007)), count // 2, (0, 1))


def chain(count):
    """Live objects of two words, each of which points to the next, with a dead one after each."""
    return Frames((live(0x110B, ZERO), dead(0x1007)), count, (0,), (Link(0, 1, 0, 1),), True)


def pairs(count):
    """Objects that an array points to, each of which alone points to another one."""
    return Frames((live(0x1007), live(0x210B, ZERO)), count, (1,), (Link(1, 1, 0, 0),))


def blocks(count):
    """Live byte objects of 40 words that an array points to, and half as many dead ones between."""
    chunks = live(0x28A3, *range(39)), dead(0x28A3, *range(39)), live(0x28A3, *range(39, 0, -1))
    return Frames(chunks, count // 2, (0, 2))


def varied(count):
    """Frames with bytes, with a class word, and with fields that point backwards and forwards."""
    chunks = (
        live(0x210F, ZERO, ZERO),
        dead(0x110B, ZERO),
        Chunk((CLASS, 0x10D, ZERO, ZERO), 1, True),
        live(0x3813, 7, 8, 9),
        dead(0x1007),
        live(0x4007),
    )
    links = (Link(0, 1, 2, 0), Link(0, 2, 0, 1), Link(2, 2, 3, 1), Link(2, 3, 5, 1))
    return Frames(chunks, count, (0, 3, 5), links, True)


def byte_object(size, *dead_words, order="little"):
    """An image with one byte object of `size` bytes, after the words of dead objects."""
    text = words_of((b"a line of 22 letters.\n" * (size // 22 + 1))[:size], order)
    files = []
    for words in (dead_words, ()):
        data = array.array("I", [CLASS_HEADER, *words, size + 4, BASE, 0x800]) + text
        end = BASE + 4 * len(data)
        data.extend((SPECIAL_HEADER, BASE, end - size - 4))
        files.append(image_file(data, end, order=order))
    rows = [Row(1, size + 12, BASE, None, "?"), Row(1, 4, None, 1, None), Row(1, 12, None, 3, None)]
    return Made(*files, report(rows))


def zigzag_chain(count):
    """An image with a chain of objects from the first to the last, to the second, and so on.

    The special objects array points to nil before the chain, so that a worker's list of objects has
    to grow for the first object of the chain, and stays empty if it does not."""

    def address(place):
        return BASE + 4 + 8 * (place // 2 if place % 2 == 0 else count - 1 - place // 2)

    data = array.array("I", [CLASS_HEADER]) + array.array("I", bytes(8 * count))
    for place in range(count):
        at = (address(place) - BASE) // 4
        data[at] = 0x110B
        data[at + 1] = address(place + 1) if place + 1 < count else ZERO
    special = BASE + 4 * len(data)
    data.extend((SPECIAL_HEADER, BASE, address(0)))
    return image_file(data, special)


# The words of a class with a name: the class, its name, and each object of it.
CLASS_WORDS, NAME_WORDS, OBJECT_WORDS = 8, 3, 3
# The numbers of objects of a class and of those after it, in turn.
TURNS = (1, 2, 3)


def words_of_classes(count, has_dead, base, order):
    """The words of named classes and their objects after a class without a name, the addresses of
    the objects, and the rows of the classes."""
    words, listed, rows = array.array("I", [CLASS_HEADER]), array.array("I"), []
    for number in range(count):
        if has_dead:
            words.extend((0x110B, ZERO))
        place = base + 4 * len(words)
        name = f"C{number:07}"
        words.extend((0x1123, *[ZERO] * (CLASS_WORDS - 2), place + 4 * CLASS_WORDS, 0x280F))
        words.extend(words_of(name.encode(), order))
        objects = TURNS[number % len(TURNS)]
        for _ in range(objects):
            listed.append(base + 4 * len(words) + 4)
            words.extend((place | 1, 0x109, 2 * number + 1))
        rows.append(Row(objects, 4 * OBJECT_WORDS * objects, place, None, name))
    return words, listed, rows


def classes(count, base=BASE, order="little"):
    """An image with named classes, one to three live objects of each, and dead objects between."""
    files = []
    for has_dead in (True, False):
        words, listed, rows = words_of_classes(count, has_dead, base, order)
        files.append(image_file(*with_special_objects(words, listed, base), base=base, order=order))
    rows.append(Row(1, 4 * (len(listed) + 3), base, None, "?"))
    rows.append(Row(count + 1, 4 * (CLASS_WORDS * count + 1), None, 1, None))
    rows.append(Row(count, 4 * NAME_WORDS * count, None, 2, None))
    rows.append(Row(1, 12, None, 3, None))
    return Made(*files, report(rows))
